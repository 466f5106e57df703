#!/bin/sh
# Tests examples/c/join_file.c, built as $1: on the file of every sample it prints what the proved program prints, but where that
# has too small buffers (10, 11) or takes no more input (13); of more results than any output fits it says how many they
# are; and its status says what became of the answer. make check-c runs it from the top of the repository.
set -u
join_file=$1
room=$(mktemp -d) || exit 1
trap 'rm -rf "$room"' EXIT
failures=0

fail() {
    echo "test_join_file: $*"
    failures=$((failures + 1))
}

# TABLES ROWS: so many tables of one attribute, each with so many rows, up to 255, all of one value
tables() {
    for table in $(seq "$1"); do
        printf 'TB\001\000\000\000%b\000\000\000' "$(printf '\\%04o' "$2")"
        head -c $((4 * $2)) /dev/zero
    done
}

# NUMBER: the program and the example say that the tables in $room/many have so many results; the plan is left to them
counted() {
    printf 'PL\000' >>"$room/many"
    printed=$(target/bin/pigrozd <"$room/many")
    [ "$printed" = "refused 11 $1" ] || fail "$1 results: the program prints $printed"
    printed=$("$join_file" <"$room/many")
    status=$?
    [ "$printed" = "refused 11 $1" ] || fail "$1 results: the example prints $printed"
    [ "$status" -eq 1 ] || fail "$1 results: status $status and not 1"
}

compared=0
for sample in crates/samples/data/*; do
    tail -c +9 "$sample" >"$room/file"
    target/bin/pigrozd <"$room/file" >"$room/proved"
    "$join_file" <"$room/file" >"$room/printed"
    status=$?
    case $(head -c 11 "$room/printed") in
    rows*) wanted=0 ;;
    refused*) wanted=1 ;;
    *) wanted=none ;;
    esac
    [ "$status" = "$wanted" ] || fail "$sample: status $status and not $wanted"
    case $(cat "$room/proved") in
    'refused 10 '* | 'refused 11 '* | 'refused 13 '*) continue ;;
    esac
    cmp -s "$room/proved" "$room/printed" || fail "$sample: another answer than the program's"
    compared=$((compared + 1))
done
[ "$compared" -gt 100 ] || fail "only $compared samples were compared"

# two tables of 200 rows with one value: 40,000 results, more than the program has room for
{ tables 2 200; printf 'PL\003\377\000\001'; } >"$room/large"
[ "$(target/bin/pigrozd <"$room/large")" = 'refused 11 40000' ] || fail 'the large file has another answer in the program'
"$join_file" <"$room/large" >"$room/printed" || fail 'the large file is not joined'
[ "$(head -n 1 "$room/printed")" = 'rows 40000' ] || fail 'the large file has another number of rows'
[ "$(wc -l <"$room/printed")" -eq 40002 ] || fail 'the large file has another number of lines'

# more results than any output fits: 2^32, 15 * 2^60, and 2^64, for which the limit stands
tables 8 16 >"$room/many"
counted 4294967296
{ tables 15 16; tables 1 15; } >"$room/many"
counted 17293822569102704640
tables 16 16 >"$room/many"
counted 18446744073709551615

# 2^62 results of 4 values, whose words are 2^64
{ printf 'TB\017\000\000\000\004\000\000\000'; head -c 64 /dev/zero; tables 15 16; } >"$room/many"
counted 4611686018427387904

# an answer that is lost
if [ -e /dev/full ]; then
    "$join_file" <"$room/large" >/dev/full 2>/dev/null
    [ $? -eq 2 ] || fail 'a full device is not status 2'
fi
"$join_file" <"$room/large" >&- 2>/dev/null
[ $? -eq 2 ] || fail 'a closed output is not status 2'

[ "$failures" -eq 0 ]
