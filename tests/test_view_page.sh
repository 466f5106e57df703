#!/bin/sh
# Tests examples/c/view_page.c, built as $1: on the sample file it prints what is expected; on the file of every sample its pages are
# those of the rows that examples/c/join_file.c, built as $2, prints, and what that refuses before 11, or with 19, it refuses
# alike; it shows results with numbers above 2^32 and 2^63, and refuses 2^64 results; it shows copies of rows; each number is
# found back; and its status says what became of the page. make check-c runs it from the top of the repository.
set -u
view_page=$1
join_file=$2
room=$(mktemp -d) || exit 1
trap 'rm -rf "$room"' EXIT
failures=0

fail() {
    echo "test_view_page: $*"
    failures=$((failures + 1))
}

# STATUS LINES ARGUMENT..: the page is these lines, and the status this one
shown() {
    wanted=$1
    lines=$2
    shift 2
    printed=$("$view_page" "$@" 2>/dev/null)
    status=$?
    [ "$status" -eq "$wanted" ] || fail "$*: status $status and not $wanted"
    [ "$printed" = "$lines" ] || fail "$*: another page: $printed"
}

# FILE N: the values of the page from number N on are those rows of $room/joined, which has a line before them
compare() {
    "$view_page" "$1" "$2" >"$room/printed" || fail "$sample from $2 on: status $?"
    head -n 1 "$room/joined" | sed 's/^rows/results/' >"$room/wanted"
    sed '1d; $d' "$room/joined" | tail -n +$(($2 + 1)) | head -n 40 | awk -v n="$2" '{ print n + NR - 1 ": " $0 }' >>"$room/wanted"
    sed 's/ (rows [0-9. ]*)$//' "$room/printed" | cmp -s - "$room/wanted" || fail "$sample from $2 on: another page than the join's rows"
}

# TABLES ROWS: so many tables of one attribute, each with so many rows, up to 255, all of one value
tables() {
    for table in $(seq "$1"); do
        printf 'TB\001\000\000\000%b\000\000\000' "$(printf '\\%04o' "$2")"
        head -c $((4 * $2)) /dev/zero
    done
}

# the sample file, from its first result on and from a later one, and past its last
sample=crates/pigrozd/stdin
"$view_page" $sample >"$room/printed" || fail "the sample file is not shown"
diff examples/c/expected_page "$room/printed" || fail 'the sample file has another page'
shown 0 "$(cat examples/c/expected_page)" $sample 0
shown 0 "$(sed 2,3d examples/c/expected_page)" $sample 2
shown 1 'refused 16 4' $sample 4
shown 1 'refused 16 4' $sample 18446744073709551615

# every sample: the first page, one in the middle, and the last result
compared=0
refused=0
for sample in crates/samples/data/*; do
    tail -c +9 "$sample" >"$room/file"
    "$join_file" <"$room/file" >"$room/joined"
    read -r word number detail <"$room/joined"
    case "$word $number" in
    'rows 0') shown 1 'refused 16 0' "$room/file" ;;
    rows*)
        for first in 0 $((number / 2)) $((number - 1)); do
            compare "$room/file" "$first"
        done
        compared=$((compared + 1))
        ;;
    'refused 11')
        if [ "$detail" = 18446744073709551615 ]; then
            shown 1 'refused 11 18446744073709551615' "$room/file"
        else
            # (expr, since the shell counts up to 2^63 - 1)
            "$view_page" "$room/file" "$(expr "$detail" - 1)" >"$room/printed" || fail "$sample: no last result"
            [ "$(head -n 1 "$room/printed")" = "results $detail" ] || fail "$sample: another number of results"
            [ "$(wc -l <"$room/printed")" -eq 2 ] || fail "$sample: another last page"
            shown 1 "refused 16 $detail" "$room/file" "$detail"
        fi
        ;;
    refused*)
        shown 1 "$word $number $detail" "$room/file"
        refused=$((refused + 1))
        ;;
    *) fail "$sample: the join prints $word" ;;
    esac
done
[ "$compared" -gt 100 ] || fail "the pages of only $compared samples were compared"
[ "$refused" -gt 50 ] || fail "only $refused samples were refused"

# two tables of 200 rows with one value: 40,000 results, from 4,000 on, and the last ten
{ tables 2 200; printf 'PL\003\377\000\001'; } >"$room/large"
"$view_page" "$room/large" 4000 >"$room/printed" || fail 'the large file is not shown'
[ "$(wc -l <"$room/printed")" -eq 41 ] || fail 'the large file has another number of lines'
[ "$(sed -n '1p; 2p; $p' "$room/printed" | tr '\n' ' ')" = 'results 40000 4000: 0 (rows 20 0) 4039: 0 (rows 20 39) ' ] ||
    fail 'the large file has another page'
"$view_page" "$room/large" 39990 >"$room/printed" || fail 'the large file has no last page'
[ "$(sed -n '2p; $p' "$room/printed" | tr '\n' ' ')" = '39990: 0 (rows 199 190) 39999: 0 (rows 199 199) ' ] ||
    fail 'the large file has another last page'

# 2^32 results, the last ten. The plan that is found names the last table first
{ tables 8 16; printf 'PL\000'; } >"$room/many"
"$view_page" "$room/many" 4294967286 >"$room/printed" || fail '2^32 results are not shown'
[ "$(sed -n '1p; 2p; $p' "$room/printed" | tr '\n' ' ')" = "results 4294967296 \
4294967286: 0 (rows 6 15 15 15 15 15 15 15) 4294967295: 0 (rows 15 15 15 15 15 15 15 15) " ] ||
    fail '2^32 results have another last page'
shown 1 'refused 16 4294967296' "$room/many" 4294967296

# 15 * 2^60 results: numbers above 2^63, and the last one. Then 2^64, which have no numbers
{ tables 15 16; tables 1 15; printf 'PL\000'; } >"$room/many"
"$view_page" "$room/many" 12345678901234567890 >"$room/printed" || fail '15 * 2^60 results are not shown'
[ "$(sed -n '1p; 2p' "$room/printed" | tr '\n' ' ')" = "results 17293822569102704640 \
12345678901234567890: 0 (rows 2 13 10 0 15 1 11 14 12 8 9 10 4 5 11 10) " ] ||
    fail '15 * 2^60 results have another page'
[ "$(wc -l <"$room/printed")" -eq 41 ] || fail '15 * 2^60 results have a page of another length'
shown 0 'results 17293822569102704640
17293822569102704639: 0 (rows 15 15 15 15 15 15 15 15 15 15 15 15 15 15 15 14)' "$room/many" 17293822569102704639
shown 1 'refused 16 17293822569102704640' "$room/many" 18446744073709551615
{ tables 16 16; printf 'PL\000'; } >"$room/many"
shown 1 'refused 11 18446744073709551615' "$room/many"
shown 1 'refused 11 18446744073709551615' "$room/many" 18446744073709551615

# copies: a table of two rows with 2 and 65,535 of them, one without copies, and one of a row with 3. Then a row of none, and of
# 65,536; and a file that is cut in its copies
counted() {
    printf 'TC\001\000\000\000\002\000\000\000\002\000\000\000\377\377\000\000'
    head -c 8 /dev/zero
    tables 1 2
    printf 'TC\002\000\000\000\001\000\000\000\003\000\000\000\007\000\000\000PL\000'
}
counted >"$room/counted"
"$view_page" "$room/counted" >"$room/printed" || fail 'copies are not shown'
[ "$(sed -n '1,5p; 8p; 14p; 41p' "$room/printed" | tr '\n' ' ')" = "results 393222 0: 0 7 (rows 0.0 0 0.0) 1: 0 7 (rows 0.1 0 0.0) \
2: 0 7 (rows 1.0 0 0.0) 3: 0 7 (rows 1.1 0 0.0) 6: 0 7 (rows 1.4 0 0.0) 12: 0 7 (rows 1.10 0 0.0) 39: 0 7 (rows 1.37 0 0.0) " ] ||
    fail 'copies have another page'
shown 0 'results 393222
393221: 0 7 (rows 1.65534 1 0.2)' "$room/counted" 393221
shown 1 'refused 16 393222' "$room/counted" 393222
for copies in '\000\000\000\000' '\000\000\001\000' '\377\377\377\377'; do
    { tables 1 2; printf 'TC\001\000\000\000\001\000\000\000%bAAAAPL\000' "$copies"; } >"$room/wrong"
    shown 1 'refused 19 18' "$room/wrong"
    head -c 35 "$room/wrong" >"$room/cut"
    shown 1 'refused 1 18' "$room/cut"
    head -c 31 "$room/wrong" >"$room/cut"
    shown 1 'refused 1 18' "$room/cut"
done

# what is no number, and a file that is not there
for number in '' -1 +1 ' 1' 0x1 1.0 1e3 18446744073709551616; do
    shown 2 '' crates/pigrozd/stdin "$number"
done
shown 2 ''
shown 2 '' crates/pigrozd/stdin 0 0
shown 2 '' "$room/none"
shown 2 '' "$room"

# a page that is lost
if [ -e /dev/full ]; then
    "$view_page" "$room/large" >/dev/full 2>/dev/null
    [ $? -eq 2 ] || fail 'a full device is not status 2'
fi
"$view_page" "$room/large" >&- 2>/dev/null
[ $? -eq 2 ] || fail 'a closed output is not status 2'

[ "$failures" -eq 0 ]
