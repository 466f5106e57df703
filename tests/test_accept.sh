#!/bin/sh
# Tests examples/c/accept_file.c, built as $1, and the proved program target/bin/accept: over the file of every sample both say
# that the engines agree, or that nothing is compared; they say the same where the program's buffers are long enough; and the
# example's status says what became of the line. make check-c runs it from the top of the repository.
set -u
accept_file=$1
room=$(mktemp -d) || exit 1
trap 'rm -rf "$room"' EXIT
failures=0

fail() {
    echo "test_accept: $*"
    failures=$((failures + 1))
}

same=0
skipped=0
for sample in crates/samples/data/*; do
    tail -c +9 "$sample" >"$room/file"
    target/bin/accept <"$room/file" >"$room/proved"
    "$accept_file" <"$room/file" >"$room/printed"
    status=$?
    case $(cat "$room/printed") in
    'same '*) wanted=0 ;;
    'skipped '*' 15 0 0') wanted=1 ;;
    *) wanted=none ;;
    esac
    [ "$status" = "$wanted" ] || fail "$sample: status $status and not $wanted"
    case $(cat "$room/proved") in
    'same 11 '* | 'skipped '*) skipped=$((skipped + 1)) ;;
    'same '*)
        same=$((same + 1))
        cmp -s "$room/proved" "$room/printed" || fail "$sample: another line than the program's"
        ;;
    *) fail "$sample: the program prints $(cat "$room/proved")" ;;
    esac
done
[ "$same" -gt 100 ] || fail "only $same samples were compared"
[ "$skipped" -gt 10 ] || fail "only $skipped samples are too large for the program"

# 2^64 results: the join's detail is the limit, and the slow engine refuses so many choices
{
    for table in $(seq 16); do
        printf 'TB\001\000\000\000\020\000\000\000'
        head -c 64 /dev/zero
    done
    printf 'PL\000'
} >"$room/many"
for program in target/bin/accept "$accept_file"; do
    [ "$("$program" <"$room/many")" = 'skipped 11 18446744073709551615 0 15 0 0' ] || fail "$program: another line for 2^64 results"
done

# standard input that is too long for the program
head -c 65537 /dev/zero >"$room/long"
[ "$(target/bin/accept <"$room/long")" = 'refused 13 65536' ] || fail 'the program takes more than 65,536 bytes'
[ "$("$accept_file" <"$room/long")" = 'same 2 0 0' ] || fail 'the example does not take more than 65,536 bytes'

# a line that is lost
if [ -e /dev/full ]; then
    "$accept_file" <crates/pigrozd/stdin >/dev/full 2>/dev/null
    [ $? -eq 2 ] || fail 'a full device is not status 2'
fi
"$accept_file" <crates/pigrozd/stdin >&- 2>/dev/null
[ $? -eq 2 ] || fail 'a closed output is not status 2'

[ "$failures" -eq 0 ]
