#!/bin/sh
# Tests that pages say what include/pigrozd.h says: names and numbers of the answers, limits, the word of a value that was not
# recorded, version; that theorems which pages of answers name are there; and that links of the documents lead somewhere.
# make check-c runs it from the top of the repository.
set -u
room=$(mktemp -d) || exit 1
trap 'rm -rf "$room"' EXIT
failures=0

same() { # WHAT WANTED FOUND
    [ -s "$room/$2" ] && diff "$room/$2" "$room/$3" && return
    echo "test_pages: $1"
    failures=$((failures + 1))
}

# name and number of each answer; 15 is the slow engine's alone, which never gives 10; 16 to 18 are those of the two functions for one
# result, which have one page
sed -n 's/^    \(PIGROZD_[A-Z_]*\) = \([0-9]*\).*/\1 \2/p' include/pigrozd.h >"$room/answers"
sed -n 's/^| \[\([0-9]*\)\].*| `\(PIGROZD_[A-Z_]*\)` |$/\2 \1/p' docs/answers/README.md >"$room/table"
same 'docs/answers has other answers' answers table
grep -v ' 1[5-8]$' "$room/answers" >"$room/join_answers"
grep -v -e ' 10$' -e ' 1[6-8]$' "$room/answers" >"$room/slow_join_answers"
grep -v ' 15$' "$room/answers" >"$room/result_at_answers"
for page in join slow_join result_at; do
    sed -n 's/^\(PIGROZD_[A-Z_]*\)	\([0-9]*\)	.*/\1 \2/p' man/pigrozd_$page.3 >"$room/$page"
    head -n "$(wc -l <"$room/${page}_answers")" "$room/$page" >"$room/manual"
    same "pigrozd_$page.3 has other answers" ${page}_answers manual
done

# what each refusal means
sed -n 's/^    PIGROZD_[A-Z_]* = \([1-9][0-9]*\),* *\/\* \([^;]*\);.*/\1 \2/p' include/pigrozd.h >"$room/meanings"
sed -n 's/^| \[\([1-9][0-9]*\)\]([0-9]*.md) | \([^|]*\) | .*/\1 \2/p' docs/answers/README.md | grep -v '^13 ' >"$room/table"
same 'docs/answers says other words' meanings table

# the limits
sed -n 's/^#define \(PIGROZD_MOST_[A-Z_]*\|PIGROZD_HOLD_LIMIT\) \([0-9]*\).*/\1 \2/p' include/pigrozd.h |
    grep -v -e PIGROZD_MOST_BYTES -e PIGROZD_MOST_WORDS >"$room/limits"
grep -v MOST_CHOICES "$room/limits" >"$room/join_limits"
grep -v -e MOST_SCRATCH_WORDS -e HOLD_LIMIT "$room/limits" >"$room/slow_join_limits"
grep -v -e MOST_OUTPUT_WORDS -e MOST_CHOICES "$room/limits" >"$room/result_at_limits"
for page in join slow_join result_at; do
    tail -n +$(($(wc -l <"$room/${page}_answers") + 1)) "$room/$page" >"$room/manual"
    same "pigrozd_$page.3 has other limits" ${page}_limits manual
done

# the word of a value that was not recorded
word=$(sed -n 's/^#define PIGROZD_NOT_RECORDED \([0-9]*\)u$/\1/p' include/pigrozd.h)
says() { # PAGE WORDS
    grep -q "$2" "$1" || { echo "test_pages: $1 does not say: $2"; failures=$((failures + 1)); }
}
says man/pigrozd_join.3 "PIGROZD_NOT_RECORDED, $word, is a value that"
says man/pigrozd-file.1 "^The value $word means not recorded"
says docs/answers/00.md "the program prints $word"

# the most choices, and how many results have no numbers, with a comma before every third figure
commas() { # NAME
    sed -n "s/^#define $1 \([0-9]*\)u*$/\1/p" include/pigrozd.h | sed ':more; s/\([0-9]\)\([0-9]\{3\}\)\($\|,\)/\1,\2\3/; t more'
}
says docs/answers/15.md "more than $(commas PIGROZD_MOST_CHOICES)"
says man/pigrozd-accept.1 "^$(commas PIGROZD_MOST_CHOICES)\\."
for number in 11 16 17 18; do
    says docs/answers/$number.md "$(commas PIGROZD_HOLD_LIMIT) results"
done

# the theorems that the pages of answers name
for page in docs/answers/*.md; do
    tr '\n' ' ' <"$page" | grep -o '`[a-z0-9_-]*` in `crates/[^`]*`' | tr -d '`' | sed "s|^|$page |"
done >"$room/named"
while read -r page name in file; do
    grep -q "^ *pub $name :" "$file" || echo "test_pages: $page names $name, which is not $in $file"
done <"$room/named" >"$room/theorems"
cat "$room/theorems"
[ -s "$room/theorems" ] && failures=$((failures + 1))
[ "$(wc -l <"$room/named")" -ge 5 ] || { echo 'test_pages: no theorems are named'; failures=$((failures + 1)); }

# the version; a page that leads to another one has none, and is named there
version=$(sed -n 's/^#define PIGROZD_VERSION "\(.*\)"$/\1/p' include/pigrozd.h)
for page in man/*; do
    leads=$(sed -n '1s/^\.so man3\///p' "$page")
    if [ -n "$leads" ]; then
        says "man/$leads" ", $(basename "$page" .3) \\\\- "
    else
        says "$page" "^.TH .* \"Pigrozd $version\""
    fi
done
grep -q "^## $version" CHANGELOG.md || { echo "test_pages: CHANGELOG.md has no $version"; failures=$((failures + 1)); }

# links to files
for page in *.md docs/*.md docs/answers/*.md docs/changes/*.md; do
    sed 's/`[^`]*`//g' "$page" | grep -o ']([^)#]*[)#]' | sed 's/^](//; s/.$//' | grep -v '^https*:' | grep . | while read -r link; do
        [ -e "$(dirname "$page")/$link" ] || echo "test_pages: $page leads to $link, which is not there"
    done
done >"$room/links"
cat "$room/links"
[ -s "$room/links" ] && failures=$((failures + 1))

[ "$failures" -eq 0 ]
