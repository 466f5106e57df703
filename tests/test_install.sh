#!/bin/sh
# Tests make install: into a temporary folder, then the example compiled with what pkg-config says, run and compared; the
# programs; the manual pages; and that make uninstall leaves no file. make check-c runs it from the top of the repository.
set -u
make=${MAKE:-make}
cc=${CC:-cc}
room=$(mktemp -d) || exit 1
trap 'rm -rf "$room"' EXIT
failures=0

fail() {
    echo "test_install: $*"
    failures=$((failures + 1))
}

version=$(sed -n 's/^#define PIGROZD_VERSION "\(.*\)"$/\1/p' include/pigrozd.h)
major=${version%%.*}

$make -s install PREFIX="$room/prefix" || exit 1
(cd "$room/prefix" && find . ! -type d | sort) >"$room/found"
cat >"$room/wanted" <<EOF
./bin/pigrozd-accept
./bin/pigrozd-file
./include/pigrozd.h
./lib/libpigrozd.a
./lib/libpigrozd.so
./lib/libpigrozd.so.$major
./lib/libpigrozd.so.$version
./lib/pkgconfig/pigrozd.pc
./share/man/man1/pigrozd-accept.1
./share/man/man1/pigrozd-file.1
./share/man/man3/pigrozd_join.3
./share/man/man3/pigrozd_number_of.3
./share/man/man3/pigrozd_result_at.3
./share/man/man3/pigrozd_slow_join.3
EOF
diff "$room/wanted" "$room/found" || fail 'other files are installed'

# the example with pkg-config's flags, over the shared library, which is loaded by its soname
if command -v pkg-config >/dev/null; then
    export PKG_CONFIG_PATH="$room/prefix/lib/pkgconfig"
    [ "$(pkg-config --modversion pigrozd)" = "$version" ] || fail 'pkg-config has another version'
    # shellcheck disable=SC2046
    $cc -std=c99 -o "$room/shared" examples/c/join_sample.c $(pkg-config --cflags --libs pigrozd) || fail 'no example with pkg-config'
    rm "$room/prefix/lib/libpigrozd.so"
    LD_LIBRARY_PATH="$room/prefix/lib" "$room/shared" >"$room/printed" || fail 'the example over the shared library fails'
    diff examples/c/expected "$room/printed" || fail 'the example over the shared library prints something else'
else
    echo 'test_install: there is no pkg-config, so its file is not tested'
fi

# over the static one
$cc -std=c99 -I"$room/prefix/include" -o "$room/static" examples/c/join_sample.c "$room/prefix/lib/libpigrozd.a" || fail 'no static example'
"$room/static" >"$room/printed" || fail 'the static example fails'
diff examples/c/expected "$room/printed" || fail 'the static example prints something else'

"$room/prefix/bin/pigrozd-file" <crates/pigrozd/stdin >"$room/printed" || fail 'the program fails'
diff crates/pigrozd/stdout "$room/printed" || fail 'the program prints something else'
[ "$("$room/prefix/bin/pigrozd-accept" <crates/pigrozd/stdin)" = 'same 0 0 4' ] || fail 'the engines do not agree'

# the manual pages; two functions have one
for page in man1/pigrozd-file.1 man1/pigrozd-accept.1 man3/pigrozd_join.3 man3/pigrozd_slow_join.3 man3/pigrozd_result_at.3; do
    if command -v mandoc >/dev/null; then
        mandoc -T lint -W warning "$room/prefix/share/man/$page" || fail "mandoc warns of $page"
    elif command -v groff >/dev/null; then
        [ -z "$(groff -man -ww -Tutf8 "$room/prefix/share/man/$page" 2>&1 >/dev/null)" ] || fail "groff warns of $page"
    fi
done
[ "$(cat "$room/prefix/share/man/man3/pigrozd_number_of.3")" = '.so man3/pigrozd_result_at.3' ] || fail 'a page leads elsewhere'

$make -s uninstall PREFIX="$room/prefix" || fail 'make uninstall fails'
left=$(find "$room/prefix" ! -type d)
[ -z "$left" ] || fail "make uninstall leaves $left"

# DESTDIR goes before every path, and nothing that is installed names it
$make -s install PREFIX=/usr DESTDIR="$room/stage" || exit 1
[ -e "$room/stage/usr/lib/libpigrozd.so.$version" ] || fail 'DESTDIR is not used'
grep -r -l "$room/stage" "$room/stage" && fail 'an installed file names DESTDIR'
grep -q '^prefix=/usr$' "$room/stage/usr/lib/pkgconfig/pigrozd.pc" || fail 'pkg-config has another prefix'
$make -s uninstall PREFIX=/usr DESTDIR="$room/stage" || fail 'make uninstall with DESTDIR fails'
[ -z "$(find "$room/stage" ! -type d)" ] || fail 'make uninstall with DESTDIR leaves a file'

[ "$failures" -eq 0 ]
