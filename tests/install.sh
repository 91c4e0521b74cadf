#!/bin/sh
# `make install` into a temporary folder: the example host is compiled by pkg-config alone and its
# output compared, a C++ host too, the tool runs, and `make uninstall` leaves no file. Runs from the
# repository's root or anywhere else.
set -eu
cd "$(dirname "$0")/.."

CC=${CC:-cc}
CXX=${CXX:-c++}
work=$(mktemp -d)
trap 'rm -rf "$work"' EXIT

fail() {
    echo "install: $1" >&2
    exit 1
}

# Every file of a folder, by its path from there.
files() {
    (cd "$1" && find . ! -type d | LC_ALL=C sort)
}

prefix=$work/prefix
make -s install PREFIX="$prefix"
printf '%s\n' ./bin/yordzepa ./include/yordzepa.h ./lib/libyordzepa.a ./lib/pkgconfig/yordzepa.pc \
    ./share/man/man1/yordzepa.1 >"$work/expected"
files "$prefix" | diff "$work/expected" - || fail "these files differ"

# The hosts see nothing of the repository but their own text.
PKG_CONFIG_PATH=$prefix/lib/pkgconfig
export PKG_CONFIG_PATH
flags=$(pkg-config --cflags --libs yordzepa)
cp examples/host.c tests/host.cc "$work"
# shellcheck disable=SC2086
(cd "$work" && "$CC" -std=c11 -Wall -Wextra -Werror host.c $flags -o host)
# shellcheck disable=SC2086
(cd "$work" && "$CXX" -std=c++11 -Wall -Wextra -Werror -pedantic host.cc $flags -o host-of-c++)
"$work/host" >"$work/host.stdout"
diff examples/host.stdout "$work/host.stdout"
"$work/host-of-c++" >"$work/host-of-c++.stdout"
echo 'next open day after 86: 91; opening: code 0' | diff - "$work/host-of-c++.stdout"

version=$("$prefix/bin/yordzepa" --version)
test "$version" = "yordzepa $(pkg-config --modversion yordzepa)" || fail "the tool is $version"

# The page has all that the tool tells.
for command in encode decode load show pairs audit; do
    "$prefix/bin/yordzepa" "$command" --help | sed -e '/^$/d' -e 's/-/\\-/g' >"$work/help"
    grep -Fxc -f "$work/help" "$prefix/share/man/man1/yordzepa.1" >"$work/lines" || :
    test "$(cat "$work/lines")" -ge "$(wc -l <"$work/help")" || fail "the page lacks a line of $command"
done

make -s uninstall PREFIX="$prefix"
test -z "$(files "$prefix")" || fail "uninstall left $(files "$prefix")"

# A package's builder sets DESTDIR, which the installed files must not name.
make -s install DESTDIR="$work/stage" PREFIX=/opt/desk LIBDIR=/opt/desk/lib64
test -x "$work/stage/opt/desk/bin/yordzepa" || fail "no tool below DESTDIR"
grep -Fq "$work" "$work/stage/opt/desk/lib64/pkgconfig/yordzepa.pc" && fail "the pkg-config file names DESTDIR"
PKG_CONFIG_PATH=$work/stage/opt/desk/lib64/pkgconfig
test "$(pkg-config --variable=libdir yordzepa)" = /opt/desk/lib64 || fail "libdir is another"
make -s uninstall DESTDIR="$work/stage" PREFIX=/opt/desk LIBDIR=/opt/desk/lib64
test -z "$(files "$work/stage")" || fail "uninstall left $(files "$work/stage")"

echo "install: two hosts compiled by pkg-config, $version, nothing left by uninstall"
