#!/bin/sh
# Holds include/yordzepa.h to what build/libyordzepa.a exports: the same functions, the layout of
# tests/layout.c, nothing wanted from outside but memcpy and memset, and no clash when all members
# are linked together. Runs from the repository's root or anywhere else.
set -eu
LC_ALL=C
export LC_ALL
cd "$(dirname "$0")/.."

CC=${CC:-cc}
library=build/libyordzepa.a
work=$(mktemp -d)
trap 'rm -rf "$work"' EXIT

fail() {
    echo "header-check: $1" >&2
    exit 1
}

test -f "$library" || fail "$library is missing: run 'make libraries'"

# What the library defines for others.
nm -g --defined-only "$library" | awk 'NF == 3 { print $2, $3 }' >"$work/defined"
awk '$1 != "T" { print $2 }' "$work/defined" >"$work/not-functions"
test ! -s "$work/not-functions" || fail "exported but no function: $(cat "$work/not-functions")"
awk '{ print $2 }' "$work/defined" | sort >"$work/exported"
uniq -d "$work/exported" >"$work/twice"
test ! -s "$work/twice" || fail "exported by two members: $(cat "$work/twice")"

# What the header declares: the preprocessor takes the comments away, and only lines that come from
# the header itself are looked at.
"$CC" -std=c11 -E include/yordzepa.h >"$work/preprocessed"
awk '/^# [0-9]+ "/ { here = ($3 ~ /yordzepa\.h"$/); next } here' "$work/preprocessed" |
    grep -Eo '[A-Za-z_][A-Za-z_0-9]*[[:space:]]*\(' | tr -d '( \t' | sort >"$work/declared"
test -s "$work/declared" || fail "no function found in the header"

comm -23 "$work/exported" "$work/declared" >"$work/undeclared"
test ! -s "$work/undeclared" || fail "exported but not declared: $(cat "$work/undeclared")"
comm -13 "$work/exported" "$work/declared" >"$work/missing"
test ! -s "$work/missing" || fail "declared but not in the library: $(cat "$work/missing")"

# What the library wants from outside.
nm -u "$library" | awk '$1 == "U" { print $2 }' | sort -u | grep -Evx 'memcpy|memset' >"$work/wanted" || :
test ! -s "$work/wanted" || fail "wanted from outside: $(cat "$work/wanted")"

# The layout, and all members in one program.
"$CC" -std=c11 -Wall -Wextra -Werror -pedantic -Iinclude tests/layout.c \
    -Wl,--whole-archive "$library" -Wl,--no-whole-archive -o "$work/layout"

echo "header-check: $(wc -l <"$work/declared" | tr -d ' ') functions declared and exported, layout as expected"
