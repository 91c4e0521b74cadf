#!/bin/sh
# The documents name what is there: every crate stands in docs/ARCHITECTURE.md, and every must-fail edit that docs/PROMISES.md
# names against one of the buyer's wrong engines exists.
set -eu
cd "$(dirname "$0")/.."

status=0
missing() {
    echo "$1"
    status=1
}
for crate in $(sed -n 's/^\([a-z_]*\)\( staticlib\)\{0,1\}:.*/\1/p' crates.txt); do
    grep -qw "$crate" docs/ARCHITECTURE.md || missing "docs/ARCHITECTURE.md does not name the crate $crate"
done
edits=$(sed -n '/^## What the buyer does not accept/,/^## Assumed/p' docs/PROMISES.md | grep -o '[a-z_]*/[a-z0-9_]*')
for edit in $edits; do
    [ -f "crates/${edit%%/*}/must-fail/${edit#*/}.edit" ] || missing "docs/PROMISES.md names $edit, which is no must-fail edit"
done
exit "$status"
