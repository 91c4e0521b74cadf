#!/bin/sh
# All tests, in order, from the repository's root or anywhere else: the documents are held to the tree,
# the library and the program are made where they are missing or older than the crates (their proofs take
# minutes; .ci/run, which begins with `rt ci`, has made both), the header is held to the library, the C host
# is compiled and run, the second program is compared with it, and the operator's tool is tried. Ends at the
# first failure.
set -eu
cd "$(dirname "$0")/.."

CC=${CC:-cc}
work=$(mktemp -d)
trap 'rm -rf "$work"' EXIT

# Runs a step with its output kept, which is printed only if it fails.
step() {
    name=$1
    shift
    if "$@" >"$work/log" 2>&1; then
        echo "ok      $name"
    else
        cat "$work/log"
        echo "FAILED  $name"
        exit 1
    fi
}

step "documents against the tree" sh tests/docs-check.sh
step "what has to be believed, as README lists it" python3 tests/believed.py
step "the library and the program" make -s libraries crates/desk/out/desk
step "header against the library" sh tests/header-check.sh

step "compile examples/host.c" \
    "$CC" -std=c11 -Wall -Wextra -Werror -Iinclude examples/host.c build/libyordzepa.a -o "$work/host"
run_host() {
    "$work/host" >"$work/host.stdout" && diff examples/host.stdout "$work/host.stdout"
}
step "run examples/host.c" run_host
step "install, hosts by pkg-config, uninstall" sh tests/install.sh

step "compile tests/stack.c" \
    "$CC" -std=c11 -O1 -Wall -Wextra -Werror -Iinclude tests/stack.c build/libyordzepa.a -o "$work/stack"
step "stack of a call" "$work/stack"

# Not the libraries but what this host does with them; tests/guard.c says what is seen and what not.
step "compile tests/guard.c" \
    "$CC" -std=c11 -O1 -g -Wall -Wextra -Werror -fsanitize=address,undefined -fno-sanitize-recover=all \
    -Iinclude tests/guard.c build/libyordzepa.a -o "$work/guard"
step "sanitizers around lent memory" "$work/guard"

# The operator's tool, all but what measures time, which `make test-tool` adds; beside it the comparisons.
sh tests/tool/run.sh gate >"$work/tool" 2>&1 &
tool=$!
trap 'kill "$tool" 2>/dev/null || :; rm -rf "$work"' EXIT

for file in tests/tests/*.rs; do
    library=$(basename "$file" .rs)
    step "second program: $library" \
        cargo test --release --offline --locked --quiet --manifest-path tests/Cargo.toml --features engine --test "$library" \
        -- --nocapture
    # how often each pair of kind and code, and each branch of the steps, was reached
    [ "$library" != book ] || sed -n '/ calls, .* reads$/,/^$/p' "$work/log"
done

status=0
wait "$tool" || status=$?
cat "$work/tool"
exit "$status"
