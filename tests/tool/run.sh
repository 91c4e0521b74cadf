#!/bin/sh
# The tool's tests, from the repository's root or anywhere else. 'gate' leaves out what measures time,
# 'time' does it alone. Ends at the first failure. Needs cc, make, python3 and valgrind.
set -eu
cd "$(dirname "$0")/../.."

CC=${CC:-cc}
export CC
LIBRARY=${LIBRARY:-build/libyordzepa.a}
export LIBRARY
part=${1:-all}
work=$(mktemp -d)
trap 'rm -rf "$work"' EXIT

for name in python3 valgrind make "$CC"; do
    command -v "$name" >/dev/null || { echo "$name is missing: install it from Debian's packages" >&2; exit 2; }
done

# Runs a step with its output kept, which is printed only if it fails.
step() {
    name=$1
    shift
    if "$@" >"$work/log" 2>&1; then
        sed -n 's/^\([0-9,]* records:\|[0-9]* kills,\)/        \1/p' "$work/log"
        echo "ok      $name"
    else
        cat "$work/log"
        echo "FAILED  $name"
        exit 1
    fi
}

# One file of tests with a binary: tests BINARY FILE [VARIABLE=VALUE ..]
tests() {
    binary=$1 file=$2
    shift 2
    env "$@" YORDZEPA="$binary" PYTHONDONTWRITEBYTECODE=1 python3 -m unittest discover -s tests/tool -p "$file"
}

# One file of tests with the plain binary and with the checked one, at the same time.
both() {
    tests "$plain" "$1" STEP=3 >"$work/plain" 2>&1 &
    first=$!
    tests "$work/checked" "$1" STEP=48 >"$work/sanitized" 2>&1 &
    second=$!
    result=0
    wait $first || { cat "$work/plain"; result=1; }
    wait $second || { cat "$work/sanitized"; result=1; }
    return $result
}

# The crashes were begun before.
end_crashes() {
    result=0
    wait $crashes || result=1
    cat "$work/crashes"
    return $result
}

# The commands once under valgrind: no error, no leak.
under_valgrind() {
    check="valgrind -q --error-exitcode=99 --leak-check=full --show-leak-kinds=all --errors-for-leak-kinds=all"
    tool=build/yordzepa
    PYTHONDONTWRITEBYTECODE=1 python3 -c "
import sys; sys.path.insert(0, 'tests/tool')
import common
open('$work/day.rec', 'wb').write(b''.join(common.days(250)))
open('$work/bad.rec', 'wb').write(b''.join(common.days(20)) + b'\x06\x00')"
    $check $tool decode -n -o "$work/day.txt" "$work/day.rec"
    $check $tool encode -o "$work/again.rec" "$work/day.txt"
    cmp "$work/day.rec" "$work/again.rec"
    $check $tool load -b 40 "$work/desk.book" "$work/day.rec"
    $check $tool load --after=0 "$work/desk.book" "$work/day.rec"
    $check $tool show "$work/desk.book"
    $check $tool show --csv "$work/desk.book" requests
    $check $tool pairs "$work/desk.book"
    $check $tool pairs --csv --request=1 "$work/desk.book"
    $check $tool audit "$work/desk.book"
    wrong 3 $check $tool load "$work/desk.book" "$work/bad.rec"
    wrong 3 $check $tool decode "$work/bad.rec"
    wrong 3 $check $tool encode "$work/day.rec"
    wrong 3 $check $tool load --after=0 "$work/desk.book" "$work/bad.rec"
    truncate -s -100 "$work/desk.book.journal"
    wrong 4 $check $tool load "$work/desk.book" "$work/day.rec"
    wrong 1 $check $tool audit "$work/desk.book"
    rm "$work/desk.book"
    wrong 7 $check $tool load "$work/desk.book" "$work/day.rec"
    $check $tool load --after=0 "$work/desk.book" "$work/day.rec"
}

# A command that has to end with a status.
wrong() {
    status=$1
    shift
    "$@" && return 1 || test $? -eq "$status"
}

step "make tool" make tool LIBRARY="$LIBRARY"
plain=$PWD/build/yordzepa

if [ "$part" != time ]; then
    step "compile with AddressSanitizer and UBSan" make tool LIBRARY="$LIBRARY" TOOL="$work/checked" \
        CFLAGS="-O1 -g -fsanitize=address,undefined -fno-sanitize-recover=all"
    # It mostly waits for the disk, so the others run beside it.
    tests "$plain" test_crash.py >"$work/crashes" 2>&1 &
    crashes=$!
    for group in test_text test_load test_reads test_damage; do
        step "$group, plain and under the sanitizers" both $group.py
    done
    step "200 kills, and a crash at every call" end_crashes
    step "examples of docs/TOOL.md and README.md" tests "$plain" test_docs.py
    step "valgrind" under_valgrind
fi
if [ "$part" != gate ]; then
    # It measures time, so the gate leaves it out.
    step "test_speed" tests "$plain" test_speed.py
fi
