#!/usr/bin/env bash
# Refuses each allocation of two tests in turn, counting upwards until a run ends with none refused.
# One is test_vac' refused_calls_are_made_again: a call that memory is refused to leaves the state as
# it was, and the same call then answers as it should; the other is test_cli'
# a_refused_load_is_run_again. Each says which call that was, and each kind of call that takes memory
# must have been refused at least once. No refusal goes unnoticed: a call that has a try left, and
# made it after one, would be answered. They run in what the repository's last build of test_vac and
# test_cli left; the program, its argument, they have no use for.
set -euo pipefail
export LC_ALL=C
here="$(dirname "$(readlink -f "${BASH_SOURCE[0]}")")"
most=2000
work="$(mktemp -d)"
trap 'rm -rf "$work"' EXIT

if ! command -v cc > /dev/null 2>&1; then
    echo "refused_calls: a C compiler is missing: no command 'cc' on the PATH" >&2
    exit 1
fi
cc -shared -fPIC -O1 -o "$work/refuse.so" "$here/refuse.c"

# Runs a test with one allocation refused: its crate, its name, the number of the allocation.
run_refused() {
    LD_PRELOAD="$work/refuse.so" REFUSE="$3" timeout 20 "$here/../crates/$1/out/$1_tests" "$2" \
        > "$work/out" 2> "$work/err"
}

# Refuses each allocation of a test, and wants each of these kinds refused: its crate, its name, the
# kinds.
refuse_each() {
    local crate="$1" test="$2" number status
    shift 2
    if [ ! -x "$here/../crates/$crate/out/${crate}_tests" ]; then
        echo "refused_calls: there are no tests of $crate: './test' builds them" >&2
        exit 1
    fi
    : > "$work/seen"
    for number in $(seq 1 "$most"); do
        status=0
        run_refused "$crate" "$test" "$number" || status=$?
        if [ "$status" != 0 ] || ! grep -q '^test result: ok' "$work/out"; then
            echo "refused_calls: $crate, allocation $number refused: status $status:" >&2
            cat "$work/out" "$work/err" >&2
            exit 1
        fi
        if ! grep -q '^refused$' "$work/err"; then
            break
        fi
        grep '^refused: ' "$work/out" >> "$work/seen" || echo "refused: unnoticed" >> "$work/seen"
    done
    if [ "$number" = "$most" ]; then
        echo "refused_calls: the test of $crate takes more than $most allocations" >&2
        exit 1
    fi
    echo "refused_calls: $crate: $((number - 1)) allocations refused in turn:"
    sort "$work/seen" | uniq -c
    if grep -qx "refused: unnoticed" "$work/seen"; then
        echo "refused_calls: a refusal went unnoticed" >&2
        exit 1
    fi
    for kind in "$@"; do
        if ! grep -qx "refused: $kind" "$work/seen"; then
            echo "refused_calls: nothing was refused to '$kind'" >&2
            exit 1
        fi
    done
}

refuse_each test_vac refused::refused_calls_are_made_again \
    "with stripes" "new" "task" "call" "renew, kept" "renew, closed" "close" "audit"
refuse_each test_cli refused::a_refused_load_is_run_again \
    "a load" "a thread" "an opening"
