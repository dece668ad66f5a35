#!/usr/bin/env bash
# Builds the peers of the benchmark (benchmark/peers), and has 'judge history' call the history of
# each legal and whole: of short loads from calm to crowded, drawn by 'vacation tasks', and of a list
# with each line of the table. A peer's report must be that of the state which its calls leave. With
# their steps drawn apart, their attempts are opaque. A peer that
# crashes and one that stands still, written here, are told as such, and what they had answered is
# there. Under the address and undefined-behaviour sanitizers, where the compiler has them, runtimes
# without validation lead no walk out of the heap. The tasks that a peer draws itself are those that 'vacation tasks' writes, byte for byte. The
# mistakes of benchmark/mutants can be made. Where there is no C++ compiler, or the program draws no
# tasks, or the judge is not built, nothing is tried and the test says so. The argument is the program vacation, a
# file that is built already; with none it is the one that the repository's last build left. The judge stands beside
# it, or in its own crate.
set -euo pipefail
export LC_ALL=C
root="$(dirname "$(readlink -f "${BASH_SOURCE[0]}")")/.."
program="${1:-$root/crates/vacation/out/vacation}"
judge="$(dirname "$(readlink -f "$program")")/judge"
[ -x "$judge" ] || judge="$(dirname "$(readlink -f "$program")")/../../judge/out/judge"
work="$(mktemp -d)"
trap 'rm -rf "$work"' EXIT

# The options of each load. The last one has more clients than most machines have processors.
LOADS=(
    "--clients 1"
    "--clients 4 --tasks 500"
    "--clients 4 --tasks 500 --items 64 --asks 8 --user 60"
    "--clients 3 --tasks 500 --items 5 --asks 3 --user 50 --blocks 20"
    "--clients 2 --tasks 300 --items 300 --asks 32 --user 30 --blocks 6000 --seed 9"
    "--clients 16 --tasks 100 --items 1 --asks 2 --user 60 --blocks 8"
)

skip() {
    echo "peers: skipped: $1"
    exit 0
}

# Each line of the table, done and refused.
all_lines() {
    cat << 'LINES'
0 add car 7 100 50
0 add flight 2 5 100
0 newcust 3
1 free car 7
1 price car 7
1 free room 9
1 price flight 9
1 add car 9 0 50
1 add car 9 5 -
1 add room 9 1 70
1 reserve 3 car 7
1 reserve 3 car 7 100
1 reserve 3 car 7 2
1 add car 7 0 80
1 reserve 3 car 7 97
1 reserve 3 room 9
1 reserve 3 room 9
1 reserve 3 car 8
1 reserve 4 car 7
1 bill 3
1 bill 4
1 del car 7 1
1 del car 8 1
1 cancel 3 car 8
1 cancel 4 car 7
1 cancel 3 flight 2
1 cancel 3 room 9
1 del room 9 1
1 free room 9
1 reserve 3 flight 2
1 del flight 2
1 del flight 1
1 audit
1 dropcust 3
1 dropcust 3
1 del flight 2
1 newcust 3
1 newcust 3
1 add car 1 5 50
1 add car 2 5 50
1 add car 3 5 40
1 trip 3 car 3 car 1 car 2 room 9
1 trip 5 car 1 flight 2
1 trip 6 room 9
1 leave 3
1 leave 3
1 update add room 9 2 70 ; del car 3 6 ; del flight 1 ; add car 3 1 -
1 add car 4 1000000 9
1 newcust 9
LINES
    for _ in {1..999}; do echo "1 add car 4 1000000 -"; done
    echo "1 add car 4 1 -"
    for _ in {1..101}; do echo "1 reserve 9 car 4 100"; done
    echo "1 audit"
}

blocks_of() {
    if [[ "$1" =~ --blocks\ ([0-9]+) ]]; then echo "${BASH_REMATCH[1]}"; else echo 1024; fi
}

# So many tries give no task up, so that each history is whole.
TRIES=1048576

# A peer by its name, or a method of libitm: 'itm:gl_wt'.
run_peer() {
    local peer="$1"
    shift
    if [[ "$peer" = *:* ]]; then
        ITM_DEFAULT_METHOD="${peer#*:}" "$work/${peer%:*}" --tries "$TRIES" "$@"
    else
        "$work/$peer" --tries "$TRIES" "$@"
    fi
}

# Runs a peer on the tasks of a file, and has its history judged.
try_peer() {
    local peer="$1" tasks="$2" blocks="$3" name="$4" verdict report whole
    if ! run_peer "$peer" --blocks "$blocks" --history < "$tasks" \
        > "$work/history" 2> "$work/told"; then
        echo "peers: $peer, $name: it failed: $(tail -n 1 "$work/told")" >&2
        return 1
    fi
    whole=(--tasks "$tasks")
    verdict="$("$judge" history --given-order --blocks "$blocks" "${whole[@]}" < "$work/history" || true)"
    report="$(grep '^cars=' "$work/told")"
    if [[ "$verdict" != "legal calls=$(wc -l < "$tasks") clients="*$'\n'"$report" ]]; then
        echo "peers: $peer, $name: the judge says '$verdict' of $(wc -l < "$tasks") tasks;" \
            "the report is '$report'" >&2
        return 1
    fi
}

# The options of tasks that the peers draw themselves, beside those of the loads.
DRAWN=(
    ""
    "--reads 50 --tasks 400"
    "--reads 100 --clients 1 --tasks 1000 --seed 0"
    "--clients 16 --tasks 50 --items 2 --asks 1 --seed 18446744073709551615"
    "--clients 64 --tasks 20 --items 1 --asks 32 --user 0 --blocks 4"
    "--clients 1 --tasks 3000 --items 65536 --blocks 262144 --user 100 --seed 77"
)

# A peer writes the same tasks as the program, byte for byte, and does these where its clients draw
# them.
try_draws() {
    local peer="$1" load="$2" options verdict whole
    read -ra options <<< "$load"
    whole=(--tasks "$work/tasks")
    "$program" tasks "${options[@]}" > "$work/tasks"
    if ! "$work/$peer" --print "${options[@]}" | cmp -s - "$work/tasks"; then
        echo "peers: $peer draws other tasks than 'tasks' writes: $load" >&2
        return 1
    fi
    run_peer "$peer" --draw --history "${options[@]}" > "$work/history" 2> "$work/told" || true
    verdict="$("$judge" history --given-order --blocks "$(blocks_of "$load")" "${whole[@]}" < "$work/history" || true)"
    if [[ "$verdict" != "legal calls=$(wc -l < "$work/tasks") clients="*$'\n'"$(grep '^cars=' "$work/told")" ]]; then
        echo "peers: $peer --draw $load: the judge says '$verdict'; $(tail -n 1 "$work/told")" >&2
        return 1
    fi
}

# Runs a peer with its steps drawn apart, and has its attempts judged.
try_attempts() {
    local peer="$1" tasks="$2" blocks="$3" name="$4" verdict
    run_peer "$peer" --blocks "$blocks" --attempts --jitter 7 < "$tasks" > "$work/attempts" 2> "$work/told"
    verdict="$("$judge" attempts --words "$((16 + 8 * blocks))" < "$work/attempts" || true)"
    if [[ "$verdict" != "opaque attempts="*" committed="*" clients="* ]]; then
        echo "peers: $peer, $name: of its attempts the judge says '$verdict'" >&2
        return 1
    fi
}

# A peer that answers 100 calls, and then crashes, or stands still where it is told to.
faulty_peer() {
    cat << 'PEER'
#include "driver.hpp"
#include "locked.hpp"
#include <mutex>

struct Faulty : vacation::LockedRuntime<std::mutex> {
    using Base = vacation::LockedRuntime<std::mutex>;
    using Base::Base;
    struct Client : Base::Client {
        Client(Faulty& runtime, const vacation::Seat& seat) : Base::Client(runtime, seat) {}
        bool call(const vacation::Task& task, vacation::Reply& reply, unsigned tries)
        {
            if (++calls_ > 100)
                tries == 2 ? std::abort() : std::this_thread::sleep_for(std::chrono::hours(1));
            return Base::Client::call(task, reply, tries);
        }
        unsigned calls_ = 0;
    };
};

int main(int count, char** words) { return vacation::run_peer<Faulty>(count, words); }
PEER
}

# The faulty peer with these options: its status, its word, and calls that are there. A call that was
# cut short may have taken effect before the calls behind which it stands.
try_faulty() {
    local status="$1" word="$2" found=0
    shift 2
    "$program" tasks --clients 2 --tasks 200 --items 5 > "$work/tasks"
    "$work/faulty" --history --patience 1 "$@" < "$work/tasks" > "$work/history" 2> "$work/told" || found=$?
    if [ "$found" != "$status" ] || ! grep -q "$word" "$work/told" ||
        [[ "$("$judge" history < "$work/history")" != "legal calls="* ]] ||
        [ "$(grep -c '^[12] ' "$work/history")" -lt 100 ]; then
        echo "peers: a faulty peer ($*): status $found, $(wc -l < "$work/history") calls, $(cat "$work/told")" >&2
        return 1
    fi
}

# Runtimes without validation, whose doomed attempts walk through words of different states.
UNVALIDATED=(no-validation norec-reads-without-looking)
SANITIZERS="-fsanitize=address,undefined -fno-sanitize-recover=all"

# Runs them under the sanitizers, which must have nothing to say; a run that was led astray says so.
try_sanitized() {
    local edits=() edit mode
    for edit in "${UNVALIDATED[@]}"; do edits+=(--only "$edit"); done
    CXXFLAGS="-O0 $SANITIZERS" python3 -B "$root/benchmark/mutants/try.py" --build "$work" "${edits[@]}"
    "$program" tasks --tasks 300 --items 8 --asks 6 --user 60 --blocks 256 > "$work/tasks"
    for edit in "${UNVALIDATED[@]}"; do
        for mode in --history --attempts; do
            "$work/$edit.out" --blocks 256 --tries 20 --patience 10 "$mode" < "$work/tasks" \
                > "$work/log" 2> "$work/told" || true
            if grep -qE 'Sanitizer|runtime error|ended by signal' "$work/told" ||
                ! grep -q '^seconds ' "$work/told"; then
                echo "peers: $edit $mode under sanitizers: $(head -n 5 "$work/told")" >&2
                return 1
            fi
        done
    done
}

has_sanitizers() {
    echo 'int main() { return 0; }' > "$work/none.cpp"
    # shellcheck disable=SC2086
    "${CXX:-g++}" $SANITIZERS "$work/none.cpp" -o "$work/none" 2> /dev/null && "$work/none"
}

if [ ! -x "$program" ]; then
    echo "peers: there is no program at $program: './vacation' builds it" >&2
    exit 1
fi
"$program" tasks --help > /dev/null 2>&1 || skip "this program has no 'tasks'"
[ -x "$judge" ] || skip "there is no program at $judge: './judge' builds it"
command -v g++ > /dev/null 2>&1 || command -v c++ > /dev/null 2>&1 ||
    skip "there is no C++ compiler (g++ or c++)"

export CXXFLAGS="${CXXFLAGS:--O1}"
mapfile -t peers < <("$root/benchmark/build" "$work")
wait "$!" || { echo "peers: they could not be built" >&2; exit 1; }
[ "${#peers[@]}" -gt 0 ] || { echo "peers: there are no peers" >&2; exit 1; }
if [[ " ${peers[*]} " = *" itm "* ]]; then peers+=(itm:gl_wt); fi
tried=0
failed=0
for load in "${LOADS[@]}" "each line"; do
    if [ "$load" = "each line" ]; then
        all_lines > "$work/tasks"
    else
        read -ra options <<< "$load"
        "$program" tasks "${options[@]}" > "$work/tasks"
    fi
    for peer in "${peers[@]}"; do
        tried=$((tried + 1))
        try_peer "$peer" "$work/tasks" "$(blocks_of "$load")" "$load" || failed=$((failed + 1))
        if [[ "$load" = *--clients\ [2-4]\ * ]]; then
            tried=$((tried + 1))
            try_attempts "$peer" "$work/tasks" "$(blocks_of "$load")" "$load" || failed=$((failed + 1))
        fi
    done
done
for load in "${LOADS[@]}" "${DRAWN[@]}"; do
    for peer in "${peers[0]}" tl2; do
        tried=$((tried + 1))
        try_draws "$peer" "$load" || failed=$((failed + 1))
    done
done
for options in "--clients 2" "--draw --clients 0" "--draw --clients 65" "--draw --reads 101" "--draw --items 257" \
    "--draw --tasks" "--print --asks 33" "--draw --seed -1"; do
    read -ra words <<< "$options"
    tried=$((tried + 1))
    status=0
    "$work/tl2" "${words[@]}" < /dev/null > /dev/null 2>&1 || status=$?
    [ "$status" = 2 ] || { echo "peers: tl2 $options: status $status" >&2; failed=$((failed + 1)); }
done
python3 -B "$root/benchmark/mutants/try.py" --check > /dev/null || failed=$((failed + 1))
if has_sanitizers; then
    tried=$((tried + 1))
    try_sanitized || failed=$((failed + 1))
else
    echo "peers: skipped: the compiler has no sanitizers (-fsanitize=address,undefined)"
fi
faulty_peer > "$work/faulty.cpp"
read -ra flags <<< "-std=c++17 $CXXFLAGS -pthread"
"$(command -v g++ || command -v c++)" "${flags[@]}" -I "$root/benchmark/peers" "$work/faulty.cpp" -o "$work/faulty"
try_faulty 1 "ended by signal" --tries 2 || failed=$((failed + 1))
try_faulty 3 "has answered nothing for 1 seconds" --tries 1 || failed=$((failed + 1))
echo "peers: ${#peers[@]} peers (${peers[*]}), $tried runs and two faulty ones, $failed failed"
[ "$failed" = 0 ]
