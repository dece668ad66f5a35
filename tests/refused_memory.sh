#!/usr/bin/env bash
# Refuses each allocation of a run, of a dump, of a check, of a judgement, of drawn tasks, of the help, of the
# version and of a load, with its history or without, in turn, counting upwards until one ends with none refused. Each names the fault and has written a prefix of the whole
# output, or it did without that memory and has written all of it; a load may count the task that
# wanted the memory in its tally instead. In a load of one client the faults come in a known order, so
# that each allocation has its fault's name. Its argument is the program vacation, a file that is built
# already; with none it is the one that the repository's last build left. The judge stands beside it, or in its own
# crate.
set -euo pipefail
root="$(dirname "$(readlink -f "${BASH_SOURCE[0]}")")/.."
program="${1:-$root/crates/vacation/out/vacation}"
judge="$(dirname "$(readlink -f "$program")")/judge"
[ -x "$judge" ] || judge="$(dirname "$(readlink -f "$program")")/../../judge/out/judge"
work="$(mktemp -d)"
trap 'rm -rf "$work"' EXIT

if [ ! -x "$program" ]; then
    echo "refused_memory: there is no program at $program: './vacation' builds it" >&2
    exit 1
fi
if [ ! -x "$judge" ]; then
    echo "refused_memory: there is no program at $judge: './judge' builds it" >&2
    exit 1
fi
if ! command -v cc > /dev/null 2>&1; then
    echo "refused_memory: a C compiler is missing: no command 'cc' on the PATH" >&2
    exit 1
fi

# A library that stands before the allocator and refuses the call with the number REFUSE.
cc -shared -fPIC -O1 -o "$work/refuse.so" -x c - <<'C'
#include <errno.h>
#include <stdlib.h>
#include <unistd.h>
extern void *__libc_malloc(size_t), *__libc_calloc(size_t, size_t);
extern void *__libc_realloc(void *, size_t), *__libc_memalign(size_t, size_t);
static long calls;
static int refused(void) {
    const char *number = getenv("REFUSE");
    if (!number || __atomic_add_fetch(&calls, 1, __ATOMIC_SEQ_CST) != atol(number)) return 0;
    if (write(2, "refused\n", 8) != 8) _exit(9);
    errno = ENOMEM;
    return 1;
}
void *malloc(size_t n) { return refused() ? 0 : __libc_malloc(n); }
void *calloc(size_t k, size_t n) { return refused() ? 0 : __libc_calloc(k, n); }
void *realloc(void *p, size_t n) { return refused() ? 0 : __libc_realloc(p, n); }
void *aligned_alloc(size_t a, size_t n) { return refused() ? 0 : __libc_memalign(a, n); }
int posix_memalign(void **p, size_t a, size_t n) {
    return refused() || !(*p = __libc_memalign(a, n)) ? ENOMEM : 0;
}
C

{
    for id in $(seq 1 400); do echo "add car $id 5 10"; done
    printf 'fly\nadd car 0 1 1\nprice room 9\n'
    printf 'add room 9 5 70\nadd flight 2 5 30\nnewcust 3\nreserve 3 car 7 2\nreserve 3 room 9\n'
    printf 'bill 3\ncancel 3 car 7\ndel car 8 1\ndel flight 2\ndropcust 3\n'
    trip='trip 4'
    for id in $(seq 1 32); do trip="$trip car $id"; done
    update='update add room 1 1 1'
    for id in $(seq 2 32); do update="$update ; add room $id 1 1"; done
    printf '%s\n%s\nleave 4\naudit\n' "$trip" "$update"
    for id in $(seq 1 9000); do echo "free car $id"; done
} > "$work/script"

# Refuses each allocation of a program, whose status of a fault is the second word, on this input and these words in
# turn.
refuse_each() {
    local named=0 number status size program="$1" fault="$2" input="$3"
    shift 3
    "$program" "$@" < "$input" > "$work/whole"
    for number in $(seq 1 2000); do
        status=0
        LD_PRELOAD="$work/refuse.so" REFUSE="$number" "$program" "$@" \
            < "$input" > "$work/out" 2> "$work/err" || status=$?
        if ! grep -qx refused "$work/err"; then
            echo "refused_memory: $*: $((number - 1)) allocations refused in turn, $named of them named as 'fault memory'"
            [ "$named" -gt 0 ]
            return
        fi
        if [ "$status" = 0 ] && cmp -s "$work/out" "$work/whole"; then
            continue
        fi
        if [ "$status" != "$fault" ] || [ "$(tail -n 1 "$work/out")" != "fault memory" ]; then
            echo "refused_memory: $*: allocation $number refused: status $status, and no 'fault memory'" >&2
            return 1
        fi
        size=$(($(stat -c %s "$work/out") - 13))
        if ! cmp -s -n "$size" "$work/out" "$work/whole"; then
            echo "refused_memory: $*: allocation $number refused: the output is no prefix of the whole" >&2
            return 1
        fi
        named=$((named + 1))
    done
    echo "refused_memory: $*: the program takes more than 2000 allocations" >&2
    return 1
}

# Refuses each allocation of a load of one client that writes its history in turn. The fault is the last line,
# and what stands before it is nothing or a legal history, as is the whole where the load did without.
refuse_each_of_history() {
    local number status named=0
    for number in $(seq 1 2000); do
        status=0
        LD_PRELOAD="$work/refuse.so" REFUSE="$number" timeout 60 "$program" "$@" \
            > "$work/out" 2> "$work/err" || status=$?
        if ! grep -qx refused "$work/err"; then
            echo "refused_memory: $*: $((number - 1)) allocations refused in turn, $named of them named as faults"
            [ "$named" -gt 0 ]
            return
        fi
        if [ "$status" = 1 ] && tail -n 1 "$work/out" | grep -qxE 'fault (memory|opening|spawn)'; then
            named=$((named + 1))
            sed -i '$d' "$work/out"
        elif [ "$status" != 0 ]; then
            echo "refused_memory: $*: allocation $number refused: status $status, and no fault" >&2
            return 1
        fi
        if ! "$judge" history --given-order < "$work/out" > "$work/verdict"; then
            echo "refused_memory: $*: allocation $number refused: its history is not legal" >&2
            return 1
        fi
    done
    echo "refused_memory: $*: the program takes more than 2000 allocations" >&2
    return 1
}

# Refuses each allocation of a load by so many clients in turn, the first word. One that ends with
# status 0 has its two lines, counts all tasks, and has at most the one task that wanted the memory
# under memory. At least as many refusals as the second word says are counted so. The third word says
# in which order the refusals are told, a letter for each: m, o and s for the faults memory, opening
# and spawn, c for a task that is counted, and d where the load did without that memory.
refuse_each_of_load() {
    local number status first second told="" clients="$1" tasks="$2" order="$3"
    shift 3
    local words=(load --clients "$clients" --tasks 2 --rounds 2 --items 2 --blocks 64 "$@")
    for number in $(seq 1 2000); do
        status=0
        LD_PRELOAD="$work/refuse.so" REFUSE="$number" timeout 60 "$program" "${words[@]}" \
            > "$work/out" 2> "$work/err" || status=$?
        if ! grep -qx refused "$work/err"; then
            echo "refused_memory: ${words[*]}: $((number - 1)) allocations refused in turn: $told"
            told_in_order "$told" "$tasks" "$order"
            return
        fi
        { read -r first && read -r second; } < "$work/out" || second=
        case "$status $(wc -l < "$work/out") $first" in
            '1 1 fault memory') told="${told}m"; continue ;;
            '1 1 fault opening') told="${told}o"; continue ;;
            '1 1 fault spawn') told="${told}s"; continue ;;
            '0 2 answered '*)
                if counts_all_tasks "$first" "$second" $((4 * clients)); then
                    if [[ "$first" == *" memory 1 "* ]]; then told="${told}c"; else told="${told}d"; fi
                    continue
                fi
                ;;
        esac
        echo "refused_memory: ${words[*]}: allocation $number refused: status $status, and this output:" >&2
        cat "$work/out" >&2
        return 1
    done
    echo "refused_memory: ${words[*]}: the program takes more than 2000 allocations" >&2
    return 1
}

# Whether the two lines of a load count this many tasks, at most one of them under memory, and the
# report is balanced.
counts_all_tasks() {
    [[ "$1" =~ ^answered\ ([0-9]+)\ busy\ ([0-9]+)\ memory\ ([01])\ spent\ 0$ ]] &&
        [ "$((BASH_REMATCH[1] + BASH_REMATCH[2] + BASH_REMATCH[3]))" = "$3" ] &&
        [[ "$2" =~ bookings=([0-9]+)\ used=([0-9]+)\ free=([0-9]+)\ total=([0-9]+)\  ]] &&
        [ "${BASH_REMATCH[1]}" = "${BASH_REMATCH[2]}" ] &&
        [ "$((BASH_REMATCH[2] + BASH_REMATCH[3]))" = "${BASH_REMATCH[4]}" ]
}

# Whether refusals were told in this order, and so many tasks were counted at least.
told_in_order() {
    local counted="${1//[^c]/}"
    if ! [[ "$1" =~ ^($3)$ ]] || [ "${#counted}" -lt "$2" ]; then
        echo "refused_memory: these are not $2 counted tasks, and faults in the order $3" >&2
        return 1
    fi
}

# The tasks of a load, with asks that need memory of their own, and the history of the load.
drawn=(--clients 1 --tasks 50 --items 8 --asks 32 --blocks 64)
"$program" tasks "${drawn[@]}" > "$work/tasks"
"$program" load "${drawn[@]}" --history > "$work/history" 2> /dev/null

refuse_each "$program" 1 "$work/script" run
refuse_each "$program" 1 "$work/script" dump
"$program" dump < "$work/script" > "$work/words"
refuse_each "$program" 1 "$work/words" check
refuse_each "$judge" 4 "$work/history" history --given-order --blocks 64
refuse_each "$judge" 4 "$work/history" history --given-order --blocks 64 --tasks "$work/tasks"
refuse_each "$program" 1 /dev/null tasks "${drawn[@]}"
for each in "$program 1" "$judge 4"; do
    read -r path fault <<< "$each"
    refuse_each "$path" "$fault" /dev/null --help
    refuse_each "$path" "$fault" /dev/null --version
done
refuse_each_of_history load --clients 1 --tasks 2 --rounds 2 --items 2 --blocks 64 --history
# (how many allocations the threads of two clients make before the next round differs from run to run)
refuse_each_of_load 2 0 '[mosdc]*[mos][mosdc]*'
refuse_each_of_load 2 0 '[mosdc]*[mos][mosdc]*' --progress
# (a task of more than eight asks is built in memory of its own: each of the eight tasks may be refused it)
refuse_each_of_load 2 8 '[mosdc]*[mos][mosdc]*' --asks 32
# (the command line and the manager; the opening's commands; the list of the threads; the thread and its
# tasks; the renewal; the second round's thread and tasks; the closing; and what the load does without)
refuse_each_of_load 1 4 '[md]*mo+m+[sc]*s[sc]*m+[sc]*s[sc]*m+d*' --asks 32
