#!/usr/bin/env bash
# Runs a program on each row of tests/row_data, and compares what it writes and its status with
# what the row says. A row is a folder of files: 'program', the name of the program; 'args', one word
# a line; 'input'; 'output'; and 'status'. A file that is not there is empty, the status is then 0, and
# the program is vacation. A row is added by adding its folder; one with a file of another name fails.
# Text on standard error is wanted if the command line is refused, status 2, and in no other case, but
# that a judge may warn of a log that shows little. Many small rows are one file NAME.cases, which
# tests/cases.py reads. The argument is the program vacation, a file that is built already; with none
# it is the one that the repository's last build left. Another program is beside it, or where the
# build of its own crate left it.
set -euo pipefail
export LC_ALL=C
tests="$(dirname "$(readlink -f "${BASH_SOURCE[0]}")")"
# (Exported below under a name of its own: the 'python3' of pyenv sets a variable 'program'.)
vacation_program="${1:-$tests/../crates/vacation/out/vacation}"
work="$(mktemp -d)"
trap 'rm -rf "$work"' EXIT

if [ ! -x "$vacation_program" ]; then
    echo "rows: there is no program at $vacation_program: './vacation' builds it" >&2
    exit 1
fi

# The file of the program with this name.
file_of() {
    local folder
    folder="$(dirname "$(readlink -f "$vacation_program")")"
    if [ "$1" = vacation ]; then
        echo "$vacation_program"
    elif [ -x "$folder/$1" ]; then
        echo "$folder/$1"
    else
        echo "$folder/../../$1/out/$1"
    fi
}

# The file of a row, or an empty one.
part() {
    if [ -f "$1/$2" ]; then echo "$1/$2"; else echo /dev/null; fi
}

# Runs the words of a command line, the name of a program and its words. (Exported: cases.py runs it too.)
run_words() {
    timeout 60 "$(file_of "$1")" "${@:2}"
}
export vacation_program
export -f file_of run_words

# Runs one row; says what differs.
run_row() {
    local row="$1" words=() status=0 wanted=0 refused=0 complains=0 other name=vacation
    other="$(find "$row" -mindepth 1 ! -name program ! -name args ! -name input ! -name output ! -name status)"
    if [ -n "$other" ]; then
        echo "rows: $(basename "$row"): no file of a row: $other" >&2
        return 1
    fi
    [ ! -f "$row/program" ] || name="$(cat "$row/program")"
    mapfile -t words < "$(part "$row" args)"
    [ ! -f "$row/status" ] || wanted="$(cat "$row/status")"
    run_words "$name" "${words[@]}" < "$(part "$row" input)" \
        > "$work/output" 2> "$work/errors" || status=$?
    ! grep -qv '^warning: ' "$work/errors" || refused=1
    if [ "$status" != "$wanted" ]; then
        echo "rows: $(basename "$row"): the status is $status, not $wanted" >&2
        return 1
    fi
    if ! diff "$(part "$row" output)" "$work/output" > "$work/difference"; then
        echo "rows: $(basename "$row"): the output differs (< wanted, > written):" >&2
        head -n 10 "$work/difference" >&2
        return 1
    fi
    [ "$wanted" != 2 ] || complains=1
    if [ "$refused" != "$complains" ]; then
        echo "rows: $(basename "$row"): standard error has text in the wrong case" >&2
        return 1
    fi
}

rows=0
failed=0
for row in "$tests"/row_data/*/; do
    rows=$((rows + 1))
    run_row "${row%/}" || failed=$((failed + 1))
done
if [ "$rows" = 0 ]; then
    echo "rows: there are no rows in $tests/row_data" >&2
    exit 1
fi
echo "rows: $((rows - failed)) of $rows rows are as they should be"
python3 "$tests/cases.py" || failed=$((failed + 1))
[ "$failed" = 0 ]
