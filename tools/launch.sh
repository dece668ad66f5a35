# shellcheck shell=bash
# Builds a proved program of this repository where that is needed, and runs it with the arguments and
# streams given. The scripts vacation and judge set `root`, read this file and call `launch`.
# shellcheck disable=SC2154  # root is set there

# Says why the program cannot run, and ends with that status.
give_up() {
    echo "$name: $1" >&2
    exit "$2"
}

# The crates that the program is made of, by their names.
crates_below() {
    awk -v name="$name" '
        function add(crate, below, number, place) {
            if ((crate in seen) || !(crate in libraries)) return
            seen[crate] = 1
            print crate
            number = split(libraries[crate], below, " ")
            for (place = 1; place <= number; place++) add(below[place])
        }
        { sub(/#.*/, "") }
        NF { split($0, parts, ":"); split(parts[1], head, " "); libraries[head[1]] = parts[2] }
        END { add(name) }' "$root/crates.txt"
}

# Whether the program is there and nothing that it is built from is newer.
is_current() {
    local crate sources=("$root/crates.txt")
    [ -x "$program" ] || return 1
    for crate in $(crates_below); do
        sources+=("$root/crates/$crate/src" "$root/crates/$crate/specs" "$root/crates/$crate/proofs")
    done
    [ -z "$(find "${sources[@]}" -newer "$program" -print -quit 2> /dev/null)" ]
}

# How many processors prove: all there are, but one for each 3 GB of free memory at most.
lanes() {
    local processors rooms
    processors="$(nproc 2> /dev/null || echo 1)"
    rooms="$(awk '/^MemAvailable:/ { print int($2 / 3000000) }' /proc/meminfo 2> /dev/null || true)"
    [ "${rooms:-1}" -gt 1 ] || rooms=1
    echo "$((rooms < processors ? rooms : processors))"
}

# Proves and builds the program, names each library that is done with the time that is left, and runs
# the program on no input. Where the toolchain's parts are not as the faster way knows them, one crate
# after the other goes through rt alone; what it says then goes into the file. The second word is the command.
build() {
    cd "$root/crates/$name" || return
    local processors status=0
    processors="$(lanes)"
    python3 "$root/tools/build_program.py" "$processors" < /dev/null || status=$?
    [ "$status" = 3 ] || return "$status"
    status=0
    rt all check --jobs "$processors" < /dev/null 2>&1 | tee "$1" |
        sed -un "/^== summary/d; s/^== /$name: checked /p" || status=$?
    [ "$status" = 0 ] && rt run -- "$2" < /dev/null >> "$1" 2>&1
}

# The commit of the tree, and whether something in it is not committed; nothing where git cannot say.
commit() {
    local commit changes=""
    commit="$(git -C "$root" rev-parse HEAD 2> /dev/null)" || return 0
    [ -z "$(git -C "$root" status --porcelain 2> /dev/null)" ] ||
        changes=", with changes that are not committed"
    echo "commit $commit$changes"
}

# Runs the program of this name, after a build if it is not current. The second word is a command of the
# program that succeeds on no input.
launch() {
    local first="$2"
    name="$1"
    shift 2
    program="$root/crates/$name/out/$name"
    if [ ! -f "$root/crates.txt" ]; then
        give_up "$root, where this script stands, is no clone: it has no crates.txt" 1
    fi
    if ! is_current; then
        command -v rt > /dev/null 2>&1 ||
            give_up "the Rattle toolchain is missing: no command 'rt' on the PATH" 127
        echo "$name: proving and building the program; the next lines say how long that takes" >&2
        echo "$name: (./dev try runs it within two minutes, with nothing proved)" >&2
        log="$(mktemp)"
        trap 'rm -f "$log"' EXIT
        if ! (build "$log" "$first") >&2; then
            cat "$log" >&2
            give_up "the program could not be built; the lines above say why" 1
        fi
        rm -f "$log"
        touch "$program"
        commit > "$program.commit"
    fi
    # The program knows its version and its toolchain; of which commit it was built is known here.
    if [ "$*" = --version ] && [ -f "$program.commit" ]; then
        "$program" "$@"
        exec cat "$program.commit"
    fi
    # Huge pages, where the system gives them on demand, for memories of more than 2 MB: walks over
    # many entries then take six to nine tenths of the time. Whoever sets tunables, keeps them.
    export GLIBC_TUNABLES="${GLIBC_TUNABLES:-glibc.malloc.hugetlb=1}"
    exec "$program" "$@"
}
