# Read by the scripts of this folder: a program of a folder here, and how long it takes.

# shellcheck source=../checks/program.sh
. "$(dirname "${BASH_SOURCE[0]}")/../checks/program.sh"

# program NAME CRATES..: proves and builds the program of bench/NAME over these crates, in a copy of the repository with
# what was proved there before, which is removed at the end. `program` is then the built file, and `work` a folder.
program() {
    local name=$1 crate
    shift
    need rt python3
    work=$(mktemp -d)
    trap 'rm -rf "$work"' EXIT
    tar --create crates.txt HANDLES crates | tar --extract --directory "$work"
    crate="$work/crates/bench_$name"
    mkdir -p "$crate/src" "$crate/proofs/does"
    cp "bench/$name/main.txt" "$crate/src/main.rt"
    cp "bench/$name/invariants.txt" "$crate/proofs/does/Invariants.antt"
    echo "bench_$name: $*" >>"$work/crates.txt"
    echo "Proving and building the program, and every crate below it where that is not done yet .." >&2
    if ! (cd "$crate" && rt run) >"$work/build.log" 2>&1 && [ ! -x "$crate/out/bench_$name" ]; then
        tail -n 20 "$work/build.log" >&2
        exit 1
    fi
    program="$crate/out/bench_$name"
}

# time_of COUNT WORDS..: the least time of three runs of these words, which do a thing COUNT times, in milliseconds for
# each.
time_of() {
    local count=$1 best=0 begun time round
    shift
    for round in 1 2 3; do
        begun=${EPOCHREALTIME/./}
        "$@" >/dev/null || [ $? -eq 1 ]
        time=$((${EPOCHREALTIME/./} - begun))
        if [ "$best" -eq 0 ] || [ "$time" -lt "$best" ]; then best=$time; fi
    done
    awk -v time="$best" -v count="$count" 'BEGIN { printf "%.3f ms", time / count / 1e3 }'
}

# memory_of WORDS..: the most memory that these words take, in megabytes, by GNU time.
memory_of() {
    if [ -x /usr/bin/time ]; then
        /usr/bin/time -f '%M' "$@" 2>&1 >/dev/null | awk '{ printf "%.1f MB", $1 / 1024 }'
    else
        printf 'GNU time is not there'
    fi
}
