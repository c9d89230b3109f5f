#!/usr/bin/env bash
# Builds the library of crates/mb_library: library/build.sh [--over-gate] FOLDER [FLAG..]. It proves the crate and those
# below it where that is not done yet, and puts into FOLDER include/mb_library.h and two archives: mb_library, for
# x86-64-v2, and mb_library_v3, which is faster and for x86-64-v3. Of each NAME there are lib/libNAME.a,
# lib/pkgconfig/NAME.pc, and lib/libNAME.txt: of which version, commit and kit the archive is, with which flags it was
# built, and its checksum. With flags it builds mb_library alone, by these: they are those of `rt lib`, as
# `--cpu x86-64` for code that runs on any x86-64, or `--backend rattle` for the compiler that is written in Rattle. With
# --over-gate it takes the crates below as `rt ci` has left them, which `rt lib` would prove again, and proves this crate
# alone, once for all calls.
set -euo pipefail
export LC_ALL=C

over_gate=
if [ "${1-}" = --over-gate ]; then
    over_gate=yes
    shift
fi
if [ $# -eq 0 ] || [[ "$1" == -* ]]; then
    echo "usage: library/build.sh [--over-gate] FOLDER [FLAG..]" >&2
    exit 2
fi
top=$(cd "$(dirname "${BASH_SOURCE[0]}")/.." && pwd)
mkdir -p -- "$1"
folder=$(cd -- "$1" && pwd)
shift
if ! command -v rt >/dev/null; then
    echo "rt is needed, and is not on the PATH" >&2
    exit 1
fi
kit=$(dirname "$(rt doc)")
crate=$top/crates/mb_library
work=$(mktemp -d)
trap 'rm -rf "$work"' EXIT

# Runs these words in the crate's folder, and shows what they said if they fail.
run() {
    (cd "$crate" && "$@") >"$work/said" 2>&1 || {
        tail -n 20 "$work/said" >&2
        return 1
    }
}

# Builds the archive with these flags over the libraries that the gate has left. What was proved by an earlier call serves
# if nothing has changed since.
build_over_gate() {
    local name words=()
    for name in $(sed -n 's/^mb_library staticlib: *//p' "$top/crates.txt"); do
        if [ ! -d "$top/crates/$name/out/rlib/$name.rlib" ]; then
            echo "$name is not built: rt ci leaves it in crates/$name/out" >&2
            return 1
        fi
        words+=(--extern "$name=$top/crates/$name/out/rlib/$name.rlib")
    done
    for name in "$top"/crates/*/out/rlib; do words+=(-L "dependency=$name"); done
    # where `rt ci` took what it had kept, it leaves no such folder
    mkdir -p "$crate/out"
    run "$kit/bin/rattle" build --crate-name mb_library src/lib.rt "${words[@]}" \
        --extern "std=$kit/rlibs/std.rlib" -L "dependency=$kit/rlibs" \
        --antt-project "$kit/rattle/logic/antt-project.json" --logic-built "$kit/logic_built" \
        --toolchain "$kit/toolchain" --jobs "${JOBS:-$(nproc)}" --incremental out/incremental \
        --links mb_library= --crate-type staticlib -o out/libmb_library.a "$@"
}

# Of what the archive NAME is, a line for each thing: describe NAME FLAG..
describe() {
    local name=$1 commit
    shift
    commit=$(git -C "$top" rev-parse HEAD 2>/dev/null || echo unknown)
    if [ -n "$(git -C "$top" status --porcelain -- crates crates.txt library 2>/dev/null)" ]; then
        commit="$commit, with changes"
    fi
    echo "version $version"
    echo "commit $commit"
    echo "kit $(rt version)"
    echo "flags ${*:-none}"
    echo "sha256 $(sha256sum <"$folder/lib/lib$name.a" | cut -d ' ' -f 1)"
}

# Builds the archive NAME with these flags: build NAME FLAG..
build() {
    local name=$1
    shift
    if [ -n "$over_gate" ]; then
        build_over_gate "$@"
    else
        run rt lib "$@"
    fi
    cp "$crate/out/libmb_library.a" "$work/archive.a"
    # the three calls of the heap, over malloc, for a program that does not define them; the kit has them for x86-64 alone
    if [[ "$*" != *--target* || "$*" == *x86_64-unknown-linux-gnu* ]]; then
        (cd "$work" && "$kit/toolchain/bin/llvm-ar" x "$kit/c/liblibc_c.a" heap.pic.o &&
            "$kit/toolchain/bin/llvm-ar" rs archive.a heap.pic.o)
    fi
    cp "$work/archive.a" "$folder/lib/lib$name.a"
    sed "s|@VERSION@|$version|; s|@NAME@|$name|" "$top/library/mb_library.pc.in" >"$folder/lib/pkgconfig/$name.pc"
    describe "$name" "$@" >"$folder/lib/lib$name.txt"
}

version=$(sed -n 's/.*The current version is \([0-9.]*\),.*/\1/p' "$top/CHANGELOG.md")
mkdir -p "$folder/lib/pkgconfig" "$folder/include"
# what an earlier call has left and this one does not build
rm -f "$folder"/lib/libmb_library*.{a,txt} "$folder"/lib/pkgconfig/mb_library*.pc
cp "$top/library/include/mb_library.h" "$folder/include/mb_library.h"
[ -n "$over_gate" ] || echo "Proving mb_library, and every crate below it where that is not done yet .." >&2
build mb_library "$@"
if [ $# -eq 0 ]; then
    build mb_library_v3 --cpu x86-64-v3
fi
