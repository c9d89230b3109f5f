#!/usr/bin/env bash
# The library of crates/mb_library as programs get it, which no proof sees: builds its archives over what `rt ci` has
# left, by LLVM for x86-64-v2 and for x86-64-v3, and by Rattle's own compiler; compares what each defines and needs with
# checks/library/symbols.txt; compiles the header in old and new C; links each archive into programs without a C library;
# and calls it from C (also with sanitizers on the caller), C++, Python and Rust on values of another program in
# checks/library/vectors: a signature of each of the twenty pairs of types, HSS, a chain, and policies, with changed
# bits; and with each allocation failing in turn. The callers that docs/use/library.md shows are run as they stand there.
# The archive by Rattle's own compiler, of which that page says so, has to answer also if interrupts are served on its
# stack. checks/library.sh [FOLDER] takes a library that library/build.sh has built there in place of these. The archives
# by LLVM stay in library/out, for examples/library. Prints a line for each thing that was tried, and tells on standard
# error what was not, since a tool or a processor is not there, and what was wrong; ends with status 1 if anything was.
set -u
export LC_ALL=C
cd "$(dirname "$0")/.." || exit 2

work=$(mktemp -d)
trap 'rm -rf "$work"' EXIT
here=$PWD/checks/library
vectors=$here/vectors
loader=$PWD/examples/library
failed=0

# Runs these words, and tells what they print, or that they fail, under a title: try TITLE WORD..
try() {
    local title=$1
    shift
    if "$@" >"$work/said" 2>&1; then
        printf '%s: %s\n' "$title" "$(tail -n 1 "$work/said")"
    else
        failed=$((failed + 1))
        printf '%s failed:\n' "$title" >&2
        tail -n 20 "$work/said" >&2
    fi
}

# Whether a tool is there.
has() {
    command -v "$1" >/dev/null && return
    echo "$1 is not there: skipped what needs it" >&2
    return 1
}

# What the archive defines, and what it needs and does not define.
symbols() {
    {
        nm -g --defined-only "$archive" | awk 'NF == 3 { print $2, $3 }'
        nm -gu "$archive" | awk '$1 == "U" && $2 !~ /^rattle_/ { print $1, $2 }'
    } | sort -u >"$work/symbols"
    diff <(awk -v by="$backend" '!/^#/ && (NF == 2 || by != "rattle") { print $1, $2 }' "$here/symbols.txt") \
        "$work/symbols" && echo "as listed"
}

# Compiles the header by this compiler, in each edition of C.
compile_header() {
    local edition
    echo '#include "mb_library.h"' >"$work/header.c"
    for edition in c99 c11 c17; do
        "$1" -std="$edition" -Wall -Wextra -Wpedantic -Werror -I "$folder/include" -fsyntax-only "$work/header.c" || return
    done
    echo "C99, C11 and C17"
}

# Compiles a caller in C with these words, and runs it on the vectors: call_c COMPILER FLAG..
call_c() {
    "$@" -std=c11 -Wall -Wextra -pedantic -Werror -I "$folder/include" "$here/caller.c" "$archive" -o "$work/caller" &&
        "$work/caller" "$vectors"
}

call_cpp() {
    echo '#include "mb_library.h"
int main() { return mb_lms_verdict((const uint8_t *)"", 0, (const uint8_t *)"", 0, (const uint8_t *)"", 0) - MB_NO_KEY; }' \
        >"$work/caller.cpp" &&
        "$1" -std=c++17 -Wall -Wextra -pedantic -Werror -I "$folder/include" "$work/caller.cpp" "$archive" -o "$work/caller" &&
        "$work/caller" && echo "the header and a call"
}

serve_interrupts() {
    "$1" -std=c11 -O1 -mno-red-zone -fno-builtin -fno-stack-protector -Wall -Wextra -Werror -I "$folder/include" \
        "$here/interrupts.c" "$archive" -Wl,-z,now -o "$work/interrupts" && "$work/interrupts" "$vectors/lms.txt"
}

fail_allocations() {
    "$1" -O1 -Wall -Wextra -Werror -I "$folder/include" "$here/failing.c" "$archive" -o "$work/failing" &&
        "$work/failing" "$vectors/maker" "$vectors/chain" "$vectors/said_maker" "$vectors/said_answer" | tee "$work/failing.said" && paste -sd ';' "$work/failing.said"
}

# Links a program without a C library: link_alone COMPILER NAME FLAG..
link_alone() {
    local compiler=$1 name=$2
    shift 2
    (cd "$work" && "$compiler" -std=c11 -O2 -Wall -Wextra -ffreestanding -fno-builtin -fno-stack-protector -fno-pie -no-pie \
        -static -nostdlib -fno-tree-loop-distribute-patterns -I "$folder/include" -I "$loader" -I . "$@" \
        "$here/freestanding.c" "$loader/platform.c" "$loader/platform.S" "$archive" -o "$name")
}

run_alone() {
    cp "$vectors/maker" "$work/key" && cp "$vectors/chain" "$work/image" && : >"$work/signature" &&
        link_alone "$1" alone "$loader/arena.c" && "$work/alone" | cmp - "$vectors/listing" && echo "a chain and a policy"
}

run_signatures_alone() {
    : >"$work/key" && : >"$work/image" && : >"$work/signature" &&
        link_alone "$1" signatures -DSIGNATURES -Wl,--gc-sections && "$work/signatures" &&
        size "$work/signatures" | awk 'NR == 2 { print "signatures, in " $4 " bytes of code and data" }'
}

call_python() {
    "$1" -shared -o "$work/libmb_library.so" -Wl,--whole-archive "$archive" -Wl,--no-whole-archive &&
        python3 -B "$here/caller.py" "$work/libmb_library.so" "$vectors"
}

# Calls cargo with these words, for the processor of the archive, and looks that the crate took that archive.
cargo_for_archive() {
    local flags=''
    [ "$library" != mb_library_v3 ] || flags='-C target-cpu=x86-64-v3'
    MB_LIBRARY=$folder MB_VECTORS=$vectors CARGO_TARGET_DIR=$work/target-$library RUSTFLAGS=$flags \
        cargo "$1" --offline --quiet "${@:2}" &&
        grep -qx "cargo:rustc-link-lib=static=$library" "$work/target-$library"/debug/build/mb_library-*/output
}

call_rust() {
    rm -rf "$work/rust" && cp -r library/rust "$work/rust" &&
        (cd "$work/rust" && cargo_for_archive test) && echo "each function, and eight threads"
}

# The first block in this language of the page on the library.
block() {
    awk -v begin="\`\`\`$1" '$0 == "```" { if (on) exit } on { print } $0 == begin { on = 1 }' docs/use/library.md
}

# Leaves the key, text and signature of the first line of these vectors as files in the folder `page`.
leave_files() {
    local words names=(verdict key text signature) i
    read -ra words < <(grep -m 1 '^1 ' "$vectors/$1")
    for i in 1 2 3; do
        # shellcheck disable=SC2001,SC2059
        printf "$(sed 's/../\\x&/g' <<<"${words[i]}")" >"$work/page/${names[i]}" || return
    done
}

# The page's caller in C, with the flags that pkg-config tells.
page_c() {
    local flags
    block c >"$work/page/update.c" && leave_files lms.txt &&
        read -ra flags < <(PKG_CONFIG_PATH=$folder/lib/pkgconfig pkg-config --cflags --libs "$library") &&
        (cd "$work/page" && "$1" update.c "${flags[@]}" && ./a.out key text signature && ! ./a.out key key signature) &&
        echo "as the page has it"
}

page_rust() {
    mkdir -p "$work/page/src" && block rust >"$work/page/src/main.rs" && (
        printf '[package]\nname = "page"\nedition = "2021"\n\n[dependencies]\nmb_library = { path = "%s" }\n' \
            "$PWD/library/rust" >"$work/page/Cargo.toml"
        cd "$work/page" && cargo_for_archive run -- "$vectors/maker" "$vectors/chain" >listing &&
            diff listing "$vectors/listing"
    ) && echo "as the page has it"
}

page_python() {
    block python >"$work/page/page.py" && leave_files hss.txt && (
        cd "$work/page" && "$1" -shared -o libmb_library.so \
            -Wl,--whole-archive "$archive" -Wl,--no-whole-archive &&
            [ "$(python3 -B page.py key text signature)" = verifies ] &&
            [ "$(python3 -B page.py key key signature)" = 'does not verify' ]
    ) && echo "as the page has it"
}

# Whether this processor runs code for x86-64-v3.
has_v3() {
    local word
    for word in avx avx2 bmi1 bmi2 f16c fma abm movbe; do
        grep -m 1 '^flags' /proc/cpuinfo | grep -qw "$word" || return
    done
}

# Tries the archive of this name in `folder`: try_archive COMPILER NAME TITLE
try_archive() {
    local compiler=$1 title=$3 tool
    library=$2
    archive=$folder/lib/lib$library.a
    backend=llvm
    if grep -q '^flags .*--backend rattle' "$folder/lib/lib$library.txt"; then backend=rattle; fi
    rm -rf "$work/page" && mkdir "$work/page"
    if has nm; then try "$title, symbols" symbols; fi
    if grep -q '^flags .*--cpu x86-64-v3' "$folder/lib/lib$library.txt" && ! has_v3; then
        echo "this processor does not run code for x86-64-v3: skipped what runs $title" >&2
        return
    fi
    for tool in gcc clang; do
        if has "$tool"; then try "$title, C by $tool" call_c "$tool" -O2; fi
    done
    if has clang; then try "$title, C with sanitizers" call_c clang -O1 -fsanitize=address,undefined -fno-sanitize-recover=all; fi
    for tool in g++ clang++; do
        if has "$tool"; then try "$title, C++ by $tool" call_cpp "$tool"; fi
    done
    try "$title, failing allocations" fail_allocations "$compiler"
    if [ "$(uname -sm)" = 'Linux x86_64' ]; then
        try "$title, without a C library" run_alone "$compiler"
        # the other compiler puts all code into one section, and keeps nothing below the stack pointer
        if [ "$backend" = rattle ]; then
            try "$title, interrupts on its stack" serve_interrupts "$compiler"
        else
            try "$title, without a C library and a heap" run_signatures_alone "$compiler"
        fi
    else
        echo "this is not Linux on x86-64: skipped programs without a C library, and interrupts" >&2
    fi
    if has pkg-config; then try "$title, the page's caller in C" page_c "$compiler"; fi
    if has python3; then
        try "$title, Python" call_python "$compiler"
        try "$title, the page's caller in Python" page_python "$compiler"
    fi
    if has cargo; then
        try "$title, Rust" call_rust
        try "$title, the page's caller in Rust" page_rust
    fi
}

# Tries the library in `folder`, under this name.
try_library() {
    local name=$1 compiler='' tool file
    for tool in gcc clang; do
        if has "$tool"; then
            [ -n "$compiler" ] || compiler=$tool
            try "$name, the header by $tool" compile_header "$tool"
        fi
    done
    if [ -z "$compiler" ]; then return; fi
    for file in "$folder"/lib/lib*.a; do
        file=${file##*/lib}
        try_archive "$compiler" "${file%.a}" "$name, ${file%.a}"
    done
}

if [ $# -gt 0 ]; then
    folder=$(realpath -m -- "$1")
    try_library "${1##*/}"
elif has rt; then
    for name in llvm rattle; do
        folder=$work/$name
        flags=(--backend rattle)
        if [ "$name" = llvm ]; then folder=$PWD/library/out flags=(); fi
        if library/build.sh --over-gate "$folder" "${flags[@]}"; then
            try_library "$name"
        else
            failed=$((failed + 1))
            echo "$name: the library was not built" >&2
        fi
    done
fi
[ "$failed" -eq 0 ]
