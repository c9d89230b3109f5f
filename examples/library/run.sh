#!/usr/bin/env bash
# A loader in C, without an operating system and without a C library, that runs an image only if the maker signed it. The
# proved library decides that. Here the loader's board is a process of Linux on x86-64; the maker's key and signatures
# are made by another program (peers/lms.py). Builds the loader with an image that the maker signed, with that image and
# one bit of it changed, with another image under that signature, and with one that somebody else signed, and runs each.
# Fails if what was printed is not what expected.txt says. run.sh [FOLDER] takes the library that library/build.sh has
# built there, and without a folder builds it; it needs a compiler of C for x86-64, and does nothing if there is none.
set -euo pipefail
export LC_ALL=C

here=$(cd "$(dirname "${BASH_SOURCE[0]}")" && pwd)
folder=${1:+$(realpath -m -- "$1")}
# shellcheck source=../begin.sh
. "$here/../begin.sh"
compiler=
for tool in "${CC:-cc}" gcc clang; do
    if [ -z "$compiler" ] && command -v "$tool" >/dev/null; then compiler=$tool; fi
done
if [ -z "$compiler" ] || [ "$(uname -sm)" != 'Linux x86_64' ]; then
    echo "the loader was not tried: it needs Linux on x86-64, and a compiler of C" >&2
    exit 0
fi
need objcopy od python3
if [ -z "$folder" ]; then
    folder=$work/library
    "$here/../../library/build.sh" "$folder"
fi

# The maker's key, of types 5 and 3, is derived from an identifier and a seed; so is that of somebody else.
maker=(000102030405060708090a0b0c0d0e0f 35fe183c068bc13ac735a76ac05c37d8d055c34bf945b99c4cdada2e31cc8ca8)
other=(000102030405060708090a0b0c0d0e0f d95321bdf284c2032c7a5209b847eae96c3080c86bfc2585312e15361179d1ac)
lms() {
    bytes "$(python3 -B "$here/../../peers/lms.py" "$@")"
}

# Signs the image with the key of this identifier and seed, at an index: sign IDENTIFIER SEED INDEX
sign() {
    lms sign "$@" "$(hex <image)" >signature
}

# Builds the loader with the image, signature and key that are in this folder, and runs it.
boot() {
    local status=0
    "$compiler" -std=c11 -O2 -Wall -Wextra -ffreestanding -fno-builtin -fno-stack-protector -fno-pie -no-pie -static \
        -nostdlib -fno-tree-loop-distribute-patterns -Wl,--gc-sections -I "$folder/include" \
        "$here/loader.c" "$here/platform.c" "$here/platform.S" "$folder/lib/libmb_library.a" -o loader
    ./loader || status=$?
    echo "(status $status)"
}

cd "$work"
"$compiler" -c "$here/image.S" -o image.o
objcopy -O binary -j .text image.o whole
lms public "${maker[@]}" >key
{
    echo "The maker signs an image, and the loader has the maker's public key:"
    cp whole image
    sign "${maker[@]}" 0
    boot
    echo
    echo "One bit of the image is changed on its way:"
    { printf '\xb9'; tail -c +2 whole; } >image
    boot
    echo
    echo "Somebody puts another image under that signature:"
    sed 's/version 1/version 2/' whole >image
    boot
    echo
    echo "Somebody else signs that image:"
    sign "${other[@]}" 0
    boot
    echo
    echo "The maker signs it, with the next index:"
    sign "${maker[@]}" 1
    boot
} >told
compare_told "$here"
