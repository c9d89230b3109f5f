#!/usr/bin/env bash
# A device from the field, whose image has the earlier form, with a flash that is not in segments, is brought to the
# current form, as docs/use/commands.md says. The image is that of a device which has lived as that of
# examples/device-life, with entries of version 1; old-image.txt has it by offset and bytes, and another program made
# it. A second image is that of the device before its last entry was signed, with the record of codes and log in the
# other area of the flash; pending-image.txt has all of it but that record. Builds the proved program, and shows each
# step. Fails if what was printed is not what expected.txt says. run.sh [PROGRAM] tries a program that is built. Works
# from any current folder; beside the build in crates/*/out/ it writes in a temporary folder alone, which it removes, or
# in the new folder that KEEP_IN names.
set -euo pipefail
export LC_ALL=C

here=$(cd "$(dirname "${BASH_SOURCE[0]}")" && pwd)
# shellcheck source=../begin.sh
. "$here/../begin.sh"
need cmp cut dd head od paste sed sha256sum tr
find_or_build "$@"

# An image of the earlier form, by its name and the file that has its bytes at their offsets. The rest of the flash is
# erased, and the rest of the battery-backed memory is zero.
old_image() {
    local offset hex
    head -c 1048576 /dev/zero | tr '\0' '\377' >"$1"
    head -c 28672 /dev/zero >>"$1"
    while read -r offset hex; do
        bytes "$hex" | dd of="$1" bs=1 seek="$offset" conv=notrunc status=none
    done <"$here/$2"
}

# The second image: the record of the first, up to whether its last entry is signed, stands in the other area.
pending_image() {
    old_image pending pending-image.txt
    dd if=image of=pending bs=1 skip=4 count=18308 seek=524292 conv=notrunc status=none
}

tell() {
    echo "An image of before, as a device in the field has it."
    old_image image old-image.txt
    hash_of image image
    printf 'boot\noff\n' >script
    : >noise
    ask run image script noise

    echo "It is migrated. The image of before is as it was."
    ask migrate image image.new
    hash_of image image

    echo "Before its last entry was signed, power failed. The migration signs it:"
    pending_image
    hash_of pending pending
    ask migrate pending pending.new
    cmp image.new pending.new && echo "  the same"

    echo "The device of the new image is the same. Its maker's key, and the chain that was written of it:"
    bytes 35fe183c068bc13ac735a76ac05c37d8d055c34bf945b99c4cdada2e31cc8ca8 >noise
    miniboot keygen noise maker.key maker.public
    : >noise
    ask chain image.new chain
    ask verify maker.public chain 1
    ask audit image.new maker.public chain 1

    echo "It takes the place of the old one, and what it keeps is there."
    mv image.new image
    serve image boot status "get 2 pin" off

    echo "What was migrated is migrated to the same bytes."
    ask migrate image first
    ask migrate first second
    cmp first second && echo "  the same"
}

cd "$work"
tell >told
compare_told "$here"
