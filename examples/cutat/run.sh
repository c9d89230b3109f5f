#!/usr/bin/env bash
# An engineer of the maker asks what a power loss leaves of an order, write by write: `cutat` says for each write of the
# order whether the device is then as before it or as after it, and changes no file. The device and its first order are
# those of examples/device-life. Builds the proved program, makes keys, device and order with it, and shows each step.
# Fails if what was printed is not what expected.txt says. How many writes an order has is for the program to choose.
# Each answer is one that peers/commands.py allows, and step 3 shows by `run` what is then left. The noise is known
# here, so that the same keys can be made; people take bytes that nobody can guess, as `head -c 48 /dev/urandom` gives
# them. run.sh [PROGRAM] tries a program that is built. Works from any current folder; beside the build in crates/*/out/
# it writes in a temporary folder alone, which it removes, or in the new folder that KEEP_IN names.
set -euo pipefail
export LC_ALL=C

here=$(cd "$(dirname "${BASH_SOURCE[0]}")" && pwd)
# shellcheck source=../begin.sh
. "$here/../begin.sh"
need cmp cut head od paste sed sha256sum tr
find_or_build "$@"

# Makes the maker's key and the officers', a device, and the order that gives its layer 2 an owner.
make_device() {
    bytes 35fe183c068bc13ac735a76ac05c37d8d055c34bf945b99c4cdada2e31cc8ca8 >noise
    miniboot keygen noise maker.key maker.public
    bytes d95321bdf284c2032c7a5209b847eae96c3080c86bfc2585312e15361179d1ac >noise
    miniboot keygen noise first.key first.public
    bytes c0fcde819a0006907629b33ec8a491a8b0d7cbf7ef92d8dfeb3bb22913d91c30 >noise
    miniboot keygen noise second.key second.public
    bytes 12d71d7255b6325df7487678010fc9dbb905c6d5af1a7d986e75ecdfdc39dfbec10b471ceff881272aa5ed819fd9a0e0 >noise
    printf 'layer one' >code
    miniboot factory noise maker.key first.public code image
    printf 'order establish 2\nowner %s\ntrust countersigned\n' "$(hex <second.public)" >draft
    miniboot sign first.key draft order1
    head -c 32 /dev/zero >noise
}

# Makes the script of these events. An order is given by the name of its file.
script() {
    local event
    for event; do
        if [ -f "$event" ]; then cat "$event"; else echo "$event"; fi
    done >script
}

# Shows for each write of the script's last event what a power loss in it leaves: each_write IMAGE FILL. The first write
# that is answered `new` is in `decides` then.
each_write() {
    local count=0
    decides=
    echo "  \$ miniboot cutat $1 script noise COUNT $2"
    until [ "$count" -gt 0 ] && [ "$(cat printed)" = unstopped ]; do
        count=$((count + 1))
        miniboot cutat "$1" script noise "$count" "$2"
        [ "$(cat printed)" != new ] || decides=${decides:-$count}
        printf '    %-6s %s\n' "$count" "$(cat printed)"
    done
}

the_order() {
    echo "1. Engineer: what does a power loss leave of an order? The script boots a device, and gives it the order last:"
    script boot order1
    hash_of image image
    each_write image 00
    echo "Up to some write the order has not happened; from then on it has. No device is left between the two."
}

the_deciding_write() {
    echo "2. Engineer: and if the write is torn? Only in the one before the first \`new\` does it matter what is left there:"
    local write=$((decides - 1)) fill
    for fill in 00 01 7e ff; do
        ask cutat image script noise "$write" "$fill"
    done
}

the_loss_itself() {
    echo "3. Engineer: is it so when power fails? The same two losses, and what the device says once it is booted:"
    local write=$((decides - 1)) fill
    for fill in 00 01; do
        cp image other
        serve other boot "cut $write fill $fill" order1 boot status off
    done
}

the_boot() {
    echo "4. Engineer: and in the boot after it? That does what the order has left to be done, and the order stays done:"
    cp image other
    serve other boot "cut $decides fill 00" order1
    script boot
    each_write other 00
}

the_files() {
    echo "5. Engineer: which events can be asked about? Any that are the last of their script, which has no cut itself:"
    script boot 'cut 1 fill 00' order1
    ask cutat image script noise 1 00
    script boot status
    ask cutat image script noise 1 00
    echo "The image is as it was:"
    hash_of image image
}

cd "$work"
echo "Making keys, a device and an order, which takes a moment .." >&2
make_device
{
    the_order
    echo
    the_deciding_write
    echo
    the_loss_itself
    echo
    the_boot
    echo
    the_files
} >told
compare_told "$here"
