#!/usr/bin/env bash
# A fleet of twenty devices in one register. Their maker and their owners are those of examples/device-life; all twenty
# get the same orders, and each is known by its serial. Somebody who trusts the maker's public key, and nothing else, is
# shown their chains on two days, and asks which devices have which code; then come a device whose image was copied and
# has gone on in two ways, one whose host hides a load, and chains of another maker. Builds the proved program, makes
# keys and the devices with it, and shows each step. Fails if what was printed is not what expected.txt says, which
# another program made (peers/examples.py). The noise is known here, so that the same keys can be made; people take
# bytes that nobody can guess, as `head -c 48 /dev/urandom` gives them. run.sh [PROGRAM] tries a program that is built.
# Works from any current folder; beside the build in crates/*/out/ it writes in a temporary folder alone, which it
# removes, or in the new folder that KEEP_IN names.
set -euo pipefail
export LC_ALL=C

here=$(cd "$(dirname "${BASH_SOURCE[0]}")" && pwd)
# shellcheck source=../begin.sh
. "$here/../begin.sh"
need cut head od paste sed sha256sum tr wc
find_or_build "$@"

# Makes somebody's key of the noise, which is given in hexadecimal.
make_key() {
    bytes "$2" >noise
    miniboot keygen noise "$1.key" "$1.public"
}

# Signs an order with somebody's key: order NAME OFFICER DRAFT
order() {
    printf '%b' "$3" >draft
    miniboot sign "$2.key" draft "$1"
}

# Makes the devices of these numbers. The noise of each, which contains its serial, is one byte 48 times, whose two
# hexadecimal digits are those of the number.
born() {
    local device
    for device; do
        bytes "$(printf "%048d" 0 | sed "s/0/$device/g")" >noise
        miniboot factory noise maker.key first.public code "$device"
    done
}

# Gives each of some devices these events: live "DEVICE.." EVENT..
live() {
    local device devices=$1 event
    shift
    for event; do
        if [ -f "$event" ]; then cat "$event"; else echo "$event"; fi
    done >script
    head -c 4096 /dev/zero >noise
    for device in $devices; do
        miniboot run "$device" script noise
    done
}

# The items that show the chains of these devices as they are now: a byte 1, the length of the chain, and the chain.
shows() {
    local device
    for device; do
        miniboot chain "$device" chain
        bytes "$(printf '01%08x' "$(wc -c <chain)")"
        cat chain
    done
}

the_devices() {
    echo "A maker has made twenty devices for one owner. Each has code in all three layers."
    make_key maker 35fe183c068bc13ac735a76ac05c37d8d055c34bf945b99c4cdada2e31cc8ca8
    make_key first d95321bdf284c2032c7a5209b847eae96c3080c86bfc2585312e15361179d1ac
    make_key second c0fcde819a0006907629b33ec8a491a8b0d7cbf7ef92d8dfeb3bb22913d91c30
    make_key third 547202fca623e77ec47fe0d1edad602736c85db474f6c085282bd16c65856985
    printf 'layer one' >code
    born 01 02 03 04 05 06 07 08 09 10 11 12 13 14 15 16 17 18 19 20
    order order1 first "order establish 2\nowner $(hex <second.public)\ntrust countersigned\n"
    order order2 second "order establish 3\nowner $(hex <third.public)\ntrust countersigned\n"
    order order3 first 'order emergency 2\nversion 1\ntrust countersigned\ncode 616263\n'
    order order4 second 'order emergency 3\nversion 1\ntrust countersigned\ncode 646566\n'
    live "01 02 03 04 05 06 07 08 09 10" boot order1 order2 order3 order4 off
    live "11 12 13 14 15 16 17 18 19 20" boot order1 order2 order3 order4 off
}

the_first_day() {
    echo "On Monday you trust one file, maker.public. Your register is empty, and you are shown the chain of each device:"
    bytes 4d4246310000 >register
    { shows 01 02 03 04 05 06 07 08 09 10 11 12 13 14 15 16 17 18 19 20; } >items
    ask fleet maker.public register items
    hash_of register register
    cp 03 hidden
    cp 07 copy
}

the_second_day() {
    echo "On Tuesday layer 2 is to have new code. Twelve devices have got it when all are shown again:"
    order order5 second 'order load 2\nversion 2\ntrust countersigned\ncode 676869\n'
    live "01 02 03 04 05 06 07 08 09 10 11 12" boot order5 off
    { shows 01 02 03 04 05 06 07 08 09 10 11 12 13 14 15 16 17 18 19 20; } >items
    ask fleet maker.public register items

    echo
    echo "How many devices have which code of layer 2, and which of them have the old one, 'abc'?"
    { bytes 0302; bytes 0202ba7816bf8f01cfea414140de5dae2223b00361a396177a9cb410ff61f20015ad; } >items
    ask fleet maker.public register items
    hash_of register register
}

the_frauds() {
    echo "Somebody copied device 07 on Monday, and the copy goes another way. Its chain is true, but no device has two pasts:"
    order order6 third 'order load 3\nversion 2\ntrust countersigned\ncode 676869\n'
    live "copy" boot order6 off
    { shows copy; } >items
    ask fleet maker.public register items

    echo
    echo "The host of device 03 hides Tuesday's load. The register has seen more:"
    { shows hidden; } >items
    ask fleet maker.public register items

    echo
    echo "Devices whose birth this key did not sign, and bytes that are no chain:"
    { shows 01 02; bytes 0100000003; printf 'abc'; } >items
    ask fleet first.public register items

    echo
    echo "None of this has changed the register, and it still knows all twenty:"
    hash_of register register
    { bytes 0301; } >items
    ask fleet maker.public register items

    echo
    echo "A register or items that are not in their form are told, with the offset, and nothing is written:"
    bytes 0304 >wrong
    ask fleet maker.public items items
    ask fleet maker.public register wrong
}

cd "$work"
echo "Making keys, devices and orders, which takes a moment .." >&2
{
    the_devices
    echo
    the_first_day
    echo
    the_second_day
    echo
    the_frauds
} >told
compare_told "$here"
