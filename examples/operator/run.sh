#!/usr/bin/env bash
# An operator's fleet of thirty devices. Their maker and their owners are those of examples/device-life. One signature of
# each order serves all thirty, since its target is the length of the log and no serial. The operator begins a register,
# enrols the chain of each device, prints a table of the codes that run, and does so again after a load; then come a
# device whose image was copied and has gone on in two ways, one whose host hides the load, and a device of another
# maker. Builds the proved program, makes keys and the devices with it, and shows each step. Fails if what was printed is
# not what expected.txt says, which another program made (peers/examples.py). The noise is known here, so that the same
# keys can be made; people take bytes that nobody can guess, as `head -c 48 /dev/urandom` gives them. run.sh [PROGRAM]
# tries a program that is built. Works from any current folder; beside the build in crates/*/out/ it writes in a
# temporary folder alone, which it removes, or in the new folder that KEEP_IN names.
set -euo pipefail
export LC_ALL=C

here=$(cd "$(dirname "${BASH_SOURCE[0]}")" && pwd)
# shellcheck source=../begin.sh
. "$here/../begin.sh"
need cut head od paste sed sha256sum sort tail tr uniq
find_or_build "$@"

# Makes somebody's key of the noise, which is given in hexadecimal.
make_key() {
    bytes "$2" >noise
    miniboot keygen noise "$1.key" "$1.public"
}

# Writes the draft of an order of these lines, and shows it: draft NAME LINE..
draft() {
    local name=$1
    shift
    printf '%s\n' "$@" >"$name.draft"
    echo "  $name.draft: $(paste -s -d ';' "$name.draft" | sed 's/;/; /g')"
}

# Signs an order by its draft, and shows that.
signed() {
    ask sign "$2.key" "$1.draft" "$1"
}

# The SHA-256 hash of standard input.
sum() {
    sha256sum | cut -d ' ' -f 1
}

# Makes the devices of these numbers. The noise of each, which contains its serial, is one byte 48 times, whose two
# hexadecimal digits are those of the number.
born() {
    local device
    for device; do
        bytes "$(printf "%048d" 0 | sed "s/0/$device/g")" >noise
        miniboot factory noise maker.key first.public code "$device"
    done
}

# Gives each of some devices these events: live "DEVICE.." EVENT..
live() {
    local device devices=$1 event
    shift
    for event; do
        if [ -f "$event" ]; then cat "$event"; else echo "$event"; fi
    done >script
    head -c 4096 /dev/zero >noise
    for device in $devices; do
        miniboot run "$device" script noise
    done
}

# Enrols the chains of these devices as they are now.
enrolled() {
    local device
    for device; do
        miniboot chain "$device" chain
        ask enrol maker.public register chain
    done
}

# Shows how many devices have which code of layer 2, as the register has it.
table_of_codes() {
    miniboot devices register
    cp printed devices
    echo "  \$ tail -n +2 devices | cut -d ' ' -f 6 | sort | uniq -c"
    tail -n +2 devices | cut -d ' ' -f 6 | sort | uniq -c | sed 's/^ */    /'
}

the_devices() {
    echo "A maker has made thirty devices for one owner. A key signs 32 times, so that one key was enough."
    make_key maker 35fe183c068bc13ac735a76ac05c37d8d055c34bf945b99c4cdada2e31cc8ca8
    make_key first d95321bdf284c2032c7a5209b847eae96c3080c86bfc2585312e15361179d1ac
    make_key second c0fcde819a0006907629b33ec8a491a8b0d7cbf7ef92d8dfeb3bb22913d91c30
    make_key third 547202fca623e77ec47fe0d1edad602736c85db474f6c085282bd16c65856985
    printf 'layer one' >code
    born 01 02 03 04 05 06 07 08 09 10 11 12 13 14 15 16 17 18 19 20 21 22 23 24 25 26 27 28 29 30
}

the_orders() {
    echo "Each order is signed once, for all thirty. Its target is the length of the log, so that each device obeys it"
    echo "once, in this order, and never again:"
    draft order1 "order establish 2" "target length 1" "owner $(hex <second.public)" "trust countersigned"
    signed order1 first
    draft order2 "order establish 3" "target length 2" "owner $(hex <third.public)" "trust countersigned"
    signed order2 second
    draft order3 "order emergency 2" "target length 3" "version 1" "trust countersigned" "code 616263"
    signed order3 first
    draft order4 "order emergency 3" "target length 4" "version 1" "trust countersigned" "code 646566"
    signed order4 second
    live "01 02 03 04 05 06 07 08 09 10" boot order1 order2 order3 order4 off
    live "11 12 13 14 15 16 17 18 19 20" boot order1 order2 order3 order4 off
    live "21 22 23 24 25 26 27 28 29 30" boot order1 order2 order3 order4 off
}

the_register() {
    echo "On Monday the operator trusts one file, maker.public, begins a register, and enrols the chain of each device:"
    ask register register
    enrolled 01 02 03 04 05 06 07 08 09 10 11 12 13 14 15 16 17 18 19 20 21 22 23 24 25 26 27 28 29 30
    cp 03 hidden
    cp 07 copy

    echo
    echo "The register lists them, each with how many entries it has shown, its configuration number, and its codes:"
    ask devices register
    hash_of register register
}

the_second_day() {
    echo "On Tuesday layer 2 is to have new code: one order, which a device obeys if its layer 2 has the old code."
    printf 'abc' >old
    draft order5 "order load 2" "target length 5" "target code 2 $(sum <old)" "version 2" "trust countersigned" "code 676869"
    signed order5 second
    live "01 02 03 04 05 06 07 08 09 10" boot order5 off
    live "11 12 13 14 15 16 17 18 19 20" boot order5 off
    live "21 22 23 24 25 26 27 28" boot order5 off
    echo "All chains are enrolled again:"
    enrolled 01 02 03 04 05 06 07 08 09 10 11 12 13 14 15 16 17 18 19 20 21 22 23 24 25 26 27 28 29 30

    echo
    echo "How many devices have which code of layer 2?"
    table_of_codes
}

the_frauds() {
    echo "Somebody copied device 07 on Monday, and the copy goes another way. Its chain is true, but no device has two pasts:"
    draft order6 "order load 3" "target length 5" "version 2" "trust countersigned" "code 676869"
    signed order6 third
    live "copy" boot order6 off
    enrolled copy

    echo
    echo "The host of device 03 hides Tuesday's load. The register has seen more:"
    enrolled hidden

    echo
    echo "Under another maker's key no chain is good, and bytes that are no chain are refused too:"
    ask enrol first.public register chain
    ask enrol maker.public register code

    echo
    echo "None of this has changed the register:"
    table_of_codes
    hash_of register register
}

cd "$work"
echo "Making keys, devices and orders, which takes a moment .." >&2
{
    the_devices
    echo
    the_orders
    echo
    the_register
    echo
    the_second_day
    echo
    the_frauds
} >told
compare_told "$here"
