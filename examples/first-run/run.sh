#!/usr/bin/env bash
# The first run: a maker makes a device, an officer signs one order, and the device obeys it. Fails if what is shown is
# not what expected.txt says.
#
#     run.sh               shows it by a build that is not proved, in about a minute; then proves and builds the program,
#                          naming each crate that is proved, and sees that it prints the same
#     run.sh --unproved    shows it by a build that is not proved, and proves nothing
#     run.sh PROGRAM       shows it by a program that is built
#
# Once crates/miniboot/out/miniboot is there, the first of these begins with it. The keys, the device and the order are
# those of examples/device-life, made by another program; the noise is known here, so that the same keys can be made,
# and people take bytes that nobody can guess, as `head -c 32 /dev/urandom` gives them. Works from any current folder;
# beside the build in crates/*/out/ it writes in a temporary folder alone, which it removes, or in the new folder that
# KEEP_IN names.
set -euo pipefail
export LC_ALL=C
usage="usage: examples/first-run/run.sh [--unproved | PROGRAM]"

here=$(cd "$(dirname "${BASH_SOURCE[0]}")" && pwd)
# shellcheck source=../begin.sh
. "$here/../begin.sh"

if [ $# -gt 1 ] || { [[ "${1-}" == -* ]] && [ "$1" != --unproved ]; }; then
    echo "$usage" >&2
    exit 2
fi
need awk cat cmp diff grep mkfifo od sed tr

# What each command is for, and its words.
purposes=(
    "A maker of devices makes a key, and so does an officer. Each key is named by the hash of its public part:"
    ""
    "The maker makes a device, whose layer 1 belongs to the officer, and signs its birth:"
    "The officer signs an order by which layer 2 gets an owner, another officer who has sent a public key:"
    "The device is turned on, obeys the order, and is turned off. That is change 1, and the log now has 2 entries:"
)
calls=(
    "keygen maker.noise maker.key maker.public"
    "keygen first.noise first.key first.public"
    "factory birth.noise maker.key first.public layer1.code image"
    "sign first.key draft order"
    "run image script noise"
)

# The files with which the commands begin.
write_inputs() {
    local owner
    owner=0000000500000003456f47e33661bea750d0d7834df1866ee01637b5c1d8b439b648b48180b105614fe7f19f31e54ccdcdab1be127d73256
    bytes 35fe183c068bc13ac735a76ac05c37d8d055c34bf945b99c4cdada2e31cc8ca8 >maker.noise
    bytes d95321bdf284c2032c7a5209b847eae96c3080c86bfc2585312e15361179d1ac >first.noise
    bytes 12d71d7255b6325df7487678010fc9dbb905c6d5af1a7d986e75ecdfdc39dfbec10b471ceff881272aa5ed819fd9a0e0 >birth.noise
    bytes 5a987be47b7794ba2aaa984652c5d4ff3afc13c02a0f5a8bbac5a1588077979c >noise
    printf 'layer one' >layer1.code
    printf '%s\n' 'order establish 2' "owner $owner" 'trust countersigned' >draft
}

# The events that the device is given, a line each. If `script` is a pipe, this waits until a command reads it, and the
# order is there by then.
write_script() {
    { echo boot; cat order; echo off; } >script
}

# Carries out each command by a program that is built. What the command with the number N prints is in printed.N.
by_program() {
    local number
    for number in "${!calls[@]}"; do
        [[ "${calls[number]}" != run* ]] || write_script
        # shellcheck disable=SC2086
        miniboot ${calls[number]} || return
        mv printed "printed.$number"
    done
}

# The same by one `rt try`, which compiles the program without proving anything, runs it once for each file of `cases`,
# in their order, and keeps no build.
by_try() (
    local number words file
    trap 'kill $(jobs -p) 2>/dev/null || true' EXIT
    mkdir cases
    mkfifo script
    write_script &
    for number in "${!calls[@]}"; do
        read -ra words <<<"${calls[number]}"
        : >"cases/$number"
        {
            echo "${words[0]}"
            for file in "${words[@]:1}"; do echo "$work/$file"; done
        } >"cases/$number.args"
    done
    (cd "$crate" && rt try --seconds 900 --cases "$work/cases") >tried 2>try.log || true
    rm script
    if [ "$(grep -c '^case=[0-9]* run=ended status=0 ' try.log)" -ne ${#calls[@]} ]; then
        cat tried try.log >&2
        return 1
    fi
    # What is printed for a case stands under a line `== NAME`.
    awk '/^== / { file = "printed." $2; next } { print >file }' tried
    write_script
)

tell() {
    local number
    for number in "${!calls[@]}"; do
        [ -z "${purposes[number]}" ] || echo "${purposes[number]}"
        [[ "${calls[number]}" != sign* ]] || sed 's/^/    /' draft
        echo "  \$ miniboot ${calls[number]}"
        sed 's/^/    /' "printed.$number"
    done
}

# Shows the first run by a build that is not proved.
first_look() {
    echo "This build is NOT PROVED: it shows what the program does, and nothing of what is guaranteed."
    echo "Compiling the program without proving anything, in about a minute .."
    cd "$work"
    write_inputs
    by_try || {
        echo "the build that is not proved did not do it; \`rt try --cases\` is of later kits" >&2
        return 1
    }
    tell >told
    compare_told "$here"
}

if [ "${1-}" = --unproved ]; then
    first_look
    echo "By a build that is NOT PROVED. Run it without --unproved for one that is."
    exit 0
fi
if [ $# -eq 0 ] && [ ! -x "$crate/out/miniboot" ]; then
    (first_look) || true
    echo
    echo "So far nothing was proved. With --unproved it ends here."
fi
find_or_build "$@"
cd "$work"
write_inputs
by_program
tell >told
compare_told "$here"
[ $# -gt 0 ] || echo "By the proved program, which is crates/miniboot/out/miniboot."
