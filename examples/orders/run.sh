#!/usr/bin/env bash
# An order on its way. The officer of layer 1 signs new code for a device. The officers of layers 2 and 3 read what the
# order says, see who has signed it, and countersign it if it is what their own drafts say; what is not they refuse, and
# at the end they see what their keys have left. Builds the proved program, makes the keys with it, and shows each step.
# Fails if what was printed is not what expected.txt says, which another program made (peers/examples.py). The noise is
# known here, so that the same keys can be made; people take bytes that nobody can guess, as `head -c 32 /dev/urandom`
# gives them. run.sh [PROGRAM] tries a program that is built. Works from any current folder; beside the build in
# crates/*/out/ it writes in a temporary folder alone, which it removes, or in the new folder that KEEP_IN names.
set -euo pipefail
export LC_ALL=C

here=$(cd "$(dirname "${BASH_SOURCE[0]}")" && pwd)
# shellcheck source=../begin.sh
. "$here/../begin.sh"
need cut diff head od paste sed sha256sum tr
find_or_build "$@"

the_keys() {
    echo "Three officers make their keys, and give each other their public keys:"
    bytes d95321bdf284c2032c7a5209b847eae96c3080c86bfc2585312e15361179d1ac >first.noise
    bytes c0fcde819a0006907629b33ec8a491a8b0d7cbf7ef92d8dfeb3bb22913d91c30 >second.noise
    bytes 547202fca623e77ec47fe0d1edad602736c85db474f6c085282bd16c65856985 >third.noise
    ask keygen first.noise first.key first.public
    ask keygen second.noise second.key second.public
    ask keygen third.noise third.key third.public
}

the_order() {
    echo "The officer of layer 1 signs new code for one device, whose log has eight entries:"
    draft first 'order load 1' 'target serial c10b471ceff881272aa5ed819fd9a0e0' 'target length 8' 'version 3' 'trust always' 'code 6e6577'
    ask sign first.key first.draft order
}

the_second_officer() {
    echo "The officer of layer 2 gets the file order, and reads what it says:"
    ask showorder order
    echo "The officer of layer 1 has signed it, and the officer of layer 3 has not:"
    ask ordered first.public order
    ask ordered third.public order
    echo "It is countersigned if it is what was agreed upon, which the officer of layer 2 drafts too:"
    draft second 'order load 1' 'target serial c10b471ceff881272aa5ed819fd9a0e0' 'target length 8' 'version 3' 'trust always' 'code 6e6577'
    ask cosign second.key 2 order second.draft order
    ask ordered second.public order
}

the_third_officer() {
    echo "The officer of layer 3 expects other code:"
    draft third 'order load 1' 'target serial c10b471ceff881272aa5ed819fd9a0e0' 'target length 8' 'version 3' 'trust always' 'code 6e6578'
    ask cosign third.key 3 order third.draft order
    echo "The word code of what it shows has the hash of the order's code. With that code in the draft it is countersigned:"
    draft third 'order load 1' 'target serial c10b471ceff881272aa5ed819fd9a0e0' 'target length 8' 'version 3' 'trust always' 'code 6e6577'
    ask cosign third.key 3 order third.draft order
    ask showorder order
}

the_refused() {
    echo "Nobody countersigns twice, and an order that names no device is not what was drafted:"
    ask cosign second.key 2 order second.draft order
    draft free 'order load 1' 'version 3' 'trust always' 'code 6e6577'
    ask sign first.key free.draft free
    ask cosign second.key 2 free second.draft free
    echo "What was refused has used no index:"
    ask showkey first.key
    ask showkey second.key
    ask showkey third.key
}

cd "$work"
{
    the_keys
    echo
    the_order
    echo
    the_second_officer
    echo
    the_third_officer
    echo
    the_refused
} >told
compare_told "$here"
