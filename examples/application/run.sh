#!/usr/bin/env bash
# An application. The owner of layer 3 has a program in assembler text, answer.asm (answer.md says what each line does),
# which answers a challenge with a secret of its layer. It is assembled, tried, and loaded by a signed order; the secret
# is put, and the program answers. Then the same code runs where it may not read the secret. Builds the proved program,
# makes keys and the device with it, and shows each step. Fails if what was printed is not what expected.txt says. Its
# answers were computed by another program, bench/applications/interpreter.c, and its trace by peers/applications.py.
# run.sh [PROGRAM] tries a program that is built. Works from any current folder; beside the build in crates/*/out/ it
# writes in a temporary folder alone, which it removes, or in the new folder that KEEP_IN names.
set -euo pipefail
export LC_ALL=C

here=$(cd "$(dirname "${BASH_SOURCE[0]}")" && pwd)
# shellcheck source=../begin.sh
. "$here/../begin.sh"
need cmp cut head od paste sed sha256sum tail tr
find_or_build "$@"

# Makes somebody's key of the noise, which is given in hexadecimal.
make_key() {
    bytes "$2" >noise
    miniboot keygen noise "$1.key" "$1.public"
}

# Signs an order with somebody's key: order NAME OFFICER DRAFT
order() {
    printf '%b' "$3" >draft
    miniboot sign "$2.key" draft "$1"
}

a_device() {
    make_key maker 35fe183c068bc13ac735a76ac05c37d8d055c34bf945b99c4cdada2e31cc8ca8
    make_key first d95321bdf284c2032c7a5209b847eae96c3080c86bfc2585312e15361179d1ac
    make_key second c0fcde819a0006907629b33ec8a491a8b0d7cbf7ef92d8dfeb3bb22913d91c30
    make_key third 547202fca623e77ec47fe0d1edad602736c85db474f6c085282bd16c65856985
    bytes 12d71d7255b6325df7487678010fc9dbb905c6d5af1a7d986e75ecdfdc39dfbec10b471ceff881272aa5ed819fd9a0e0 >noise
    printf 'layer one' >code
    miniboot factory noise maker.key first.public code image
    head -c 256 /dev/zero | tr '\0' '\7' >noise
}

it_is_assembled() {
    echo "The program is a text, answer.asm. It is assembled, and its code listed again, with jumps by number:"
    ask asm answer.asm answer
    ask disasm answer listing
    echo "The listing assembles to the same code:"
    ask asm listing again
    cmp answer again
    hash_of answer answer
}

it_is_tried() {
    echo "It is tried before anybody signs it, as on a device that has no secrets yet. It then halts without an answer:"
    printf 'good morning' >challenge
    ask appcode answer challenge 1000
    echo "A trace tells each step: its number, the place, the instruction, and what stands on the stack before it. Where"
    echo "the secret is not there, its length is 4294967295:"
    trace appcode answer challenge 1000
    lines_of trace
    echo "So that the rest is tried too, the three lines that get the secret give way to one: it is empty. What it mixes"
    echo "then is the challenge alone, and its answer is the FNV-1a hash of 'good morning':"
    { echo 'push 0'; tail -n +4 answer.asm; } >trial.asm
    ask asm trial.asm trial
    ask appcode trial challenge 1000
    echo "What a text does wrong shows when its code runs. This one emits a value that is not there (trap 2, at its first"
    echo "instruction), and the next one never ends:"
    printf 'emit\nhalt\n' >wrong.asm
    ask asm wrong.asm wrong
    ask appcode wrong challenge 1000
    printf 'label again\njump again\n' >endless.asm
    ask asm endless.asm endless
    ask appcode endless challenge 1000
    echo "Where the instructions stand, which a trap names, and where the code goes:"
    ask showcode endless
}

it_is_loaded() {
    echo "Layers 2 and 3 get their owners, and both get the code by signed orders. Layer 3 keeps a secret, 'sesame':"
    order owner2 first "order establish 2\nowner $(hex <second.public)\ntrust countersigned\n"
    order owner3 second "order establish 3\nowner $(hex <third.public)\ntrust countersigned\n"
    order load2 first "order emergency 2\nversion 1\ntrust countersigned\ncode $(hex <answer)\n"
    order load3 second "order emergency 3\nversion 1\ntrust countersigned\ncode $(hex <answer)\n"
    serve image boot owner2 owner3 load2 load3 go go 'put 3 token 736573616d65' off
}

it_answers() {
    echo "It answers a challenge, 'good morning', with four bytes, and another with others. Nobody without the secret"
    echo "knows them:"
    printf 'good morning' >challenge
    ask app image 3 challenge 1000
    printf 'good evening' >other
    ask app image 3 other 1000
    echo "Layer 2 has the same code, and layer 3 is not below it, so it answers the same:"
    ask app image 2 challenge 1000
    echo "Of a device's own code nothing is told, also if somebody asks:"
    trace app image 3 challenge 1000
    lines_of trace
    echo "A run has as many steps as it is given:"
    ask app image 3 challenge 332
    ask app image 3 challenge 331
    echo "A run changes nothing: the secret is still there."
    serve image boot 'get 3 token' off
}

it_may_not_read() {
    echo "The owner of layer 2 loads the same code again, and the owner of layer 3 does not countersign. Layer 3 is not"
    echo "reliable any more, and its secrets are gone:"
    order load2 second "order load 2\nversion 2\ntrust countersigned\ncode $(hex <answer)\n"
    serve image boot load2 status off
    echo "So the code of layer 2 may not read region 3 (trap 6, at its third instruction), and that of layer 3 may not"
    echo "run:"
    ask app image 2 challenge 1000
    ask app image 3 challenge 1000
}

cd "$work"
cp "$here/answer.asm" answer.asm
echo "Making keys, a device and orders, which takes a moment .." >&2
{
    a_device
    it_is_assembled
    echo
    it_is_tried
    echo
    it_is_loaded
    echo
    it_answers
    echo
    it_may_not_read
} >told
compare_told "$here"
