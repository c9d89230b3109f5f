#!/usr/bin/env bash
# Code that is called. The owner of layer 3 writes a PIN check with three tries, pin.asm, and later a counter whose
# answers a key signs, counter.asm (programs.md says what each line does). They are assembled, tried on secrets in a
# text, and loaded; then they run in the device, where they alone read and write their region. A host tries what it can:
# it puts the tries back, reads the PIN, cuts power, and gives the image of yesterday again, which nothing detects. A
# relying party asks for a number with a nonce of its own, and judges the answer by a policy. Builds the proved program,
# makes keys and the device with it, and shows each step. Fails if what was printed is not what expected.txt says, which
# another program made (peers/examples.py). The noise is known here, so that the same keys can be made; people take
# bytes that nobody can guess, as `head -c 48 /dev/urandom` gives them. run.sh [PROGRAM] tries a program that is built.
# Works from any current folder; beside the build in crates/*/out/ it writes in a temporary folder alone, which it
# removes, or in the new folder that KEEP_IN names.
set -euo pipefail
export LC_ALL=C

here=$(cd "$(dirname "${BASH_SOURCE[0]}")" && pwd)
# shellcheck source=../begin.sh
. "$here/../begin.sh"
need cut grep head od paste sed sha256sum tail tr
find_or_build "$@"

# This many bytes, all of them 7.
sevens() {
    head -c "$1" /dev/zero | tr '\0' '\7'
}

# The SHA-256 hash of standard input in hexadecimal: of code, or of the input of a call.
sum() {
    sha256sum | cut -d ' ' -f 1
}

# Makes somebody's key of the noise, which is given in hexadecimal.
make_key() {
    bytes "$2" >noise
    miniboot keygen noise "$1.key" "$1.public"
}

# Signs an order with somebody's key: order NAME OFFICER DRAFT
order() {
    printf '%b' "$3" >draft
    miniboot sign "$2.key" draft "$1"
}

# Shows the lines of a file that have a word: lines_with WORD FILE
lines_with() {
    echo "  \$ grep $1 $2"
    grep "$1" "$2" | sed 's/^/    /'
}

# Writes a policy, and shows it: policy NAME LINE..
policy() {
    local name=$1
    shift
    printf '%s\n' "$@" >"$name"
    lines_of "$name"
}

the_programs() {
    echo "1. Author: a PIN check, and a counter. They are assembled, and tried before anybody signs them:"
    ask asm pin.asm pin
    ask asm counter.asm counter
    echo "callcode runs a code on secrets in a text, here none, and writes them as they are afterwards. The PIN check is"
    echo "given a PIN and a secret, by an input that begins with 00:"
    printf '' >nothing
    printf '\0004071SECRET!!' >setup
    ask callcode pin nothing setup kept
    lines_of kept
    echo "A guess begins with 01. A wrong one is counted, and what is left of the tries is told; a right one gets the secret:"
    printf '\0011111' >wrong
    ask callcode pin kept wrong after
    lines_of after
    printf '\0014071' >right
    ask callcode pin kept right after
    lines_of after
    echo "A code that emits what is no action changes nothing. callcode says what is wrong; the device will not:"
    printf 'push 1296193585\npop\npush 1\nemit\nhalt\n' >slip.asm
    ask asm slip.asm slip
    ask callcode slip kept wrong after
    echo "A trace tells each step: its number, the place, the instruction, and what stands on the stack before it:"
    trace callcode slip kept wrong after
    lines_of trace
    echo "and what is written to memory. The right guess reads the count of the tries, the PIN, and then the secret:"
    trace callcode pin kept right after
    lines_with memory trace
}

the_load() {
    echo "2. Owner of layer 2: the PIN check is loaded into layer 3, by an emergency load, which empties the region. It is"
    echo "signed for one length of the log, so that it cannot be given again:"
    make_key maker 35fe183c068bc13ac735a76ac05c37d8d055c34bf945b99c4cdada2e31cc8ca8
    make_key first d95321bdf284c2032c7a5209b847eae96c3080c86bfc2585312e15361179d1ac
    make_key second c0fcde819a0006907629b33ec8a491a8b0d7cbf7ef92d8dfeb3bb22913d91c30
    make_key third 547202fca623e77ec47fe0d1edad602736c85db474f6c085282bd16c65856985
    bytes 12d71d7255b6325df7487678010fc9dbb905c6d5af1a7d986e75ecdfdc39dfbec10b471ceff881272aa5ed819fd9a0e0 >noise
    printf 'layer one' >code
    miniboot factory noise maker.key first.public code image
    order order1 first "order establish 2\nowner $(hex <second.public)\ntrust countersigned\n"
    order order2 second "order establish 3\nowner $(hex <third.public)\ntrust countersigned\n"
    order order3 first 'order emergency 2\nversion 1\ntrust countersigned\ncode 616263\n'
    draft order4 'order emergency 3' 'target length 4' 'version 1' 'trust countersigned' "code $(hex <pin)"
    ask sign second.key order4.draft order4
    sevens 256 >noise
    serve image boot order1 order2 order3 order4 off
}

the_tries() {
    echo "3. User: the PIN is set once, then three guesses in a row may be wrong. A rehearsal shows no answer, and changes"
    echo "nothing; then the secret comes out, by the right guess alone:"
    rehearse image boot "call 3 - $(hex <setup)" "call 3 - $(hex <right)" off
    serve image boot "call 3 - $(hex <setup)" "call 3 - $(hex <wrong)" "call 3 - $(hex <wrong)" \
        "call 3 - $(hex <right)" "call 3 - $(hex <setup)" off
    echo "showimage has the names of what the code keeps, and how long each value is:"
    ask showimage image
}

the_host() {
    echo "4. Host: it wants more guesses. The region is the code's alone, so it cannot put the tries back, nor read the PIN:"
    serve image boot 'put 3 t 03' 'get 3 p' 'drop 3 t' 'sign 3 1 68656c6c6f' off
    echo "Nor does it help to call otherwise: layer 2 has code that takes no calls, and a key that is not there is missed"
    echo "before the code runs:"
    serve image boot 'call 2 - 00' "call 3 1 $(hex <wrong)" off
}

the_power_losses() {
    echo "5. Host: it cuts power while the code is told a guess. A call that is answered makes three writes:"
    write_script boot "call 3 - $(hex <wrong)"
    ask cutat image script noise 1 ff
    ask cutat image script noise 3 ff
    ask cutat image script noise 4 ff
    echo "In the first the guess is not counted, and nothing is told of it. In the third it is counted, and nothing is told:"
    serve image boot 'cut 1 fill ff' "call 3 - $(hex <wrong)" boot 'cut 3 fill ff' "call 3 - $(hex <wrong)" \
        boot "call 3 - $(hex <wrong)" off
    echo "Two tries are gone, and the host has heard of one guess. A right guess is written alike, so no cut tells it."
}

the_old_image() {
    echo "6. Host: it keeps a copy of the whole image, and guesses until no try is left. Then the right PIN does not help:"
    cp image before
    serve image boot "call 3 - $(hex <wrong)" "call 3 - $(hex <right)" off
    echo "Then it gives the device the old image again. NOTHING DETECTS THIS: a device is what its memory says, and the try"
    echo "is there again. No code can see to it; the memory has to be where nobody can put it back:"
    cp before image
    serve image boot "call 3 - $(hex <wrong)" off
    cp before image
    serve image boot "call 3 - $(hex <right)" off
}

the_counter() {
    echo "7. Owner of layer 2: other code, the counter. Its first load is an emergency load again: what the PIN check kept is"
    echo "gone. The owner of layer 3 has a key made, which signs what the counter answers:"
    draft order5 'order emergency 3' 'target length 5' 'version 2' 'trust countersigned' "code $(hex <counter)"
    ask sign second.key order5.draft order5
    draft order6 'order newkey 3 epoch' 'target length 6'
    ask sign third.key order6.draft order6
    serve image boot order5 order6 'call 3 - -' 'call 3 - -' off
    ask showimage image
}

the_relying_party() {
    echo "8. Relying party: it wants a number from this very code, now. It takes bytes that nobody could know, and the policy"
    echo "asks for the answer to them. The hash of the input is signed, so the party keeps the input:"
    bytes 6e6f6e6365206f6620746f646179212100112233445566778899aabbccddeeff >nonce
    policy policy \
        "set good $(sum <counter)" \
        "set now $(sum <nonce)" \
        'allow fresh and called and last and code 3 good input now'
    serve image boot "call 3 1 $(hex <nonce)" off
    keep_statement third
    ask chain image chain
    ask attach chain third now
    ask trust maker.public now 1 policy
    ask verify maker.public now 1
    ask history maker.public now
}

the_replay() {
    echo "9. Host: it shows the answer of yesterday to whoever asks today. The policy of today has another nonce:"
    bytes 6e6f6e6365206f6620746f6d6f72726f00112233445566778899aabbccddeeff >nonce
    policy policy \
        "set good $(sum <counter)" \
        "set now $(sum <nonce)" \
        'allow fresh and called and last and code 3 good input now'
    ask trust maker.public now 1 policy
    echo "So it has to call. The number is above all before, over power losses too; a signed one that is lost is not said"
    echo "again, but its index of the key is used:"
    serve image boot 'call 3 - -' 'cut 3 fill ff' "call 3 1 $(hex <nonce)" boot "call 3 1 $(hex <nonce)" off
    keep_statement sixth
    ask attach chain sixth now
    ask trust maker.public now 1 policy
    echo "The host cannot have the key say anything else: the code speaks for it."
    serve image boot 'sign 3 1 00000063' off
}

the_other_code() {
    echo "10. Owner of layer 3: it opens the region, by an ordinary load of code that takes no calls. It signs for that: the"
    echo "key goes on, what was kept can be read, and the host chooses again what is signed:"
    draft order7 'order load 3' 'target length 7' 'version 3' 'trust countersigned' 'code 676869'
    ask sign third.key order7.draft order7
    serve image boot order7 'get 3 c' "call 3 1 $(hex <nonce)" "sign 3 1 $(sum <nonce)000003e8" off
    keep_statement forged
    echo "A message that looks like an answer is listed as the message that it is. The chain names the new code too:"
    ask chain image chain
    ask attach chain forged now
    ask verify maker.public now 1
    ask trust maker.public now 1 policy
    echo "So each load of such a layer is signed for one length of the log: given again, an old one is refused."
    serve image boot order4 order5 order7 off
}

cd "$work"
cp "$here/pin.asm" pin.asm
cp "$here/counter.asm" counter.asm
echo "Making keys, a device and orders, which takes a moment .." >&2
{
    the_programs
    echo
    the_load
    echo
    the_tries
    echo
    the_host
    echo
    the_power_losses
    echo
    the_old_image
    echo
    the_counter
    echo
    the_relying_party
    echo
    the_replay
    echo
    the_other_code
} >told
compare_told "$here"
