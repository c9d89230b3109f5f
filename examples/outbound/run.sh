#!/usr/bin/env bash
# A relying party's morning. Somebody who trusts the public key of a maker of devices, and nothing else, is handed the
# chain of the device of examples/device-life, and asks for a statement of today; then come chains that a host has
# shortened, changed, and taken from another device; and an auditor, who has the device's memory, compares. Builds the
# proved program, makes keys and the devices with it, and shows each step. Fails if what was printed is not what
# expected.txt says, which other programs made (peers/examples.py). The noise is known here, so that the same keys can
# be made; people take bytes that nobody can guess, as `head -c 48 /dev/urandom` gives them. run.sh [PROGRAM] tries a
# program that is built. Works from any current folder; beside the build in crates/*/out/ it writes in a temporary
# folder alone, which it removes, or in the new folder that KEEP_IN names.
set -euo pipefail
export LC_ALL=C

here=$(cd "$(dirname "${BASH_SOURCE[0]}")" && pwd)
# shellcheck source=../begin.sh
. "$here/../begin.sh"
need cut head od paste sed sha256sum tail tr
find_or_build "$@"

# The bytes of a file from an offset up to another.
part() {
    head -c "$3" "$1" | tail -c "$(($3 - $2))"
}

# This many bytes, all of them 7.
sevens() {
    head -c "$1" /dev/zero | tr '\0' '\7'
}

# Makes somebody's key of the noise, which is given in hexadecimal.
make_key() {
    bytes "$2" >noise
    miniboot keygen noise "$1.key" "$1.public"
}

# Signs an order with somebody's key: order NAME OFFICER DRAFT [LAYER OFFICER]..
order() {
    local name=$1
    printf '%b' "$3" >draft
    miniboot sign "$2.key" draft "$name"
    shift 3
    while [ $# -gt 0 ]; do
        miniboot countersign "$2.key" "$1" "$name" "$name"
        shift 2
    done
}

before_the_morning() {
    echo "A device lives as in examples/device-life/run.sh. Its layer 3 has a key with the number 1."
    make_key maker 35fe183c068bc13ac735a76ac05c37d8d055c34bf945b99c4cdada2e31cc8ca8
    make_key first d95321bdf284c2032c7a5209b847eae96c3080c86bfc2585312e15361179d1ac
    make_key second c0fcde819a0006907629b33ec8a491a8b0d7cbf7ef92d8dfeb3bb22913d91c30
    make_key third 547202fca623e77ec47fe0d1edad602736c85db474f6c085282bd16c65856985
    bytes 12d71d7255b6325df7487678010fc9dbb905c6d5af1a7d986e75ecdfdc39dfbec10b471ceff881272aa5ed819fd9a0e0 >noise
    printf 'layer one' >code
    miniboot factory noise maker.key first.public code image
    order order1 first "order establish 2\nowner $(hex <second.public)\ntrust countersigned\n"
    order order2 second "order establish 3\nowner $(hex <third.public)\ntrust countersigned\n"
    order order3 first 'order emergency 2\nversion 1\ntrust countersigned\ncode 616263\n'
    order order4 second 'order emergency 3\nversion 1\ntrust countersigned\ncode 646566\n'
    order order5 third 'order newkey 3 epoch\n'
    order order6 first 'order load 1\nversion 2\ntrust always\ncode 6f6e65\n' 2 second 3 third
    order order7 third 'order load 3\nversion 2\ntrust countersigned\ncode 676869\n'
    {
        bytes 5a987be47b7794ba2aaa984652c5d4ff3afc13c02a0f5a8bbac5a1588077979c690b773fb0d924a596ac06ce1f466354
        bytes 422955444d76cd3675fb06e09f9f30f4da2dc294bfea6634fe54b0131112488438c36ec36db8b34410d46f5daa6e00cf
        bytes 0a024813f2f239dfee11d1e30d6ea88579a7eaf5c59e01a09c9f4bc356c0025167d84c2e9f44b415aaed06982d746d93
        bytes 985ecaf0095ac280c445bc05ad58a247da98bc3d71ca439ee3f9ab2eadc53b025429783c78bd26fea3b0ceeb08cd50ee
        bytes b97ac61e5047188853c2c5d218bf691c9e6ac1ae4788b3a8358fd8be7ccf9f20
    } >noise
    serve image boot order1 order2 order3 order4 order5 go 'put 2 pin 31323334' go 'put 3 token 00ff' \
        'sign 3 1 68656c6c6f' off boot order6 order7 'get 2 pin' 'get 3 token' status off
}

the_morning() {
    echo "In the morning you trust one file, maker.public. A host that you do not trust hands you the device's chain:"
    ask chain image chain
    hash_of chain chain

    echo
    echo "Which code is it now? You send a word that nobody could know before, 'good morning', and layer 3 signs it:"
    serve image boot go go 'sign 3 1 676f6f64206d6f726e696e67' off
    keep_statement fresh
    ask attach chain fresh now

    echo
    echo "Which code could sign with key 1? That of each configuration from the key's birth on. A layer's line has the"
    echo "hashes of its owner's key and of its code, the version, whether it is reliable, and when it trusts a load"
    echo "beneath it:"
    ask verify maker.public now 1
}

the_host_cheats() {
    echo "Can the host hide the last load? A chain without its last entry is one that tells less and nothing wrong:"
    { printf 'MBC1\0\7'; part chain 6 18002; printf '\0'; } >shorter
    ask verify maker.public shorter 1
    echo "But no statement of today goes with it: it names configuration 6, and this chain ends with 5."
    ask attach shorter fresh hidden
    ask verify maker.public hidden 1

    echo
    echo "Can it put other code into the birth, by one bit of its hash? The maker did not sign that (entry 0):"
    { part chain 0 138; printf '\xf0'; part chain 139 20650; } >turned
    ask verify maker.public turned 1
    echo "Can it tell of two changes in the other order? Entry 1 does not stand in its place:"
    { part chain 0 2528; part chain 5047 7622; part chain 2528 5047; part chain 7622 20650; } >swapped
    ask verify maker.public swapped 1
    echo "And a file that lacks its last byte is no chain from there on:"
    part chain 0 20649 >spoilt
    ask verify maker.public spoilt 1

    echo
    echo "Can it show you another device of the same maker? This one got the same orders, the new key last:"
    sevens 48 >noise
    ask factory noise maker.key first.public code other
    sevens 192 >noise
    serve other boot order1 order2 order3 order4 order7 order5 off
    ask chain other others
    echo "Its chain is true, of that device:"
    ask verify maker.public others 1
    echo "But its key 1 did not say 'good morning':"
    ask attach others fresh mixed
    ask verify maker.public mixed 1
}

the_audit() {
    echo "At noon an auditor, who has the device's memory, compares what each chain tells with the device's own log:"
    for name in chain now shorter hidden turned others; do
        ask audit image maker.public "$name" 1
    done
}

cd "$work"
echo "Making keys, devices and orders, which takes a moment .." >&2
{
    before_the_morning
    echo
    the_morning
    echo
    the_host_cheats
    echo
    the_audit
} >told
compare_told "$here"
