#!/usr/bin/env bash
# A bank's policy. The bank owns layer 3 of the device of examples/device-life, and lets a key of that layer sign
# payments. It trusts the maker's public key and the code that it has read. Its policy says so in a few rules, and
# `trust` judges by them what the device's chain lists for the key: as it is today, as a host shows it that hides a
# load, and after code that nobody at the bank knows was loaded beneath. Builds the proved program, makes keys and the
# device with it, and shows each step. Fails if what was printed is not what expected.txt says, which another program
# made (peers/examples.py). The noise is known here, so that the same keys can be made; people take bytes that nobody
# can guess, as `head -c 48 /dev/urandom` gives them. run.sh [PROGRAM] tries a program that is built. Works from any
# current folder; beside the build in crates/*/out/ it writes in a temporary folder alone, which it removes, or in the
# new folder that KEEP_IN names.
set -euo pipefail
export LC_ALL=C

here=$(cd "$(dirname "${BASH_SOURCE[0]}")" && pwd)
# shellcheck source=../begin.sh
. "$here/../begin.sh"
need cut head od paste sed sha256sum tail tr
find_or_build "$@"

# The bytes of a file from an offset up to another.
part() {
    head -c "$3" "$1" | tail -c "$(($3 - $2))"
}

# This many bytes, all of them 7.
sevens() {
    head -c "$1" /dev/zero | tr '\0' '\7'
}

# The SHA-256 hash of standard input in hexadecimal: of code, or of an owner's public key.
sum() {
    sha256sum | cut -d ' ' -f 1
}

# Makes somebody's key of the noise, which is given in hexadecimal.
make_key() {
    bytes "$2" >noise
    miniboot keygen noise "$1.key" "$1.public"
}

# Signs an order with somebody's key: order NAME OFFICER DRAFT [LAYER OFFICER]..
order() {
    local name=$1
    printf '%b' "$3" >draft
    miniboot sign "$2.key" draft "$name"
    shift 3
    while [ $# -gt 0 ]; do
        miniboot countersign "$2.key" "$1" "$name" "$name"
        shift 2
    done
}

# Writes a policy, and shows it: policy NAME LINE..
policy() {
    local name=$1
    shift
    printf '%s\n' "$@" >"$name"
    sed 's/^/    /' "$name"
}

the_device() {
    echo "The bank owns layer 3 of the device of examples/device-life, and layer 3 has a key with the number 1."
    make_key maker 35fe183c068bc13ac735a76ac05c37d8d055c34bf945b99c4cdada2e31cc8ca8
    make_key first d95321bdf284c2032c7a5209b847eae96c3080c86bfc2585312e15361179d1ac
    make_key second c0fcde819a0006907629b33ec8a491a8b0d7cbf7ef92d8dfeb3bb22913d91c30
    make_key bank 547202fca623e77ec47fe0d1edad602736c85db474f6c085282bd16c65856985
    bytes 12d71d7255b6325df7487678010fc9dbb905c6d5af1a7d986e75ecdfdc39dfbec10b471ceff881272aa5ed819fd9a0e0 >noise
    printf 'layer one' >code
    miniboot factory noise maker.key first.public code image
    order order1 first "order establish 2\nowner $(hex <second.public)\ntrust countersigned\n"
    order order2 second "order establish 3\nowner $(hex <bank.public)\ntrust countersigned\n"
    order order3 first 'order emergency 2\nversion 1\ntrust countersigned\ncode 616263\n'
    order order4 second 'order emergency 3\nversion 1\ntrust countersigned\ncode 646566\n'
    order order5 bank 'order newkey 3 epoch\n'
    order order6 first 'order load 1\nversion 2\ntrust always\ncode 6f6e65\n' 2 second 3 bank
    order order7 bank 'order load 3\nversion 2\ntrust countersigned\ncode 676869\n'
    {
        bytes 5a987be47b7794ba2aaa984652c5d4ff3afc13c02a0f5a8bbac5a1588077979c690b773fb0d924a596ac06ce1f466354
        bytes 422955444d76cd3675fb06e09f9f30f4da2dc294bfea6634fe54b0131112488438c36ec36db8b34410d46f5daa6e00cf
        bytes 0a024813f2f239dfee11d1e30d6ea88579a7eaf5c59e01a09c9f4bc356c0025167d84c2e9f44b415aaed06982d746d93
        bytes 985ecaf0095ac280c445bc05ad58a247da98bc3d71ca439ee3f9ab2eadc53b025429783c78bd26fea3b0ceeb08cd50ee
        bytes b97ac61e5047188853c2c5d218bf691c9e6ac1ae4788b3a8358fd8be7ccf9f20
    } >noise
    serve image boot order1 order2 order3 order4 order5 order6 order7 off
}

the_policy() {
    echo "The bank has read the code of all layers, two versions of that of layers 1 and 3. This is its policy for keys:"
    printf 'one' >loader
    printf 'abc' >system
    printf 'def' >program
    printf 'ghi' >newer
    policy policy \
        '# The code that the bank has read, and the bank itself as an owner, each by its SHA-256 hash.' \
        "set loaders $(sum <code) $(sum <loader)" \
        "set systems $(sum <system)" \
        "set programs $(sum <program) $(sum <newer)" \
        "set bank $(sum <bank.public)" \
        '#' \
        '# The code of a layer, and of each layer beneath, can read the keys of the layer. So all of it has to be known.' \
        'deny unknown-loader not code 1 loaders' \
        'deny unknown-system not code 2 systems' \
        'deny unknown-program not code 3 programs' \
        '#' \
        '# Layer 3 belongs to the bank, and keeps its keys over no load beneath that the bank has not countersigned.' \
        'deny other-owner not owner 3 bank' \
        'deny too-trusting or trust 3 1 always trust 3 2 always' \
        '#' \
        '# The key is alive, and the chain has a statement by it.' \
        'deny dead not alive' \
        'deny silent not statement' \
        '#' \
        '# Of what is left all is allowed but an old program of layer 3 in the configuration that comes last.' \
        'allow earlier not last' \
        'allow current version 3 2 4294967295'
}

the_payment() {
    echo "The bank wants the key under a payment that has a number which nobody could know before, 'pay 100 0x5eed':"
    serve image boot go go 'sign 3 1 7061792031303020307835656564' off
    keep_statement statement
    echo "A host that the bank does not trust hands it the chain."
    ask chain image chain
    hash_of chain chain
    ask attach chain statement now
    ask trust maker.public now 1 policy
    echo "Which configurations these were, and which message was signed, is told by verify:"
    ask verify maker.public now 1
}

the_host_cheats() {
    echo "A host leaves out the last load, and the statement. The policy wants a statement:"
    { printf 'MBC1\0\7'; part chain 6 18002; printf '\0'; } >shorter
    ask trust maker.public shorter 1 policy
    echo "It attaches the statement of today to that chain. What verify refuses is refused here by the same line:"
    ask attach shorter statement hidden
    ask trust maker.public hidden 1 policy
    echo "It leaves the statement out alone:"
    ask trust maker.public chain 1 policy
}

the_unknown_code() {
    echo "Somebody at the bank countersigns a load of layer 1 that nobody there has read, and layer 3 keeps its key:"
    order order8 first 'order load 1\nversion 3\ntrust always\ncode 706c61792067616d6573\n' 2 second 3 bank
    sevens 32 >noise
    serve image boot order8 go go 'sign 3 1 7061792039303020307866656564' off
    keep_statement statement
    ask chain image chain
    ask attach chain statement now
    echo "The chain is true, and verify accepts it. The policy denies configuration 7, by a rule whose name says why:"
    ask trust maker.public now 1 policy
}

the_mistake() {
    echo "A policy with a bad line is none at all. Here a rule names a set that does not stand, in line 2:"
    policy mistaken "set loaders $(sum <code)" 'allow known code 1 loader'
    ask trust maker.public now 1 mistaken
}

cd "$work"
echo "Making keys, a device and orders, which takes a moment .." >&2
{
    the_device
    echo
    the_policy
    echo
    the_payment
    echo
    the_host_cheats
    echo
    the_unknown_code
    echo
    the_mistake
} >told
compare_told "$here"
