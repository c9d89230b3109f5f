#!/usr/bin/env bash
# What is done before a script is served, and after it: a maker looks at a new device, officers rehearse wrong orders, a
# power loss and the script that is meant for it, all on the device itself, which stays as it was; then the script is
# served, and a relying party reads the device's history. Keys, orders and the device are those of examples/device-life.
# Builds the proved program, makes keys, orders and the device with it, and shows each step. Fails if what was printed
# is not what expected.txt says, which other programs made (peers/examples.py). The noise is known here, so that the
# same keys can be made; people take bytes that nobody can guess, as `head -c 48 /dev/urandom` gives them. run.sh
# [PROGRAM] tries a program that is built. Works from any current folder; beside the build in crates/*/out/ it writes in
# a temporary folder alone, which it removes, or in the new folder that KEEP_IN names.
set -euo pipefail
export LC_ALL=C

here=$(cd "$(dirname "${BASH_SOURCE[0]}")" && pwd)
# shellcheck source=../begin.sh
. "$here/../begin.sh"
need cut head od paste sed sha256sum tail tr
find_or_build "$@"

# Makes somebody's key of the noise, which is given in hexadecimal.
make_key() {
    bytes "$2" >noise
    miniboot keygen noise "$1.key" "$1.public"
}

# Signs an order with somebody's key: order NAME OFFICER DRAFT [LAYER OFFICER]..
order() {
    local name=$1
    printf '%b' "$3" >draft
    miniboot sign "$2.key" draft "$name"
    shift 3
    while [ $# -gt 0 ]; do
        miniboot countersign "$2.key" "$1" "$name" "$name"
        shift 2
    done
}

the_new_device() {
    echo "1. Maker: what has been made? The image tells it without a seed, the chain tells it to all who trust maker.public:"
    make_key maker 35fe183c068bc13ac735a76ac05c37d8d055c34bf945b99c4cdada2e31cc8ca8
    make_key first d95321bdf284c2032c7a5209b847eae96c3080c86bfc2585312e15361179d1ac
    make_key second c0fcde819a0006907629b33ec8a491a8b0d7cbf7ef92d8dfeb3bb22913d91c30
    make_key third 547202fca623e77ec47fe0d1edad602736c85db474f6c085282bd16c65856985
    bytes 12d71d7255b6325df7487678010fc9dbb905c6d5af1a7d986e75ecdfdc39dfbec10b471ceff881272aa5ed819fd9a0e0 >noise
    printf 'layer one' >code
    miniboot factory noise maker.key first.public code image
    ask showimage image
    ask chain image born
    ask history maker.public born
}

the_wrong_orders() {
    echo "2. Officer: what would the device refuse? It is asked itself, and stays as it was:"
    order order1 first "order establish 2\nowner $(hex <second.public)\ntrust countersigned\n"
    order seized maker "order establish 2\nowner $(hex <maker.public)\ntrust always\n"
    order elsewhere first "order establish 2\ntarget serial 00000000000000000000000000000000\nowner $(hex <third.public)\ntrust always\n"
    head -c 128 /dev/zero >noise
    rehearse image boot seized elsewhere status order1 order1 status off
    hash_of image image
}

the_power_loss() {
    echo "3. Officer: what would a power loss leave? An order that is cut in its first write has not happened:"
    rehearse image boot 'cut 1 fill ff' order1 status boot status order1 status off
    hash_of image image
}

the_script() {
    echo "4. Officer: will the whole script be obeyed? It will, and secrets and statements are not shown:"
    order order2 second "order establish 3\nowner $(hex <third.public)\ntrust countersigned\n"
    order order3 first 'order emergency 2\nversion 1\ntrust countersigned\ncode 616263\n'
    order order4 second 'order emergency 3\nversion 1\ntrust countersigned\ncode 646566\n'
    order order5 third 'order newkey 3 epoch\n'
    {
        bytes 5a987be47b7794ba2aaa984652c5d4ff3afc13c02a0f5a8bbac5a1588077979c690b773fb0d924a596ac06ce1f466354
        bytes 422955444d76cd3675fb06e09f9f30f4da2dc294bfea6634fe54b0131112488438c36ec36db8b34410d46f5daa6e00cf
        bytes 0a024813f2f239dfee11d1e30d6ea88579a7eaf5c59e01a09c9f4bc356c0025167d84c2e9f44b415aaed06982d746d93
        bytes 985ecaf0095ac280c445bc05ad58a247da98bc3d71ca439ee3f9ab2eadc53b025429783c78bd26fea3b0ceeb08cd50ee
        bytes b97ac61e5047188853c2c5d218bf691c9e6ac1ae4788b3a8358fd8be7ccf9f20
    } >noise
    rehearse image boot order1 order2 order3 order4 order5 go 'put 2 pin 31323334' 'get 2 pin' go \
        'sign 3 1 68656c6c6f' status off
    hash_of image image
}

the_life() {
    echo "5. Officer: so it is served, with the same noise:"
    serve image boot order1 order2 order3 order4 order5 go 'put 2 pin 31323334' 'get 2 pin' go \
        'sign 3 1 68656c6c6f' status off
    keep_statement hello
    ask showimage image
}

the_history() {
    echo "6. Relying party: what has become of the device, which keys has it, and who signed? The chain tells it:"
    ask chain image chain
    ask attach chain hello attached
    ask history maker.public attached
}

cd "$work"
echo "Making keys, a device and orders, which takes a moment .." >&2
{
    the_new_device
    echo
    the_wrong_orders
    echo
    the_power_loss
    echo
    the_script
    echo
    the_life
    echo
    the_history
} >told
compare_told "$here"
