#!/usr/bin/env bash
# The life of a device, from the keys of its maker and its owners to an audit. Before each step stands a line that says
# who asks and what; then come the commands and what the program prints. Among a device's events order1 stands for the
# line of that order. Fails if what is shown is not what expected.txt says.
#
#     run.sh               proves and builds the program first, and names each crate that is proved
#     run.sh PROGRAM       takes a program that is built
#
# What expected.txt has of keys, the device, the seven orders, the life and its chain was made by another program, and
# peers/run.sh makes all of it anew by a third; maker.txt and attached.txt are files of step 10, in hexadecimal, for
# those who verify a chain and make nothing. The life of step 8 is that program's alone. The refusals and the power
# losses follow from docs/use/commands.md and docs/use/formats.md: of the refusals 11, 12 and 13 the first that applies
# is given; an event in which power fails is answered `stopped`, and the next boot does what was left to be done; and an
# order's records count from the write of the root's selector on, so that the first write leaves the state before it.
#
# The noise is known here, so that the same keys can be made; people take bytes that nobody can guess, as
# `head -c 32 /dev/urandom` gives them. Works from any current folder; beside the build in crates/*/out/ it writes in a
# temporary folder alone, which it removes, or in the new folder that KEEP_IN names.
set -euo pipefail
export LC_ALL=C
usage="usage: examples/device-life/run.sh [PROGRAM]"

here=$(cd "$(dirname "${BASH_SOURCE[0]}")" && pwd)
# shellcheck source=../begin.sh
. "$here/../begin.sh"

if [ $# -gt 1 ] || [[ "${1-}" == -* ]]; then
    echo "$usage" >&2
    exit 2
fi
need cut diff grep head od paste sed sha256sum tr uniq

find_or_build "$@"

# Has the owner in charge sign a draft, and others countersign the order: signed NAME OFFICER [LAYER OFFICER]..
signed() {
    local name=$1
    ask sign "$2.key" "$name.draft" "$name"
    shift 2
    while [ $# -gt 0 ]; do
        ask countersign "$2.key" "$1" "$name" "$name"
        shift 2
    done
}

# Cuts an order in each of its writes in turn, on a new device each time, and shows once what is found then: the state,
# and the answer to the order that is given again.
cut_each_write() {
    local count
    for ((count = 1; ; count++)); do
        cp new other
        printf 'boot\ncut %s fill ff\n%s\nboot\nstatus\n%s\noff\n' "$count" "$(cat "$1")" "$(cat "$1")" >script
        miniboot run other script noise
        [ "$(sed -n 3p printed)" = stopped ] || break
        echo "    $(sed -n 5p printed), and $1 again: $(sed -n 6p printed)"
    done | uniq
}

the_keys() {
    echo "1. Maker: who will be in charge? Whoever has the keys, which the maker and three officers make:"
    bytes 35fe183c068bc13ac735a76ac05c37d8d055c34bf945b99c4cdada2e31cc8ca8 >maker.noise
    bytes d95321bdf284c2032c7a5209b847eae96c3080c86bfc2585312e15361179d1ac >first.noise
    bytes c0fcde819a0006907629b33ec8a491a8b0d7cbf7ef92d8dfeb3bb22913d91c30 >second.noise
    bytes 547202fca623e77ec47fe0d1edad602736c85db474f6c085282bd16c65856985 >third.noise
    ask keygen maker.noise maker.key maker.public
    ask keygen first.noise first.key first.public
    ask keygen second.noise second.key second.public
    ask keygen third.noise third.key third.public
}

the_device() {
    echo "2. Maker: whose is a new device? Layer 1 is the first officer's, and the maker's key signs the birth:"
    bytes 12d71d7255b6325df7487678010fc9dbb905c6d5af1a7d986e75ecdfdc39dfbec10b471ceff881272aa5ed819fd9a0e0 >birth.noise
    printf 'layer one' >layer1.code
    ask factory birth.noise maker.key first.public layer1.code image
    hash_of image image
    cp image new
}

the_orders() {
    echo "3. Officer: what does a change take? An order signed by the owner in charge; the owners above countersign order6:"
    draft order1 'order establish 2' "owner $(hex <second.public)" 'trust countersigned'
    signed order1 first
    order_hash order1
    draft order2 'order establish 3' "owner $(hex <third.public)" 'trust countersigned'
    signed order2 second
    order_hash order2
    draft order3 'order emergency 2' 'version 1' 'trust countersigned' 'code 616263'
    signed order3 first
    order_hash order3
    draft order4 'order emergency 3' 'version 1' 'trust countersigned' 'code 646566'
    signed order4 second
    order_hash order4
    draft order5 'order newkey 3 epoch'
    signed order5 third
    order_hash order5
    draft order6 'order load 1' 'version 2' 'trust always' 'code 6f6e65'
    signed order6 first 2 second 3 third
    order_hash order6
    draft order7 'order load 3' 'version 2' 'trust countersigned' 'code 676869'
    signed order7 third
    order_hash order7
}

the_refusals() {
    echo "4. Officer: what do wrong orders change? Nothing: not the maker's, one for another device, or an establish again:"
    draft seized 'order establish 2' "owner $(hex <maker.public)" 'trust always'
    signed seized maker
    draft elsewhere 'order establish 2' 'target serial 00000000000000000000000000000000' \
        "owner $(hex <third.public)" 'trust always'
    signed elsewhere first
    head -c 128 /dev/zero >noise
    cp new other
    serve other boot seized elsewhere status order1 order1 status off
}

the_power_losses() {
    echo "5. Officer: what does a power loss leave? An order that was cut in its first write has not happened:"
    cp new other
    serve other boot 'cut 1 fill ff' order1 status boot status order1 status off
    echo
    echo "6. Officer: is each write as safe? Cut in any of them, an order leaves the state before it or the one after it:"
    cut_each_write order1
}

the_life() {
    echo "7. Officer: what do the layers above lose? Nothing: their owners countersigned order6, so secrets and key stay:"
    {
        bytes 5a987be47b7794ba2aaa984652c5d4ff3afc13c02a0f5a8bbac5a1588077979c690b773fb0d924a596ac06ce1f466354
        bytes 422955444d76cd3675fb06e09f9f30f4da2dc294bfea6634fe54b0131112488438c36ec36db8b34410d46f5daa6e00cf
        bytes 0a024813f2f239dfee11d1e30d6ea88579a7eaf5c59e01a09c9f4bc356c0025167d84c2e9f44b415aaed06982d746d93
        bytes 985ecaf0095ac280c445bc05ad58a247da98bc3d71ca439ee3f9ab2eadc53b025429783c78bd26fea3b0ceeb08cd50ee
        bytes b97ac61e5047188853c2c5d218bf691c9e6ac1ae4788b3a8358fd8be7ccf9f20
    } >noise
    serve image boot order1 order2 order3 order4 order5 go 'put 2 pin 31323334' go 'put 3 token 00ff' \
        'sign 3 1 68656c6c6f' off boot order6 order7 'get 2 pin' 'get 3 token' status off
    keep_statement hello
}

the_two_trusts() {
    echo "8. Officer: can layer 3 go along with layer 1 and refuse layer 2? With a trust for each, on a new device:"
    draft trusting 'order establish 3' "owner $(hex <third.public)" 'trust always never'
    signed trusting second
    draft first3 'order emergency 3' 'version 1' 'trust always never' 'code 646566'
    signed first3 second
    draft next1 'order load 1' 'version 2' 'trust always' 'code 6f6e65'
    signed next1 first 2 second
    draft next2 'order load 2' 'version 2' 'trust countersigned' 'code 74776f'
    signed next2 second
    head -c 224 /dev/zero >noise
    cp new other
    serve other boot order1 trusting order3 first3 order5 go 'put 3 token 00ff' off boot next1 'get 3 token' \
        next2 'get 3 token' status off
    ask chain other others
    ask verify maker.public others 1
}

the_chain() {
    echo "9. Relying party: which code could ever sign with key 1? The chain tells whoever trusts maker.public alone:"
    ask chain image chain
    hash_of chain chain
    ask verify maker.public chain 1
}

the_statement() {
    echo "10. Relying party: which code said 'hello'? That at the end of the chain, once it is cut where key 1 signed:"
    ask attach chain hello attached
    hash_of attached attached
    ask verify maker.public attached 1
}

the_audit() {
    echo "11. Maker: does a chain tell what happened? It lists what the device's own log lists:"
    ask audit image maker.public chain 1
    ask audit image maker.public attached 1
}

cd "$work"
echo "Making keys, a device and orders, which takes a moment .." >&2
{
    the_keys
    echo
    the_device
    echo
    the_orders
    echo
    the_refusals
    echo
    the_power_losses
    echo
    the_life
    echo
    the_two_trusts
    echo
    the_chain
    echo
    the_statement
    echo
    the_audit
} >told
for file in maker.public attached; do
    if [ "$(hex <"$file")" != "$(tr -d '\n' <"$here/${file%.public}.txt")" ]; then
        echo "$file is not what examples/device-life/${file%.public}.txt has" >&2
        exit 1
    fi
done
compare_told "$here"
