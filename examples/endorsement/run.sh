#!/usr/bin/env bash
# Two factories and a buyer. A maker of devices makes an HSS key of two levels and endorses the root key of each of its
# factories. A buyer, who trusts the public key of that HSS key and nothing else, checks the root key that comes with a
# device, and is shown endorsements that are not of it. Builds the proved program, makes the keys with it, and shows
# each step. Fails if what was printed is not what expected.txt says, whose keys and endorsements another program made
# (peers/hss.py). The noise is known here, so that the same keys can be made; people take bytes that nobody can guess,
# as `head -c 32 /dev/urandom` gives them. run.sh [PROGRAM] tries a program that is built. Works from any current
# folder; beside the build in crates/*/out/ it writes in a temporary folder alone, which it removes, or in the new
# folder that KEEP_IN names.
set -euo pipefail
export LC_ALL=C

here=$(cd "$(dirname "${BASH_SOURCE[0]}")" && pwd)
# shellcheck source=../begin.sh
. "$here/../begin.sh"
need cut diff head od sed sha256sum tail tr
find_or_build "$@"

# Makes a factory's root key of 32 equal bytes.
factory_key() {
    head -c 32 /dev/zero | tr '\0' "\\$2" >noise
    ask keygen noise "$1.key" "$1.public"
}

the_maker() {
    echo "The maker makes an HSS key of two levels, which can endorse 1,024 root keys:"
    bytes 000102030405060708090a0b0c0d0e0f101112131415161718191a1b1c1d1e1f >noise
    ask hsskeygen noise 2 hss.key hss.public
    echo "Its factories in the north and in the south make a root key each, and so does somebody else:"
    factory_key north 1
    factory_key south 2
    factory_key other 3
    echo "It endorses those of its factories:"
    ask endorse hss.key north.public north.endorsement
    ask endorse hss.key south.public south.endorsement
    hash_of north.endorsement north.endorsement
    hash_of south.endorsement south.endorsement
    echo "It sees how many endorsements are left:"
    ask showmaker hss.key
}

the_buyer() {
    echo "A buyer trusts one file, hss.public. With a device from the north comes the root key of its factory:"
    ask endorsed hss.public north.public north.endorsement
    echo "The endorsement of the other factory is none of this key:"
    ask endorsed hss.public north.public south.endorsement
    echo "Somebody else's root key has no endorsement, and borrows one:"
    ask endorsed hss.public other.public north.endorsement
    echo "An endorsement that tells of one level, where the key has two, is refused, and so is one that lacks its end:"
    { head -c 3 north.endorsement; printf '\0'; tail -c +5 north.endorsement; } >spoilt
    ask endorsed hss.public north.public spoilt
    head -c 4755 north.endorsement >shorter
    ask endorsed hss.public north.public shorter
}

cd "$work"
{
    the_maker
    echo
    the_buyer
} >told
compare_told "$here"
