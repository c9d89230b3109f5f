#!/usr/bin/env bash
# Compares the built program's keys and signed orders with the LMS of Bouncy Castle, verifies each signature of a chain
# with it, and has the program serve an order that Bouncy Castle signed; and has each verify the endorsements that the
# other makes by HSS keys: run.sh [PROGRAM]. With no PROGRAM it takes the one that is built, and proves and builds it
# first if there is none. It skips with a message if Java or the library (Debian's libbcprov-java) is missing; JAR may
# name the library. It is no part of the gate, and writes in a temporary folder alone, which it removes.
set -euo pipefail
export LC_ALL=C

here=$(cd "$(dirname "${BASH_SOURCE[0]}")" && pwd)
top=$(cd "$here/../.." && pwd)
crate=$top/crates/miniboot
jar=${JAR:-/usr/share/java/bcprov.jar}

for tool in java javac; do
    if ! command -v "$tool" >/dev/null; then
        echo "skipped: $tool is not there"
        exit 0
    fi
done
if [ ! -r "$jar" ]; then
    echo "skipped: $jar is not there (apt-get install libbcprov-java)"
    exit 0
fi

work=$(mktemp -d)
trap 'rm -rf "$work"' EXIT
program=$(realpath -m "${1:-$crate/out/miniboot}")
if [ ! -x "$program" ]; then
    # shellcheck source=../../examples/build.sh
    . "$top/examples/build.sh"
    build
fi
javac -d "$work" -cp "$jar" "$here/Peer.java"
cd "$work"

passed=0
failed=0

# Counts a comparison by its name.
compare() {
    local name=$1 found=$2 wanted=$3
    if [ "$found" = "$wanted" ]; then
        passed=$((passed + 1))
    else
        failed=$((failed + 1))
        printf '%s: found "%s", wanted "%s"\n' "$name" "$found" "$wanted"
    fi
}

peer() {
    java -cp "$jar:$work" Peer "$@"
}

# Whether Bouncy Castle finds each signature of an order to be of its key: verified ORDER SPAN PUBLIC [LAYER PUBLIC]..
verified() {
    if peer verify "$@" 2>said; then echo yes; else echo no; fi
}

miniboot() {
    "$program" "$@" >printed || compare "miniboot $*, status" "$?" 0
}

# The bytes of standard input in hexadecimal.
hex() {
    od -An -v -tx1 | tr -d ' \n'
}

# The bytes that are given in hexadecimal.
bytes() {
    printf '%b' "$(sed 's/../\\x&/g' <<<"$1")"
}

# The bytes of a file from an offset on, as many as are given.
part() {
    head -c "$(($2 + $3))" "$1" | tail -c "$3"
}

# The body of an order's line, of the given number of bytes, in hexadecimal.
body() {
    cut -c "9-$((8 + 2 * $2))" "$1"
}

# What the program answers to an order on a new device whose layer 1 is the first officer's.
serve() {
    miniboot factory device.noise maker.key first.public code image
    { echo boot; cat "$1"; echo off; } >script
    miniboot run image script first.noise
    sed -n 2p printed
}

# Signatures of other programs, one for each width and each height, and the first order.
if command -v python3 >/dev/null; then
    python3 -B "$top/peers/compare.py" --signatures >signatures
    compare 'widths and heights' "$(wc -l <signatures)" 8
    compare 'their signatures' "$(peer signatures signatures && echo verify)" verify
    # Of the tests' first chain, those of each entry and of the statement.
    python3 -B "$top/peers/compare.py" --chain >chain
    compare 'entries and a statement' "$(wc -l <chain)" 9
    compare 'the signatures of a chain' "$(peer signatures chain && echo verify)" verify
else
    echo "python3 is not there: the signatures in the tests were not verified"
fi

# The keys of the three officers of examples/device-life, and a maker's.
bytes d95321bdf284c2032c7a5209b847eae96c3080c86bfc2585312e15361179d1ac >first.noise
bytes c0fcde819a0006907629b33ec8a491a8b0d7cbf7ef92d8dfeb3bb22913d91c30 >second.noise
bytes 547202fca623e77ec47fe0d1edad602736c85db474f6c085282bd16c65856985 >third.noise
head -c 32 /dev/zero | tr '\0' '\2' >maker.noise
head -c 48 /dev/zero >device.noise
printf 'layer one' >code
miniboot keygen maker.noise maker.key maker.public
for officer in first second third; do
    miniboot keygen "$officer.noise" "$officer.key" "$officer.public"
    compare "the $officer public key" "$(hex <"$officer.public")" "$(peer public "$officer.key")"
done

# Signs the order of the draft on standard input by the first's next index; Bouncy Castle signs the same by the same.
signs() {
    local name=$1 span=$2
    cat >draft
    cp first.key before.key
    miniboot sign first.key draft "$name"
    compare "$name, by its key" "$(verified "$name" "$span" first.public)" yes
    compare "$name, by another key" "$(verified "$name" "$span" second.public)" no
    peer sign before.key "$(body "$name" "$span")" >same
    compare "$name, signed by both" "$(cmp same "$name" && echo same)" same
}
# Whether examples/device-life expects this order, by its name there.
expected() {
    bytes "$(cut -d ' ' -f 2 "$2")" >order.bytes
    grep -c "^  $1  SHA-256 $(sha256sum <order.bytes | cut -d ' ' -f 1)\$" "$top/examples/device-life/expected.txt" || true
}
signs establish 60 <<DRAFT
order establish 2
owner $(hex <second.public)
trust countersigned
DRAFT
signs runs 15 <<'DRAFT'
order emergency 2
version 1
trust countersigned
code 616263
DRAFT
signs load 15 <<'DRAFT'
order load 1
version 2
trust always
code 6f6e65
DRAFT
compare "the example's orders by one" "$(expected order1 establish)$(expected order3 runs)" 11
signs surrender 8 <<'DRAFT'
order surrender 2
target length 7
DRAFT
signs newkey 4 <<'DRAFT'
order newkey 3 configuration
DRAFT
signs emergency 17 <<'DRAFT'
order emergency 3
target length 3
version 1
trust always
code -
DRAFT
compare "the first key's next index" "$(part first.key 52 4 | hex)" 00000006

# Countersignatures of layers 2 and 3, by the indices of the example: the second officer has signed two orders before,
# and the third one.
for officer in second second third; do
    miniboot sign "$officer.key" draft other
done
miniboot countersign second.key 2 load one
miniboot countersign third.key 3 one two
compare "the example's countersigned order" "$(expected order6 two)" 1
compare 'one countersignature' "$(verified one 15 first.public 2 second.public)" yes
compare 'two countersignatures' "$(verified two 15 first.public 2 second.public 3 third.public)" yes
compare 'two of other keys' "$(verified two 15 first.public 2 third.public 3 second.public)" no

# An order that Bouncy Castle alone has signed, and the same with the last bit of its path flipped. The key file keeps
# its next index: nothing signs with it afterwards.
compare "the program's order is served" "$(serve establish)" 'done 1 2'
peer sign first.key "$(body establish 60)" >foreign
compare 'it is another signature' "$(cmp -s foreign establish && echo same)" ''
compare "Bouncy Castle's order is served" "$(serve foreign)" 'done 1 2'
# From this offset on, the second entry of the device's chain describes layer 2: that it has an owner, what it trusts of
# changes of layer 1 and of layer 2, and the owner's key.
miniboot chain image chain
compare 'the owner of layer 2' "$(part chain 2636 59 | hex)" "010202$(hex <second.public)"
word=$(cat foreign)
printf '%s%x00\n' "${word:0:-3}" "$((16#${word: -3:1} ^ 1))" >turned
compare 'a turned bit, by Bouncy Castle' "$(verified turned 60 first.public)" no
compare 'a turned bit, by the program' "$(serve turned)" 'refused 13 signature'

# Makers' HSS keys of one to three levels. Each endorses a root key 33 times, past the last level's first key, or 32
# times with one level, and Bouncy Castle verifies the first and the last of these.
endorsed() {
    if peer endorsed "$@" 2>said; then echo yes; else echo no; fi
}
for levels in 1 2 3; do
    # keys of one noise would have the same first key
    head -c 32 /dev/zero | tr '\0' "\\$levels" >hss.noise
    miniboot hsskeygen hss.noise "$levels" hss.key hss.public
    miniboot endorse hss.key maker.public endorsement
    compare "$levels levels, the first number" "$(cat printed)" 'index 0'
    compare "$levels levels, the first endorsement" "$(endorsed hss.public maker.public endorsement)" yes
    compare "$levels levels, of another root key" "$(endorsed hss.public first.public endorsement)" no
    last=$([ "$levels" = 1 ] && echo 31 || echo 32)
    for _ in $(seq "$last"); do
        miniboot endorse hss.key maker.public endorsement
    done
    compare "$levels levels, a later number" "$(cat printed)" "index $last"
    compare "$levels levels, a later endorsement" "$(endorsed hss.public maker.public endorsement)" yes
done

# What the program says of an endorsement of the maker's public key.
judges() {
    "$program" endorsed "$1" maker.public "$2" || true
}
for levels in 1 2 3; do
    peer endorse maker.public "$levels" foreign.public foreign
    compare "$levels levels of Bouncy Castle" "$(judges foreign.public foreign)" endorsed
    compare "$levels levels, under another key" "$(judges hss.public foreign)" 'refused 28'
    { cat foreign; printf '\0'; } >longer
    compare "$levels levels, a byte more" "$(judges foreign.public longer)" 'refused 28'
done

echo "$passed agree, $failed differ"
[ "$failed" -eq 0 ]
