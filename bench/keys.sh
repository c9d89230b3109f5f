#!/usr/bin/env bash
# Measures keys of types 5 and 3 outside the gate: making a public key, signing with and without a kept tree, and
# verifying. Best of three runs each, in wall time, beside the number of hashes that each takes and what one processor
# hashes by openssl. It proves and builds a program of its own in a temporary folder, which it removes.
set -euo pipefail
export LC_ALL=C

cd "$(dirname "${BASH_SOURCE[0]}")/.."
. bench/program.sh
program keys mb_model mb_lms mb_signer

# The hashes of a public key, of a signature by a kept tree, and of its verification, from the digits of the program's
# one text under its one key.
hashes() {
    python3 - <<'PYTHON'
import hashlib

identifier, seed, index = b"\x61" * 16, b"\x5a" * 32, 3
text = b"a text of some length, as an order or an entry of the log has"
leaf = index.to_bytes(4, "big")
randomizer = hashlib.sha256(identifier + leaf + b"\xff\xfd\xff" + seed).digest()
hash_of_text = hashlib.sha256(identifier + leaf + b"\x81\x81" + randomizer + text).digest()
digits = [digit for byte in hash_of_text for digit in (byte >> 4, byte & 15)]
shortfall = sum(15 - digit for digit in digits) << 4
digits += [shortfall >> 12 & 15, shortfall >> 8 & 15, shortfall >> 4 & 15]
print(32 * (67 * 16 + 2) + 31, 67 + sum(digits) + 2, 1 + sum(15 - digit for digit in digits) + 2 + 5)
PYTHON
}

# measure WHAT COUNT: the time of doing this once, in microseconds, from doing it COUNT times.
measure() { time_of "$2" "$program" "$1" "$2" | awk '{ print $1 * 1e3 }'; }

# A line: what is done, the time of one, and its hashes.
show() { awk -v what="$1" -v time="$2" -v hashes="$3" 'BEGIN { printf "%-18s %9.3f ms, %6d hashes, %4.0f ns each\n", what, time / 1e3, hashes, time * 1e3 / hashes }'; }

read -r public kept verify < <(hashes)
show 'a public key' "$(measure public 100)" "$public"
show 'signing' "$(measure sign 100)" $((public + kept))
show 'by a kept tree' "$(measure sign_kept 20000)" "$kept"
show 'verifying' "$(measure verify 20000)" "$verify"

if command -v openssl >/dev/null; then
    openssl speed -seconds 1 -bytes 55 sha256 2>/dev/null |
        awk '$1 == "sha256" { printf "openssl, sha256 of 55 bytes: %.0f ns each, by one processor\n", 55e9 / ($2 * 1000) }'
else
    echo "openssl is not there"
fi
