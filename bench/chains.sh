#!/usr/bin/env bash
# Measures `verify` of the built program, outside the gate: bench/chains.sh [PROGRAM]. It prints the load of the machine
# and then, in processor time, the least of five runs for chains of 8 and of 128 entries, which peers/device.py makes:
# the whole call, each entry, and the hashes that the signatures of the chain take. Beside that it prints what OpenSSL
# takes for as many hashes, and Bouncy Castle for verifying the same signatures; if Java or its library (Debian's
# libbcprov-java, or JAR) is missing, it says so.
set -euo pipefail
export LC_ALL=C

here=$(cd "$(dirname "${BASH_SOURCE[0]}")" && pwd)
# shellcheck source=../checks/program.sh
. "$here/../checks/program.sh"
find_program "$@"
need python3
jar=${JAR:-/usr/share/java/bcprov.jar}
work=$(mktemp -d)
trap 'rm -rf "$work"' EXIT

# How long OpenSSL takes for a hash of 55 bytes, in nanoseconds: as many as one block of SHA-256 has room for, as have
# most of those here.
nanoseconds=
if command -v openssl >/dev/null; then
    nanoseconds=$(openssl speed -seconds 1 -bytes 55 sha256 2>/dev/null |
        awk '$1 == "sha256" { printf "%.1f", 55e6 / $2 }')
else
    echo "openssl is not there"
fi
uptime | sed 's/.*load average/load average/'
python3 -B "$here/chains/measure.py" "$program" "$work" "$nanoseconds"

for tool in java javac; do
    if ! command -v "$tool" >/dev/null; then
        echo "Bouncy Castle: skipped, $tool is not there"
        exit 0
    fi
done
if [ ! -r "$jar" ]; then
    echo "Bouncy Castle: skipped, $jar is not there (apt-get install libbcprov-java)"
    exit 0
fi
javac -d "$work" -cp "$jar" "$here/../peers/bouncy-castle/Peer.java"
for count in 8 128; do
    echo "Bouncy Castle, $count entries: $(java -cp "$jar:$work" Peer time "$work/signatures-$count")"
done
