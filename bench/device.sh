#!/usr/bin/env bash
# Measures the built program, outside the gate: bench/device.sh [PROGRAM]. It prints the load of the machine and then,
# in processor time, the least of five runs: a key, a new device, loading images, each kind of event and of order, many
# statements and many orders in one boot, the boot after a power loss, and calls of few steps and of nearly 1,000,000,
# which a program without calls cannot serve; with the number of an order's write calls, which is found by cutting it;
# and beside each how many trees of a key take as long. An event's time is that of a run with it less that of a run
# without it, so that reading and writing the files is no part of it.
set -euo pipefail
export LC_ALL=C

here=$(cd "$(dirname "${BASH_SOURCE[0]}")" && pwd)
# shellcheck source=../checks/program.sh
. "$here/../checks/program.sh"
find_program "$@"
need python3

uptime | sed 's/.*load average/load average/'
python3 "$here/device/measure.py" "$program"
if command -v openssl >/dev/null; then
    openssl speed -seconds 1 -bytes 55 sha256 2>/dev/null |
        awk '$1 == "sha256" {
            each = 55e6 / $2
            printf "openssl, SHA-256 of 55 bytes: %.0f ns each, so %.2f ms for 34,399\n", each, each * 34399 / 1e6
        }'
else
    echo "openssl is not there"
fi
