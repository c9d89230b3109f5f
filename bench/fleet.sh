#!/usr/bin/env bash
# Measures `fleet` of the built program, outside the gate: bench/fleet.sh [PROGRAM [DEVICES ENTRIES]]. It prints the
# load of the machine and then, in processor time: showing a register 512 devices of 127 entries, which peers/device.py
# makes, and then of 128 entries, in files of items as long as they may be, with the share of the hashes of their
# signatures, by the time of one, as keygen shows it; reading and writing the full register once; a question for a code,
# to registers of 8 and of all devices; and a chain of one entry, to both. It fails if an answer is not the one that is
# wanted. DEVICES and ENTRIES set how many there are, at most 512 devices of 3 to 128 entries.
set -euo pipefail
export LC_ALL=C

here=$(cd "$(dirname "${BASH_SOURCE[0]}")" && pwd)
# shellcheck source=../checks/program.sh
. "$here/../checks/program.sh"
find_program "${@:1:1}"
need python3
work=$(mktemp -d)
trap 'rm -rf "$work"' EXIT

uptime | sed 's/.*load average/load average/'
python3 -B "$here/fleet/measure.py" "$program" "$work" "${2:-512}" "${3:-128}"
