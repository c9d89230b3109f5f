#!/usr/bin/env bash
# Measures `trust` of the built program beside `verify` of the same chain, outside the gate: bench/policies.sh
# [PROGRAM]. It prints the load of the machine and then, in processor time, the least of five runs on a chain of 128
# entries, which peers/device.py makes: `verify`; `trust` by a policy of 256 lines with sets of 64 hashes, whose rules
# all look into their sets; and `trust` by the largest policies that a file holds, of some hundred thousand tests. Fails
# if a policy of 256 lines takes longer than the verification beside it.
set -euo pipefail
export LC_ALL=C

here=$(cd "$(dirname "${BASH_SOURCE[0]}")" && pwd)
# shellcheck source=../checks/program.sh
. "$here/../checks/program.sh"
find_program "$@"
need python3
work=$(mktemp -d)
trap 'rm -rf "$work"' EXIT

uptime | sed 's/.*load average/load average/'
python3 -B "$here/policies/measure.py" "$program" "$work"
