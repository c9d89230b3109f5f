#!/usr/bin/env bash
# Measures each command of the built program at its largest inputs, outside the gate, but for `asm`, which
# bench/applications.sh measures: bench/largest.sh [PROGRAM [COMMAND..]]. Scripts of 65,536 events of each kind and of
# 4 MB of orders, the longest orders, logs, policies, registers, items and codes, noise and inputs of 4 MB, the most
# levels, rounds and steps. It prints the load of the machine and then, for each command and each of its inputs that can
# be large, the processor time, the least of three runs, and the memory, if GNU time is there, at a quarter, at a half
# and at all of the most that there can be. It fails if time or memory grows faster than the input, if a call ends
# otherwise than it has to, or if a command of the program has no row.
set -euo pipefail
export LC_ALL=C

here=$(cd "$(dirname "${BASH_SOURCE[0]}")" && pwd)
# shellcheck source=../checks/program.sh
. "$here/../checks/program.sh"
find_program "${@:1:1}"
need python3
work=$(mktemp -d)
trap 'rm -rf "$work"' EXIT

uptime | sed 's/.*load average/load average/'
python3 -B "$here/largest/measure.py" "$program" "$work" "${@:2}"
