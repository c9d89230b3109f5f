#!/usr/bin/env bash
# Measures `app` and `asm` of the built program, outside the gate: bench/applications.sh [PROGRAM]. It prints the load of
# the machine and then, for each of some loops, how long one of 10,000,000 steps takes, beside a plain interpreter of the
# same table of instructions in C (bench/applications/interpreter.c), which gcc compiles in the same run, and how many
# times as long that is. In processor time, the least of five runs, without what a run of one step takes. The aim is
# within three times. Then it prints how long `asm` takes for texts of 10,000 to 400,000 labels and jumps, forwards and
# backwards, and for others as long as a text may be, with its memory if GNU time is there. It fails if a text takes a
# second or more.
set -euo pipefail
export LC_ALL=C

here=$(cd "$(dirname "${BASH_SOURCE[0]}")" && pwd)
# shellcheck source=../checks/program.sh
. "$here/../checks/program.sh"
find_program "$@"
need python3
need gcc

work=$(mktemp -d)
trap 'rm -rf "$work"' EXIT
gcc -O2 -o "$work/interpreter" "$here/applications/interpreter.c"
uptime | sed 's/.*load average/load average/'
gcc --version | head -n 1
python3 -B "$here/applications/measure.py" "$program" "$work/interpreter"
python3 -B "$here/applications/assembler.py" "$program" "$work"
