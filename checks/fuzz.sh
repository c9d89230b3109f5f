#!/usr/bin/env bash
# Gives the built program spoilt files for some seconds, outside the gate: checks/fuzz.sh SECONDS [SEED [PROGRAM]].
# Images, scripts with orders, calls and noise, chains, statements, drafts, order lines, key files, public keys, codes, makers'
# files, endorsements, policies, assembler texts, registers and their items, for each command: mostly near what is
# valid, with a field, a bit or a word changed, cut, repeated or exchanged, a body or an entry changed and signed anew,
# numbers at their limits, devices with odd areas, slots, trusts and work left to be done, outputs that cannot be
# written. Each call has to end with the status, the lines and the files that peers/commands.py predicts. It prints how
# many cases it tried, by command and status, by line, by reply, by answer of a register and by state that a power loss
# leaves; it keeps each case that differs in a folder that it names, and then ends with status 1.
#
# The same SEED gives the same cases; without one, the time is the seed. checks/fuzz.sh --case NUMBER SEED [PROGRAM]
# tries one of them again. Keys and devices are made once, in about half a minute, and kept in ~/.cache/miniboot-fuzz.
set -euo pipefail
export LC_ALL=C

here=$(cd "$(dirname "${BASH_SOURCE[0]}")" && pwd)
# shellcheck source=program.sh
. "$here/program.sh"
case=()
seconds=0
if [ "${1-}" = --case ]; then
    case=(--case "${2-}")
    shift 2 || true
    seed=${1-}
else
    seconds=${1-}
    seed=${2-$(date +%s)}
    [ $# -lt 2 ] || shift
fi
if [ $# -lt 1 ] || [ $# -gt 2 ] || ! [[ "$seconds $seed ${case[1]-0}" =~ ^[0-9]+\ [0-9]+\ [0-9]+$ ]]; then
    echo "usage: checks/fuzz.sh SECONDS [SEED [PROGRAM]] or checks/fuzz.sh --case NUMBER SEED [PROGRAM]" >&2
    exit 2
fi
shift
find_program "$@"
need python3

cache=${XDG_CACHE_HOME:-$HOME/.cache}/miniboot-fuzz
exec python3 -B "$here/fuzz/fuzz.py" --cache "$cache" ${case[@]+"${case[@]}"} "$program" "$seconds" "$seed"
