#!/usr/bin/env bash
# Gives the built program bad chains and statements, outside the gate: checks/chains.sh [-j N] [PROGRAM]. Random bytes
# of random lengths; the first two entries of a chain and its statement, cut at each byte and with each bit flipped;
# lines that are no statement; files that are too long; and chains that a device signed against the rules. Each chain is
# given to `verify`, and some to `attach` and `audit` too. Each call has to end within a second of processor time, with
# the status and the line that peers/chains.py predicts, and to write what it should, which is nothing if it refuses. It
# prints a line for each kind, with how many calls were tried, and each call that was wrong, whose files it keeps; it
# ends with status 1 if there is one. With -j N it works in N processes.
set -euo pipefail
export LC_ALL=C

here=$(cd "$(dirname "${BASH_SOURCE[0]}")" && pwd)
# shellcheck source=program.sh
. "$here/program.sh"
take_words "usage: checks/chains.sh [-j N] [PROGRAM]" "$@"
need python3

exec python3 -B "$here/chains/bad_input.py" -j "$processes" "$program"
