#!/usr/bin/env bash
# Gives each command of the built program a hostile world, outside the gate: checks/hostile.sh [-j N] [PROGRAM]. Each
# call of the host fails in turn. Each input is too long in turn, and as long as it may be. Each input ends at each of
# its bytes, and one of thousands of bytes at each of its first and last and at each seventh or 31st between; an image
# ends where its sectors begin. The last of 128 entries of a chain ends at each of its bytes, has a bit flipped in each,
# or is one that a device signed against the rules. The longest script, the largest code and the longest input of a call
# are served, and what is one longer. The status and the line have to be those that the rules and peers/commands.py
# give. Every file is compared before and after each call: those that the command wrote before a failing call are what
# they are without it, and all others stay. It prints a line for each kind, with how many calls were tried, and each
# call that was wrong; it ends with status 1 if there is one. The same calls are tried each time. With -j N it works in
# N processes.
set -euo pipefail
export LC_ALL=C

here=$(cd "$(dirname "${BASH_SOURCE[0]}")" && pwd)
# shellcheck source=program.sh
. "$here/program.sh"
take_words "usage: checks/hostile.sh [-j N] [PROGRAM]" "$@"
need python3

exec python3 -B "$here/hostile/hostile.py" -j "$processes" "$program"
