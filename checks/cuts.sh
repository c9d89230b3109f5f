#!/usr/bin/env bash
# Cuts power in each write of each event of a device's life, outside the gate: checks/cuts.sh [-j N] [PROGRAM]. The
# built program makes the keys, signs the orders and serves the life. Each event is cut at each of its writes, with four
# fillings and with a part of the write kept, and the boots that follow are cut again at each of theirs. Each time the
# device has to show the old or the new state, to answer the event given again and the next one accordingly, and to come
# to the same image as without cuts, clean. For each cut of an event that keeps nothing of the write, `cutat` has to say
# which state it left, and `unstopped` for an event with fewer writes. It prints a line for each event, and how many
# cuts were made. If something is wrong, it prints the script and the replies, keeps the files, and ends with status 1.
# With -j N it runs the program N at a time.
set -euo pipefail
export LC_ALL=C

here=$(cd "$(dirname "${BASH_SOURCE[0]}")" && pwd)
# shellcheck source=program.sh
. "$here/program.sh"
take_words "usage: checks/cuts.sh [-j N] [PROGRAM]" "$@"
need python3

exec python3 "$here/cuts/cuts.py" -j "$processes" "$program"
