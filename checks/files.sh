#!/usr/bin/env bash
# Tries what the built program does to the files of the system: checks/files.sh [--short] [-j N] [PROGRAM]. Two commands
# at once on one key, image or register; commands that are killed at a random moment, and at each of their calls of the
# system; each of these calls that fails; limits and disks that are full; links, devices, pipes, modes, names and new
# files that stand in the way; and a computer that loses power as soon as a command has ended. It prints a line for each
# part, with how often it was tried, and a line for each part that cannot be tried here: at each call needs strace, and
# a power cut needs a loop device and leave to mount. The last line counts what was tried, the indices that two
# signatures got, and the files that were lost: empty, short, unreadable or older than what was handed out. Fails if
# there is one, or if a command ends or leaves a file otherwise than it should. With --short it runs a few commands at
# once, kills a few at random moments, and tries all that stands in the way, which takes less than 20 seconds. With -j N
# it works on N worlds at a time.
set -euo pipefail
export LC_ALL=C

here=$(cd "$(dirname "${BASH_SOURCE[0]}")" && pwd)
# shellcheck source=program.sh
. "$here/program.sh"
words=()
short=()
for word; do
    if [ "$word" = --short ]; then short=(--short); else words+=("$word"); fi
done
take_words "usage: checks/files.sh [--short] [-j N] [PROGRAM]" "${words[@]}"
need python3

exec python3 -B "$here/files/files.py" "${short[@]}" -j "$processes" "$program"
