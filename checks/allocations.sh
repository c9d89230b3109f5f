#!/usr/bin/env bash
# Makes each allocation of the built program fail in turn, outside the gate: checks/allocations.sh [-j N] [PROGRAM]. It
# serves the life of a device, in which orders of most kinds are done, secrets are kept, a message is signed and code is
# called, and calls each other command. A run with one failing allocation has to end like one without, or with status 6,
# `no memory` and unchanged files; `run` may also answer one event `no memory`, and then the replies and the image are
# those of the script without that event and its noise; and `generate` has written its files if its own device answered
# so. A call with a wrong guess of a PIN lacks memory at the same allocations as one with the right guess. It prints a
# line for each command, with how many allocations there were and how the runs ended, and each run that was wrong; it
# ends with status 1 if there is one. With -j N it makes N runs at a time. It needs a C compiler, and does nothing if
# there is none.
set -euo pipefail
export LC_ALL=C

here=$(cd "$(dirname "${BASH_SOURCE[0]}")" && pwd)
# shellcheck source=program.sh
. "$here/program.sh"
take_words "usage: checks/allocations.sh [-j N] [PROGRAM]" "$@"
need python3
compiler=
for tool in cc gcc clang; do
    if [ -z "$compiler" ] && command -v "$tool" >/dev/null; then
        compiler=$tool
    fi
done
if [ -z "$compiler" ]; then
    echo "no allocation was made to fail: there is no compiler of C on the PATH" >&2
    exit 0
fi

work=$(mktemp -d)
trap 'rm -rf "$work"' EXIT
"$compiler" -O1 -Wall -shared -fPIC -o "$work/failing.so" "$here/allocations/failing.c"
python3 -B "$here/allocations/allocations.py" -j "$processes" "$program" "$work/failing.so"
