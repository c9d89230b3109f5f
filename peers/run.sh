#!/usr/bin/env bash
# Computes the outside values of the tests and examples anew, by an LMS in Python that is written from RFC 8554 alone,
# and prints how many of each source agree; then compares what the built program generates, and comes to when it serves
# that, with a workload that is made and served in Python, what it shows of random orders, and how it answers random
# calls: run.sh [PROGRAM]. Fails if something differs. It is no part of the gate, and writes in a temporary folder
# alone, which it removes.
set -euo pipefail

if ! command -v python3 >/dev/null; then
    echo "python3 is not there: nothing was compared"
    exit 0
fi
here=$(cd "$(dirname "${BASH_SOURCE[0]}")" && pwd)
program=$(realpath -m "${1:-$here/../crates/miniboot/out/miniboot}")
status=0
python3 -B "$here/compare.py" || status=1
if [ -x "$program" ]; then
    python3 -B "$here/workload.py" compare "$program" || status=1
    python3 -B "$here/random_orders.py" "$program" || status=1
    python3 -B "$here/random_calls.py" "$program" || status=1
else
    echo "$program is not there: what it does was not compared (examples/first-run/run.sh builds it)"
fi
exit "$status"
