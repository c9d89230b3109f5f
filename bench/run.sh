#!/usr/bin/env bash
# Measures workloads of the built program, outside the gate: bench/run.sh [PROGRAM]. The program generates one of 3
# rounds and one of 24, and serves them. For each the script prints, in processor time, the least of five runs:
# generating and serving; orders, puts and signatures a second, each with its write calls of the board; how much of
# serving is hashing, by the number of hashes that trees and signatures take and the time of one, as keygen shows it;
# and the memory that the program takes, if GNU time is there. It fails if the summary is not what `run` then comes to.
set -euo pipefail
export LC_ALL=C

here=$(cd "$(dirname "${BASH_SOURCE[0]}")" && pwd)
# shellcheck source=../checks/program.sh
. "$here/../checks/program.sh"
find_program "$@"
need python3
work=$(mktemp -d)
trap 'rm -rf "$work"' EXIT
# shellcheck source=program.sh
. "$here/program.sh"

uptime | sed 's/.*load average/load average/'
cd "$work"
for rounds in 3 24; do
    python3 -B "$here/run/measure.py" "$program" "$rounds"
    "$program" generate 1 "$rounds" image script noise >/dev/null
    echo "  memory                  $(memory_of "$program" run image script noise)"
done
