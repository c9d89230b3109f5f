#!/usr/bin/env bash
# How many clauses the contracts of crates have, outside the gate: what calls require and what they ensure.
#   checks/clauses.sh             a line for each crate that stands over the board, and their sum
#   checks/clauses.sh CRATE..     the same for these crates, and a line for each of their functions
set -u
cd "$(dirname "$0")/.." || exit 2

crates="mb_slot mb_flash mb_area mb_region mb_outbound mb_boot mb_device_orders mb_device_regions mb_device"
each=0
if [ $# -gt 0 ]; then
    crates=$*
    each=1
fi

for crate in $crates; do
    if [ ! -d "crates/$crate/src" ]; then
        echo "no crate $crate" >&2
        exit 2
    fi
    find "crates/$crate/src" -name '*.rt' -not -path '*/tests*' | sort | xargs awk -v crate="$crate" -v each="$each" '
        function show(name, required, ensured) {
            if (each && required + ensured > 0) printf "    %-40s %3d requires %3d ensures\n", name, required, ensured
        }
        FNR == 1 { file = FILENAME; sub(/.*\/src\//, "", file) }
        match($0, /^ *(pub(\([a-z]+\))? )?(const )?(unsafe )?fn [a-z_0-9]+/) {
            show(name, required, ensured)
            name = substr($0, RSTART, RLENGTH)
            sub(/.*fn /, "", name)
            name = file ": " name
            required = ensured = 0
        }
        /^ *requires[ {]/ { required++; requires++ }
        /^ *ensures[ {]/ { ensured++; ensures++ }
        END {
            show(name, required, ensured)
            printf "%-16s %4d requires %4d ensures %5d in all\n", crate, requires, ensures, requires + ensures
        }'
done | awk '{ print } / in all$/ { sum += $(NF - 2) } END { printf "%d clauses\n", sum }'
