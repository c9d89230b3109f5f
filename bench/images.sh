#!/usr/bin/env bash
# Reads images outside the gate. A program over `stand_for` reports the state that each image of peers/device.py means,
# with each kind of pending work, and with entries of version 1; this is compared with what peers/device.py says. Then
# it measures a new device and one with a full log, and says what spoilt images come to.
#
#     bench/images.sh           compares and measures
#     bench/images.sh spoil     also flips each bit of 600 bytes of each record of a new device's image, and cuts there
set -euo pipefail
export LC_ALL=C
cd "$(dirname "${BASH_SOURCE[0]}")/.."
. bench/program.sh
program image mb_files mb_host mb_image mb_lms mb_model sha2 hex

failed=0
for kind in new 'pending entry' 'pending succession' 'pending renewal' 'pending last' 'pending add' 'pending short' full \
    'old new' 'old pending entry' 'old pending succession' 'old pending renewal' 'old full'; do
    # shellcheck disable=SC2086 # the words of a kind
    wanted=$(python3 peers/device.py $kind "$work/image")
    found=$("$program" tell "$work/image")
    if [ "$found" = "$wanted" ]; then
        echo "$kind: agrees"
    else
        echo "$kind: $found, and not $wanted"
        failed=1
    fi
done

for row in 'new 20' 'full 2'; do
    read -r kind count <<<"$row"
    python3 peers/device.py "$kind" "$work/image" >/dev/null
    printf '%-6s %s, at most %s\n' "$kind" "$(time_of "$count" "$program" again "$work/image" "$count")" \
        "$(memory_of "$program" again "$work/image" 1)"
done

if [ "${1:-}" = spoil ]; then
    python3 peers/device.py new "$work/image" >/dev/null
    cp "$work/image" "$work/before"
    for row in 'header 0' 'code 8192' 'log 262144' 'life 1048576' 'root 1052672' 'region-2 1060864' 'region-3 1069056'; do
        read -r name at <<<"$row"
        echo "$name: $("$program" spoil "$work/image" "$at" 600 | cut -d' ' -f2- | sed 's/^[0-7] /bit /' | sort | uniq -c | tr -s ' \n' ' ')"
    done
    cmp "$work/image" "$work/before" || failed=1
fi
exit "$failed"
