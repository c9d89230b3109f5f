#!/usr/bin/env bash
# Measures, outside the gate, judging an order that passes beside verifying its signature alone, and reading a long
# order that comes byte by byte. The first order establishes an owner of layer 2, and is signed by peers/officer.py. The
# long one loads as much code as an order can; its signature is as long as one by a key of type 1, and nobody verifies
# it.
set -euo pipefail
export LC_ALL=C
cd "$(dirname "${BASH_SOURCE[0]}")/.."
. bench/program.sh
program orders mb_files mb_host mb_lms mb_signer mb_model mb_command mb_log mb_orders

PYTHONPATH=peers python3 - "$work" <<'PYTHON'
import pathlib
import sys

from officer import Officer, body, order, signed_text

work = pathlib.Path(sys.argv[1])
one, two = Officer(b"1" * 32), Officer(b"2" * 32)
text = body(f"order establish 2\ntarget length 1\nowner {two.public().hex()}\ntrust always\n")
(work / "order").write_bytes(order(text, one.sign(signed_text(text))))
(work / "owner").write_bytes(one.public())
load = body(f"order load 3\ntarget length 1\nversion 1\ntrust always\ncode {bytes(32_768).hex()}\n")
(work / "long").write_bytes(order(load, bytes(8_688)))
PYTHON

for what in judge verify; do
    echo "$what: $(time_of 2000 "$program" "$what" "$work/order" "$work/owner" 2000)"
done
echo "feed: $(time_of 20 "$program" feed "$work/long" "$work/owner" 20), of $(wc -c <"$work/long") bytes"
