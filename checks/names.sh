#!/usr/bin/env bash
# One name for one thing: no two files of definitions, of whatever crates, may define the same name, be it a function, a
# record, a data type or a constructor; the fields of records do not count. And a public call that computes a definition
# has its name, or stands in checks/calls.txt with the reason. Prints a line for each name that two define, with the
# files, and for each call that is not so, and nothing if there is none.
set -u
cd "$(dirname "$0")/.." || exit 2

python3 -B - <<'PYTHON'
import pathlib
import sys

sys.path.insert(0, "checks")
from definitions import names_of

files = {}
for path in sorted(pathlib.Path("crates").glob("*/specs/**/*.antt")):
    for name in names_of(path.read_text()):
        files.setdefault(name, []).append(f"{path.parts[1]}/{path.stem}")
doubles = {name: where for name, where in files.items() if len(where) > 1}
for name in sorted(doubles):
    print(f"{name}: {', '.join(doubles[name])}")
sys.exit(1 if doubles else 0)
PYTHON
doubled=$?
python3 -B checks/calls.py && [ "$doubled" -eq 0 ]
