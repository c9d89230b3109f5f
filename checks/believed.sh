#!/usr/bin/env bash
# How much one has to read to know what a clause says: the files of specs/ that it reaches by `use`, file by file, the
# types declared in src/ that these name, and the constants of src/ that they name and that no NumberLaws.antt ties to
# its number. Where one does, that file counts in their place. Counts lines without comments, imports and blank ones.
# Nothing of the kit counts. A file counts whole, even if one of its definitions is enough.
#
#     believed.sh             each clause of `top`, and with them the traits `Host` and `Board`
#     believed.sh FILE..      a file of definitions, as crates/mb_model/specs/machine/Machine.antt
#     believed.sh --files ..  lists the files too, each with its lines, and these constants
set -u
cd "$(dirname "$0")/.." || exit 2
exec python3 -B checks/believed.py "$@"
