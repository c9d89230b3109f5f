#!/usr/bin/env bash
# Gives this checkout, or CHECKOUT, the libraries that `rt ci` has kept on this machine, so that `rt check` of a crate and
# `checks/wrong_bodies.sh` begin at once, and prove none of the crates below: give.sh [CHECKOUT]. Only a crate whose files,
# and those of all crates below it, are the files that were proved is given its library; `rt check` proves the others.
# Prints a line for each crate. It reads what the kit keeps as kit 13f does, and other kits may keep it otherwise.
set -u
top=$(realpath -- "${1-$(dirname "$0")/..}")
exec python3 -B "$(dirname "$(realpath -- "$0")")/give.py" "$top"
