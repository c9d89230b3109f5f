#!/usr/bin/env bash
# Code that the compiler has to refuse. Each case of must-not-compile/ names a file of the repository and the error that
# is wanted, and then, after an empty line, a function that is added at the end of this file, in a copy. Prints a line
# for each case that is not refused with this error, and nothing if all are.
set -u
cd "$(dirname "$0")/.." || exit 2

if ! command -v rt >/dev/null; then
    echo "rt is not there: what must not compile was not tried" >&2
    exit 0
fi

work=$(mktemp -d)
trap 'rm -rf "$work"' EXIT
tar --create --exclude='crates/*/out' crates.txt HANDLES crates | tar --extract --directory "$work" || exit 2

failed=0
for case in checks/must-not-compile/*.case; do
    file=$(sed -n 's/^file: //p' "$case")
    wanted=$(sed -n 's/^error: //p' "$case")
    function=$(sed -n 's/^fn \([a-z_]*\).*/\1/p' "$case")
    sed '1,/^$/d' "$case" | cat "$file" - >"$work/$file"
    if (cd "$work/${file%/src/*}" && rt check --only "$function") >"$work/said" 2>&1; then
        failed=$((failed + 1))
        echo "$case: it compiles"
    elif ! grep -q "$wanted" "$work/said"; then
        failed=$((failed + 1))
        echo "$case: refused, and not with $wanted:"
        tail -n 5 "$work/said"
    fi
    cp "$file" "$work/$file"
done

[ "$failed" -eq 0 ]
