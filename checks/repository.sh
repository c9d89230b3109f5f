#!/usr/bin/env bash
# What `rt ci` does not look at. Prints a line for each check that fails and then 'N passed, M failed', and nothing if
# none fails.
set -u
cd "$(dirname "$0")/.." || exit 2

passed=0
failed=0

# Counts a check by its name and what it found wrong, which has to be nothing.
check() {
    if [ -z "$2" ]; then
        passed=$((passed + 1))
    else
        failed=$((failed + 1))
        printf '%s: %s\n' "$1" "$2"
    fi
}

misplaced=$(find . -path ./.git -prune -o -path './crates/*/out' -prune -o \( -name '*.rt' -o -name '*.antt' \) -print |
    grep -Ev '^\./crates/[a-z0-9_]+/(src/.*\.rt|(specs|proofs)/.*\.antt)$')
check 'outside the src/, specs/ and proofs/ of a crate' "$misplaced"

handles='has to be the one line: Handles allowed: none.'
[ "$(cat HANDLES 2>/dev/null)" = 'Handles allowed: none.' ] && handles=
check 'HANDLES' "$handles"

wide=$(find crates -path '*/specs/*.antt' -not -path '*/out/*' \
    -exec env LC_ALL=C.UTF-8 grep -nHE '^.{121,}' {} + |
    cut -d: -f1,2)
check 'definitions over 120 columns' "$wide"

# Every other call hashes on the count of its caller.
begun=$(grep -rlE 'Blank::new|HashCount(::<[^>]*>)?::begin\(' crates --include='*.rt' |
    grep -Ev '^crates/[a-z0-9_]+/out/|^crates/mb_top/src/|^crates/[a-z0-9_]+/src/tests(\.rt$|/)')
check 'begins a count of hashes, outside mb_top and tests' "$begun"

if command -v git >/dev/null; then
    check 'tracked, though rt makes it' "$(git ls-files | grep -E '^crates/[^/]+/out/')"
fi

if [ "$failed" -ne 0 ]; then
    echo "$passed passed, $failed failed (the repository's own checks)"
    exit 1
fi
