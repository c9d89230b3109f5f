# How an example begins: read by its script, whose folder is in `here`. Makes a folder, `work`: the one that KEEP_IN
# names, which must not be there yet, or else a temporary one, which is removed when the script ends.

crate=$(cd "$here/../../crates/miniboot" && pwd)
if [ -n "${KEEP_IN-}" ]; then
    mkdir -- "$KEEP_IN" || exit 1
    work=$(cd -- "$KEEP_IN" && pwd)
else
    work=$(mktemp -d)
    trap 'rm -rf "$work"' EXIT
fi
# shellcheck source=../checks/program.sh
. "$here/../../checks/program.sh"
# shellcheck source=steps.sh
. "$here/../steps.sh"

# Puts the path of the program into `program`. Proves and builds the program if none is named:
# find_or_build [PROGRAM]
find_or_build() {
    if [ $# -gt 0 ]; then
        find_program "$1"
        return
    fi
    # shellcheck source=build.sh
    . "$here/../build.sh"
    build
    program=$crate/out/miniboot
}
