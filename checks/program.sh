# Read by the scripts of checks/, bench/ and examples/ that try the built program, or a program of their own.

# need TOOL..: ends the script if one of these is not on the PATH.
need() {
    local tool
    for tool in "$@"; do
        if ! command -v "$tool" >/dev/null; then
            echo "$tool is needed, and is not on the PATH" >&2
            exit 1
        fi
    done
}

# find_program [PROGRAM]: `program` is then the path of this program, or of the built one. Ends the script if it is not
# there.
find_program() {
    program=$(realpath -m -- "${1:-$(dirname "${BASH_SOURCE[0]}")/../crates/miniboot/out/miniboot}")
    if [ ! -x "$program" ]; then
        echo "$program is not there: examples/first-run/run.sh builds the program" >&2
        exit 1
    fi
}

# take_words USAGE [-j N] [PROGRAM]: `processes` is then N, or 1, and `program` as find_program finds it. Ends the
# script with its usage if the words are others.
take_words() {
    local usage=$1
    shift
    processes=1
    if [ "${1-}" = -j ]; then
        processes=${2-}
        shift 2 || true
    fi
    if [ $# -gt 1 ] || [[ "${1-}" == -* ]] || ! [[ "$processes" =~ ^[1-9][0-9]?$ ]]; then
        echo "$usage" >&2
        exit 2
    fi
    find_program "$@"
}
