# The steps of the examples: read by their scripts, which are in a folder of their own then. `program` is the program.

# The bytes that are given in hexadecimal.
bytes() {
    printf '%b' "$(sed 's/../\\x&/g' <<<"$1")"
}

# The bytes of standard input in hexadecimal.
hex() {
    od -An -v -tx1 | tr -d ' \n'
}

# Shows the SHA-256 hash of a file, by a name.
hash_of() {
    echo "  $1  SHA-256 $(sha256sum <"$2" | cut -d ' ' -f 1)"
}

# Shows the SHA-256 hash of the bytes of an order.
order_hash() {
    bytes "$(cut -d ' ' -f 2 "$1")" >order.bytes
    hash_of "$1" order.bytes
}

# Runs the program with these words, which have to be carried out; what it prints is in `printed`.
miniboot() {
    "$program" "$@" >printed || {
        status=$?
        cat printed
        echo "miniboot $1 ended with status $status" >&2
        return 1
    }
}

# Shows these words, what the program prints, and its status where it is not 0.
ask() {
    local status=0
    echo "  \$ miniboot $*"
    "$program" "$@" >printed || status=$?
    sed 's/^/    /' printed
    [ "$status" -eq 0 ] || echo "    status $status"
}

# Runs the program with these words, with a trace in the file `trace`; shows the words, what it prints, and its status
# where it is not 0.
trace() {
    local status=0
    echo "  \$ MINIBOOT_TRACE=1 miniboot $* 2>trace"
    MINIBOOT_TRACE=1 "$program" "$@" >printed 2>trace || status=$?
    sed 's/^/    /' printed
    [ "$status" -eq 0 ] || echo "    status $status"
}

# Shows the lines of a file.
lines_of() {
    sed 's/^/    /' "$1"
}

# Writes the draft of an order, and shows its lines: draft NAME LINE..
draft() {
    local name=$1
    shift
    printf '%s\n' "$@" >"$name.draft"
    echo "  $name.draft: $(paste -s -d ';' "$name.draft" | sed 's/;/; /g')"
}

# Writes the script of these events. An order is given by the name of its file.
write_script() {
    local event
    for event; do
        if [ -f "$event" ]; then cat "$event"; else echo "$event"; fi
    done >script
}

# Shows each of these events beside the line of `printed` in its place.
beside() {
    printf '%s\n' "$@" | paste -d '|' - <(head -n $# printed) |
        sed -E ':a; s/^([^|]{1,20})\|/\1 |/; ta; s/^([^|]*)\|/    \1  /'
}

# Gives a device these events, and shows each beside its reply. An order is given by the name of its file.
serve() {
    local image=$1
    shift
    write_script "$@"
    miniboot run "$image" script noise
    echo "  \$ miniboot run $image script noise"
    beside "$@"
}

# Rehearses these events on a device, and shows each beside its reply, the line of the first that is not obeyed, and the
# status where it is not 0.
rehearse() {
    local image=$1 status=0
    shift
    write_script "$@"
    "$program" rehearse "$image" script noise >printed || status=$?
    echo "  \$ miniboot rehearse $image script noise"
    beside "$@"
    tail -n "+$(($# + 1))" printed | sed 's/^/    /'
    [ "$status" -eq 0 ] || echo "    status $status"
}

# The statement that was printed last, as a file for `attach`.
keep_statement() {
    sed -n 's/^signed [0-9]* [0-9]* //p' printed >"$1"
    hash_of "$1" "$1"
}

# Shows what was told, with long words cut, and compares the whole with expected.txt of an example's folder.
compare_told() {
    sed -E 's/([0-9a-f]{8})[0-9a-f]{8,}/\1../g' told
    if ! cmp -s told "$1/expected.txt"; then
        echo "this is not what examples/${1##*/}/expected.txt says:" >&2
        diff "$1/expected.txt" told >&2 || true
        return 1
    fi
    echo "As expected."
}
