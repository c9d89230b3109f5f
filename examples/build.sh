# The building of the program, for the examples. The folder of its crate is in `crate`, and a folder to write in is in
# `work`.

# Counts the crate NAME as proved, with all beneath it, by `below` and in `proved`: count_proved NAME
count_proved() {
    local other
    [ -z "${proved[$1]-}" ] || return 0
    proved[$1]=yes
    for other in ${below[$1]-}; do
        # those of the kit have no line of their own
        [ -z "${below[$other]+there}" ] || count_proved "$other"
    done
}

# Tells a crate that is proved, and how many are, with the time since the start: tell_proved NAME. By what tell_progress
# keeps.
tell_proved() {
    count_proved "$1"
    printf '%3d:%02d  %s is proved: %d of %d crates\n' $((spent / 60)) $((spent % 60)) "$1" "${#proved[@]}" "$total"
    told=$spent
}

# Tells from standard input, which is what `rt run` prints, each crate that is proved; and once a minute at most how far
# the next one is. The program is run once it is proved.
tell_progress() {
    local -A below=() proved=()
    local line name='' others total started=$SECONDS spent told=0
    while IFS=: read -r name others; do
        name=${name%%#*}
        [ -z "$name" ] || below[$name]=${others%%#*}
    done <"$crate/../../crates.txt"
    count_proved miniboot
    total=${#proved[@]}
    proved=()
    name=''
    while IFS= read -r line; do
        spent=$((SECONDS - started))
        case $line in
        'crate '*': modules '*)
            name=${line#crate }
            name=${name%%:*}
            ;;
        'logic=proved '*)
            [ -z "$name" ] || tell_proved "$name"
            name=''
            ;;
        'rt: running out/miniboot'*)
            [ -n "${proved[miniboot]-}" ] || tell_proved miniboot
            ;;
        'so far: '*' functions checked'*)
            if [ $((spent - told)) -ge 60 ]; then
                line=${line#so far: }
                printf '%3d:%02d  the next crate: %s\n' $((spent / 60)) $((spent % 60)) "${line%%;*}"
                told=$spent
            fi
            ;;
        'rt: waiting for another rt '*)
            echo "$line"
            ;;
        esac
    done
}

# Proves and builds the program, and runs it once for its version.
build() {
    echo "Proving and building the program, and every crate below it where that is not done yet." >&2
    echo "That takes half an hour to an hour from nothing, and a few seconds where nothing has changed." >&2
    echo "If it stops, start it again: it goes on after the crates that are proved, which crates/*/out keeps." >&2
    if ! (
        set -o pipefail
        cd "$crate" && rt run -- --version 2>&1 | tee "$work/build.log" | tell_progress >&2
    ); then
        cat "$work/build.log" >&2
        echo "the program was not built; started again, this goes on after the crates that are proved" >&2
        return 1
    fi
    # It says that the program is proved, or that nothing has changed since it was.
    if ! grep -q -e '^logic=proved ' -e '^rt: nothing has changed since the last proved build' "$work/build.log" ||
        [ ! -x "$crate/out/miniboot" ]; then
        cat "$work/build.log" >&2
        echo "the program was not proved" >&2
        return 1
    fi
}
