#!/usr/bin/env bash
# Tries the program on files and an output that fail, on files that are locked or left behind, and with a trace, and
# compares its lines and statuses and what it tells on standard error: run.sh [PROGRAM]. With no PROGRAM it proves and
# builds the program first. Works from any current folder; beside that build it writes in a temporary folder alone, which it
# removes, or in the new folder that KEEP_IN names. It needs Linux, for /dev/full and flock.
set -euo pipefail
export LC_ALL=C

here=$(cd "$(dirname "${BASH_SOURCE[0]}")" && pwd)
# shellcheck source=../begin.sh
. "$here/../begin.sh"
need flock head stat tr
find_or_build "$@"
cd "$work"

passed=0
failed=0

# Counts a comparison by its name.
compare() {
    local name=$1 found=$2 wanted=$3
    if [ "$found" = "$wanted" ]; then
        passed=$((passed + 1))
    else
        failed=$((failed + 1))
        printf '%s: found "%s", wanted "%s"\n' "$name" "$found" "$wanted"
    fi
}

# Runs the program with these words, and compares its status and what it printed. A read or a write that failed, and
# nothing else, is told on standard error, on one line.
try() {
    local name=$1 status=$2 line=$3 found=0 lines=0
    shift 3
    "${before[@]}" "$program" "$@" >printed 2>told || found=$?
    compare "$name, status" "$found" "$status"
    compare "$name, line" "$(cat printed)" "$line"
    case $status in 4 | 5) lines=1 ;; esac
    compare "$name, lines told" "$(wc -l <told)" "$lines"
}

# Compares what was told last.
compare_told() {
    compare "$1, what is told" "$(cat told)" "miniboot: $2"
}

# what runs the program
before=()

# Whether the key of 32 bytes of zeros and its public key are there. The public key's hash is the one that was printed.
compare_key() {
    local name=$1
    compare "$name, key" "$(cmp key first-key && echo same)" same
    compare "$name, public" "$(cmp public first-public && echo same)" same
    rm -f key public
}

mkdir folder
head -c 31 /dev/zero >short
head -c 32 /dev/zero >noise
head -c 4194304 /dev/zero >longest
head -c 4194305 /dev/zero >too-long

# The key that the noise gives. The hash is compared with another program's of the public key's file.
status=0
"$program" keygen noise first-key first-public >printed || status=$?
compare 'a key, status' "$status" 0
owner="owner $(sha256sum <first-public | cut -d ' ' -f 1)"
compare 'a key, line' "$(cat printed)" "$owner"

# Inputs. No output is made if an input is refused.
try 'the longest noise' 0 "$owner" keygen longest key public
compare_key 'the longest noise'
try 'noise that is too long' 3 'input noise too long' keygen too-long key public
try 'noise that is too short' 3 'input noise length' keygen short key public
try 'no file of the name' 4 'read failed noise' keygen none key public
compare_told 'no file of the name' 'none: No such file or directory'
try 'a folder as the noise' 4 'read failed noise' keygen folder key public
compare_told 'a folder as the noise' 'folder: Is a directory'
compare 'no output' "$(ls -d key public 2>/dev/null || true)" ''

# Outputs. Those before the one that fails are written.
try 'a full device as the key' 5 'write failed key' keygen noise /dev/full public
compare_told 'a full device as the key' '/dev/full: No space left on device'
try 'a folder as the key' 5 'write failed key' keygen noise folder public
try 'no folder for the key' 5 'write failed key' keygen noise none/key public
compare 'no public key' "$(ls -d public 2>/dev/null || true)" ''
try 'a full device as the public key' 5 'write failed public' keygen noise key /dev/full
compare 'the key before it' "$(cmp key first-key && echo same)" same
rm -f key

# Signing. The key is written with its index used before the order, and stays so if the order cannot be written.
next_of() {
    od -An -v -tx1 -j 52 "$1" | tr -d ' \n'
}
printf 'order surrender 2\n' >surrender
printf 'order load 1\nversion 1\ntrust never\ncode -\n' >load
printf 'order surrender 2\norder surrender 2\n' >two-orders
head -c 55 first-key >short-key
{ head -c 52 first-key; printf '\0\0\0\40'; } >spent-key
cp first-key key
try 'a short key' 3 'input key at 52' sign short-key surrender order
try 'no key of the name' 4 'read failed key' sign none surrender order
try 'no draft of the name' 4 'read failed draft' sign key none order
try 'a draft that is too long' 3 'input draft too long' sign key too-long order
try 'two orders in a draft' 3 'input draft line 2' sign key two-orders order
try 'a spent key' 7 'spent' sign spent-key surrender order
compare 'no order, and the key as before' "$(ls -d order 2>/dev/null || true)$(next_of key)" 00000000
try 'an order' 0 'index 0' sign key surrender order
compare 'one index is used' "$(next_of key)" 00000001
try 'a full device as the order' 5 'write failed out' sign key load /dev/full
compare 'another index is used' "$(next_of key)" 00000002
try 'a folder as the order' 5 'write failed out' sign key load folder
compare 'and another' "$(next_of key)" 00000003
try 'a load' 0 'index 3' sign key load load-order

# Countersigning.
try 'a draft as the order' 3 'input order line 1' countersign key 2 load both
cat load-order load-order >two-lines
try 'two orders' 3 'input order line 2' countersign key 2 two-lines both
try 'no order of the name' 4 'read failed order' countersign key 2 none both
try 'a layer that is none' 2 'words' countersign key 1 load-order both
try 'an order that takes none' 7 'not countersignable' countersign key 2 order both
try 'a spent key beside' 7 'spent' countersign spent-key 2 load-order both
compare 'no order, and the key as it was' "$(ls -d both 2>/dev/null || true)$(next_of key)" 00000004
try 'a countersignature' 0 'index 4' countersign key 2 load-order both
try 'the same layer again' 7 'not countersignable' countersign key 2 both again
try 'over the order itself' 0 'index 5' countersign key 3 both both
compare 'the last index' "$(next_of key)" 00000006
rm -f key

# A key that another command has read, or is replacing, and one that is the output too.
cp first-key key
before=(flock -s key)
try 'a key that is being read' 5 'write failed key' sign key surrender order
compare_told 'a key that is being read' 'key: in use by another command'
before=(flock key)
try 'a key that is being replaced' 4 'read failed key' sign key surrender order
compare_told 'a key that is being replaced' 'key: in use by another command'
before=()
compare 'no index is used' "$(next_of key)" 00000000
try 'the key as the order' 5 'write failed out' sign key surrender key
compare_told 'the key as the order' 'key: moved or replaced since it was read'
compare 'one index is lost, and not the key' "$(next_of key)" 00000001

# What a killed command has left is removed. A file keeps its mode, and a new one is its owner's alone.
echo half >key.miniboot-new
chmod 640 key
rm -f order
umask 022
try 'a key with a new file left beside it' 0 'index 1' sign key surrender order
compare 'no new file left' "$(ls -d ./*.miniboot-new 2>/dev/null || true)" ''
compare 'the modes' "$(stat -c %a key) $(stat -c %a order)" '640 600'
ln key second-name
try 'a key with two names' 5 'write failed key' sign key surrender order
compare 'no index is used of either' "$(next_of key)$(next_of second-name)" 0000000200000002
rm -f key second-name

# Standard output that takes nothing, and one that is closed. The outputs are written before the line.
status=0
"$program" keygen noise key public >/dev/full 2>told || status=$?
compare 'a full standard output, status' "$status" 5
compare_told 'a full standard output' 'standard output: No space left on device'
compare_key 'a full standard output'
status=0
"$program" keygen noise key public >&- 2>told || status=$?
compare 'a closed standard output, status' "$status" 5
compare_told 'a closed standard output' 'standard output: Bad file descriptor'
compare_key 'a closed standard output'
status=0
"$program" --version >/dev/full 2>told || status=$?
compare 'the version to a full device, status' "$status" 5
cp first-key key
rm -f order
status=0
"$program" sign key surrender order >/dev/full 2>told || status=$?
compare 'an index to a full device, status' "$status" 5
compare 'the key and the order before it' "$(next_of key)$(wc -l <order)" 000000011

# A trace of a code of one step. It is told if the variable has a value, and all else is the same, also if nothing can
# be told.
printf '\0' >halt
traced() {
    compare "$1, status" "$status" 0
    compare "$1, line" "$(cat printed)" 'halted 1 -'
    compare "$1, what is told" "$(cat told)" "$2"
}
status=0
"$program" appcode halt noise 10 >printed 2>told || status=$?
traced 'no trace' ''
MINIBOOT_TRACE='' "$program" appcode halt noise 10 >printed 2>told || status=$?
traced 'an empty variable' ''
MINIBOOT_TRACE=1 "$program" appcode halt noise 10 >printed 2>told || status=$?
traced 'a trace' 'trace 1 at 0: halt  stack -'
MINIBOOT_TRACE="$(head -c 9999 /dev/zero | tr '\0' x)" "$program" appcode halt noise 10 >printed 2>told || status=$?
traced 'a long variable' 'trace 1 at 0: halt  stack -'
: >told
MINIBOOT_TRACE=1 "$program" appcode halt noise 10 >printed 2>/dev/full || status=$?
traced 'a trace to a full device' ''
MINIBOOT_TRACE=1 "$program" appcode halt noise 10 >printed 2>&- || status=$?
traced 'a trace to a closed standard error' ''
before=(env MINIBOOT_TRACE=1)
try 'a command that runs no code' 0 "$owner" keygen noise key public
compare_key 'a command that runs no code'
before=()

echo "$passed passed, $failed failed"
[ "$failed" -eq 0 ]
