#!/usr/bin/env bash
# Measures the library, outside the gate: bench/library.sh [FOLDER..], each as library/build.sh has built it, or else
# library/out, which checks/library.sh leaves. It prints the processor and the load of the machine; in processor time,
# verification from C by each archive that this processor runs, beside a plain verifier in C over OpenSSL's SHA-256 and
# beside Bouncy Castle, which bench/library/measure.py has take turns; and of each archive the bytes of code and
# constants, the stack of each call, painted before, and the allocations and the most memory of those that take any.
# OpenSSL has code of its own for each kind of processor, and is measured with the processor's SHA instructions, with
# AVX2, with SSSE3 and with neither, as far as the processor has these. If it has no SHA instructions, or if OpenSSL's
# headers, Java or its library (Debian's libbcprov-java, or JAR) are missing, the script says so. ROUNDS may name how
# many rounds the least time is taken of.
set -euo pipefail
export LC_ALL=C

here=$(cd "$(dirname "${BASH_SOURCE[0]}")" && pwd)
# shellcheck source=../checks/program.sh
. "$here/../checks/program.sh"
need gcc python3
vectors=$here/../checks/library/vectors
jar=${JAR:-/usr/share/java/bcprov.jar}
work=$(mktemp -d)
trap 'rm -rf "$work"' EXIT

# Whether the processor says that it has this.
has() {
    grep -m 1 '^flags' /proc/cpuinfo | grep -qw "$1"
}

archives=()
for folder in "${@:-$here/../library/out}"; do
    folder=$(realpath -m -- "$folder")
    if [ ! -r "$folder/lib/libmb_library.a" ]; then
        echo "$folder/lib/libmb_library.a is not there: library/build.sh builds it" >&2
        exit 1
    fi
    for archive in "$folder"/lib/libmb_library*.a; do
        if grep -q '^flags .*--cpu x86-64-v3' "${archive%.a}.txt" && ! { has avx2 && has bmi2 && has fma; }; then
            echo "This processor does not run code for x86-64-v3, so $archive was not measured"
        else
            archives+=("$archive")
        fi
    done
done

# The archive's name, with its folder's if there are more folders: name_of ARCHIVE COUNT
name_of() {
    local name=${1##*/lib} folder=${1%/lib/*}
    name=${name%.a}
    if [ "$2" -gt 1 ]; then name=$name:${folder##*/}; fi
    echo "$name"
}

compile() {
    gcc -std=c11 -O2 -Wall -Wextra -Wno-deprecated-declarations "$@"
}

programs=()

# Adds a program to those that take turns, which runs these words: add NAME WORD..
add() {
    local path=$work/program-${#programs[@]}
    programs+=("$1" "$path")
    shift
    # shellcheck disable=SC2016
    { echo '#!/bin/sh' && printf 'exec%s "$1"\n' "$(printf " '%s'" "$@")"; } >"$path"
    chmod +x "$path"
}

# Adds the plain verifier over OpenSSL, as far as it may use the processor.
add_openssl() {
    compile -DPLAIN "$here/library/measure.c" "$here/library/plain.c" -lcrypto -o "$work/plain"
    if ! has sse2; then
        add OpenSSL "$work/plain"
        return
    fi
    if has sha_ni; then
        add OpenSSL/SHA "$work/plain"
    else
        echo "This processor has no SHA instructions, so OpenSSL was not measured with them"
    fi
    # the bits are those of the processor's features, as OpenSSL's manual lists them (OPENSSL_ia32cap)
    if has avx2 && has bmi1 && has bmi2; then
        add OpenSSL/AVX2 env 'OPENSSL_ia32cap=:~0x20000000' "$work/plain"
    fi
    if has ssse3; then
        add OpenSSL/SSSE3 env 'OPENSSL_ia32cap=~0x1000000000000000:~0x20000128' "$work/plain"
    fi
    add OpenSSL/x86-64 env 'OPENSSL_ia32cap=~0x1000020000000000:~0x20000128' "$work/plain"
}

# The signatures of the vectors that verify, and one of HSS with the most levels that there can be.
cp -r "$vectors" "$work/vectors"
python3 -B - "$here/../peers" >>"$work/vectors/hss.txt" <<'END'
import sys

sys.path.insert(0, sys.argv[1])
import hss

maker, text = hss.Maker(hss.seed_of(bytes(32)), 8), b"eight levels"
print(1, maker.public().hex(), text.hex(), maker.sign(0, text).hex())
END
grep -h '^1 ' "$work/vectors/lms.txt" "$work/vectors/hss.txt" >"$work/rows"

grep -m 1 '^model name' /proc/cpuinfo || uname -m
uptime | sed 's/.*load average/load average/'
for archive in "${archives[@]}"; do
    compile -I "${archive%/*/*}/include" "$here/library/measure.c" "$archive" -o "$work/library-${#programs[@]}"
    add "$(name_of "$archive" $#)" "$work/library-${#programs[@]}"
done
if echo '#include <openssl/sha.h>' | gcc -fsyntax-only -x c - 2>/dev/null; then
    add_openssl
else
    echo "OpenSSL's headers are not there: skipped the plain verifier (apt-get install libssl-dev)"
fi
if command -v java >/dev/null && command -v javac >/dev/null && [ -r "$jar" ]; then
    javac -d "$work" -cp "$jar" "$here/library/Measure.java"
    add 'Bouncy Castle' java -cp "$jar:$work" Measure
    echo "Bouncy Castle of $(realpath -- "$jar"), on Java $(java -version 2>&1 | sed -n 's/.*version "\(.*\)".*/\1/p')"
else
    echo "Bouncy Castle: skipped, java, javac or $jar is not there (apt-get install libbcprov-java)"
fi
python3 -B "$here/library/measure.py" "$work/rows" "${programs[@]}"

for archive in "${archives[@]}"; do
    include=${archive%/*/*}/include
    echo "$(name_of "$archive" $#), $(grep '^flags' "${archive%.a}.txt"):"
    size "$archive" | awk 'NR == 2 { print "code and constants: " $1 " bytes, data: " $2 + $3 " bytes" }'
    stat -c 'archive: %s bytes' "$archive"
    # what is bound at its first call would take stack there
    compile -I "$include" "$here/library/stack.c" "$archive" -Wl,-z,now -lpthread -o "$work/stack"
    "$work/stack" "$work/vectors"
    compile -I "$include" "$here/../checks/library/failing.c" "$archive" -o "$work/failing"
    "$work/failing" "$vectors/maker" "$vectors/chain"
done
