#!/bin/bash
# portable.sh: generated/portable/hidreport.c, the library for C as one file for any machine: on this one, on
# two others by qemu, of 32 and of 64 bits, and on Windows by wine, a C program gets the wanted answers to
# the questions of c/cases.txt, and on this one to hostile descriptors; a Rust program on this one. A file
# that answers otherwise is tried each time, and has to be noticed. What can't be tried for want of a
# compiler is said.
set -euo pipefail
export LC_ALL=C

top=$(cd "$(dirname "$0")/../.." && pwd)
scratch=$(mktemp -d)
trap 'rm -rf "$scratch"' EXIT
stale=$(sh "$top/tools/program.sh" fresh library) || {
    echo "$stale"
    exit 0
}
mkdir "$scratch/tree"
cd "$top"
cp -r Makefile generated include c rust tools crates.txt "$scratch/tree/"
cp -r --parents crates/*/src "$scratch/tree/"
rm -rf "$scratch/tree/rust/target"
tried=0

wrong() {
    echo "portable: $1" >&2
    exit 1
}

# Asks a C program: NAME COMPILER RUN ..
ask() {
    local name=$1 compiler=$2 asker=$scratch/$2/ask_static
    shift 2
    [ "${compiler#*mingw}" = "$compiler" ] || asker=$asker.exe
    command -v "$compiler" > /dev/null && { [ $# -eq 0 ] || command -v "$1" > /dev/null; } || {
        echo "portable: no \`$compiler\` or no \`${1-}\`, so nothing is asked $name"
        return 0
    }
    make -s -C "$scratch/tree" PORTABLE=yes CFLAGS=-O1 BUILD="$scratch/$compiler" CC="$compiler" \
        LDFLAGS=-static "$asker" > "$scratch/said" 2>&1 || {
        tail -n 20 "$scratch/said" >&2
        wrong "the program isn't built $name"
    }
    grep -v '^  ' c/cases.txt | "$@" "$asker" 2> /dev/null | tr -d '\r' \
        > "$scratch/answers" || wrong "the program ends otherwise $name"
    diff "$scratch/tree/c/cases.txt" "$scratch/answers" > "$scratch/differ" || {
        head -n 20 "$scratch/differ" >&2
        wrong "the answers are others $name"
    }
    tried=$((tried + 1))
    echo "portable: $(grep -c '^[a-z]' c/cases.txt) questions are answered $name"
}

ask 'on this machine' cc
ask 'on 32 bits (arm, by qemu)' arm-linux-gnueabihf-gcc qemu-arm
ask 'on riscv64 (by qemu)' riscv64-linux-gnu-gcc qemu-riscv64
export WINEDEBUG=-all WINEPREFIX="$scratch/wine"
ask 'on Windows (by wine)' x86_64-w64-mingw32-gcc wine
[ "$tried" -gt 0 ] || exit 0

# (That memory is refused here and there is asked of the other library alone: this one's is its own.)
cc -std=c11 -Wall -Wextra -Werror -O2 -DPORTABLE -Iinclude -o "$scratch/hostile" c/hostile.c \
    "$scratch/cc/libhidreport.a"
(ulimit -v 96000 && "$scratch/hostile") | sed 's/^hostile/portable: hostile/'
if cargo --version > /dev/null 2>&1; then
    (cd "$scratch/tree/rust" && HIDREPORT_PORTABLE=1 cargo run --offline --quiet --example cases) \
        < <(grep -v '^  ' c/cases.txt) > "$scratch/answers"
    cmp "$scratch/tree/c/cases.txt" "$scratch/answers" || wrong 'a Rust program gets other answers'
    echo 'portable: so they are for a Rust program'
fi

# A mouse that is called otherwise: its name stands in the file as numbers.
sed -i 's/0x4d, 0x6f, 0x75, 0x73, 0x65/0x4d, 0x61, 0x75, 0x73, 0x65/; s/^  X$/  Z/' \
    "$scratch/tree/generated/portable/hidreport.c" "$scratch/tree/c/cases.txt"
! (ask 'spoilt' cc) > /dev/null 2>&1 || wrong 'a spoilt file is not noticed'
