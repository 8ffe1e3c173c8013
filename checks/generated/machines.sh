#!/bin/bash
# machines.sh [TREE]: the programs of generated/ where they are linked otherwise than by this machine's own
# C library: statically, with musl, on aarch64 (by qemu). Each makes the stored runs of `hid` and has the
# statuses of `hidreport`. And what this machine's own link wants of GNU's C library: nothing past version
# 2.28 but what starts a program, which is that of the machine that links. TREE is a tree whose generated/ is
# fresh; else this one. What can't be tried for want of a compiler is said; an argument `--spoil` sees that
# a program that goes otherwise is noticed.
set -euo pipefail
export LC_ALL=C

top=$(cd "$(dirname "$0")/../.." && pwd)
is_spoilt=
[ "${1:-}" != --spoil ] || { is_spoilt=yes; shift; }
tree=$(cd "${1:-$top}" && pwd)
scratch=$(mktemp -d)
trap 'rm -rf "$scratch"' EXIT
tried=0

wrong() {
    echo "machines: $1" >&2
    exit 1
}

# The folder of a way to link them, by its name: make takes no space there.
folder_of() {
    echo "$scratch/${1//[ ,]/_}"
}

# Links the programs: NAME COMPILER FLAGS.
link() {
    local folder
    folder=$(folder_of "$1")
    make -s -C "$tree" BUILD="$folder" CC="$2" LDFLAGS="$3" "$folder/hid" "$folder/hidreport" \
        > "$scratch/said" 2>&1 || {
        tail -n 20 "$scratch/said" >&2
        wrong "the programs aren't linked: $1"
    }
}

# Asks them; behind the name what runs them, where this machine doesn't.
ask() {
    local name=$1 program folder
    folder=$(folder_of "$1")
    shift
    if [ $# -gt 0 ]; then
        mkdir "$folder.run"
        for program in hid hidreport; do
            printf '#!/bin/sh\nexec %s -0 %s %s "$@"\n' "$*" "$program" "$folder/$program" \
                > "$folder.run/$program"
            chmod +x "$folder.run/$program"
        done
        folder=$folder.run
    fi
    [ -z "$is_spoilt" ] || printf '#!/bin/sh\n"%s" "$@" | sed s/Keyboard/keyboard/\n' "$folder/hid" \
        > "$scratch/hid"
    [ -z "$is_spoilt" ] || { chmod +x "$scratch/hid" && folder=$scratch; }
    python3 "$top/checks/hid/runs.py" "$folder/hid" > "$scratch/said" 2>&1 || {
        [ -z "$is_spoilt" ] || { echo 'machines: a program that goes otherwise is noticed' && exit 0; }
        tail -n 20 "$scratch/said" >&2
        wrong "hid goes otherwise: $name"
    }
    [ -z "$is_spoilt" ] || wrong 'a program that goes otherwise is not noticed'
    sh "$top/checks/hidreport/statuses.sh" "$folder/hidreport" > "$scratch/said" 2>&1 || {
        tail -n 20 "$scratch/said" >&2
        wrong "hidreport goes otherwise: $name"
    }
    tried=$((tried + 1))
    echo "machines: linked $name, the programs make their stored runs"
}

# The versions of GNU's C library that a program wants, but for what starts it.
wanted_versions() {
    nm -D --undefined-only "$1" | grep -v ' __libc_start_main@' | sed -n 's/.*@GLIBC_\([0-9.]*\)$/\1/p' | sort -uV
}

# Its own link.
ask_versions() {
    local program newest
    link here cc ''
    for program in hid hidreport; do
        newest=$(wanted_versions "$scratch/here/$program" | tail -n 1)
        [ -n "$newest" ] || wrong "$program wants no version of the C library"
        [ "$(printf '%s\n2.28\n' "$newest" | sort -V | tail -n 1)" = 2.28 ] ||
            wrong "$program wants version $newest of the C library"
        echo "machines: $program wants no version of GNU's C library past $newest"
    done
}

for program in hid hidreport; do
    # What is stale says so, and other scripts fail for it where it is a fault.
    sh "$tree/tools/program.sh" fresh "$program" || exit 0
done
if [ "$(uname -m)" = x86_64 ]; then
    ask_versions
    link static cc -static
    ask static
    if command -v musl-gcc > /dev/null; then
        link 'with musl' musl-gcc ''
        ask 'with musl'
        link 'with musl, statically' musl-gcc -static
        ask 'with musl, statically'
    else
        echo 'machines: no `musl-gcc` on the path, so musl is not tried'
    fi
fi
if command -v qemu-aarch64 > /dev/null && command -v aarch64-linux-gnu-gcc > /dev/null; then
    link 'for aarch64' aarch64-linux-gnu-gcc -static
    ask 'for aarch64' qemu-aarch64
else
    echo 'machines: no `aarch64-linux-gnu-gcc` or no `qemu-aarch64`, so aarch64 is not tried'
fi
echo "machines: $tried ways to link the programs are tried"
[ "$tried" -gt 0 ]
