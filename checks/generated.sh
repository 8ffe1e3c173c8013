#!/bin/bash
# generated/ is the library for C as assembly, and the programs as packed objects, for users who have
# no toolchain (docs/C.md).
#   generated.sh [TREE]          checks it; the proofs are those that TREE keeps, or this tree
#   generated.sh --write [TREE]  makes it anew; without TREE it proves what isn't proved
# By the toolchain that generated/SOURCES notes each file is, byte for byte, what the proofs build:
# a minute where the checks of hidreport_c are kept too (in out/, or in the folder HIDREPORT_KEPT),
# else three. By any other, and by none, answers decide: with no `rt` on the path the archive that
# `make` builds answers c/cases.txt and hostile descriptors. What was made from other sources is
# stale: one line says so, and it is a fault only where the version is another. A spoilt byte and a
# name too many are tried each time, and have to be refused. Of the programs what the kit links of
# the packed objects is compared with those that lie in out/ once they are proved; they make their
# stored runs. What they are for aarch64 is built anew (generated/object.sh), in two minutes.
set -eu
export LC_ALL=C

top=$(cd "$(dirname "$0")/.." && pwd)
cd "$top"
processors=(x86_64 aarch64)
programs=(hid hidreport)
files=(heap.c programs.c wasm.c wasm/hidreport.wasm wasm/hid.wasm.gz portable/hidreport.c "${processors[@]/%/-linux/hidreport.s}")
for processor in "${processors[@]}"; do
    for program in "${programs[@]}"; do
        files+=("$processor-linux/$program.o.gz")
    done
done
scratch=$(mktemp -d)
trap 'rm -rf "$scratch"' EXIT

say() {
    echo "generated: $1"
}

wrong() {
    say "$1" >&2
    exit 1
}

# A line of generated/SOURCES.
noted() {
    sed -n "s/^$1: //p" generated/SOURCES
}

# A sum over the code of a part below a folder. (Definitions and proofs make no code.)
sum_of() {
    sh "$1/tools/program.sh" code "$2"
}

version_of_header() {
    sed -n 's/^#define HIDREPORT_VERSION_[A-Z]* \([0-9][0-9]*\)$/\1/p' include/hidreport.h |
        paste -sd . | sed 's/\.\([0-9]*\)$/-\1/'
}

# Which parts are made from these sources: the library and the programs. Where one isn't that is said, and
# where the version is another besides it is a fault.
find_fresh() {
    local part status
    fresh=()
    for part in library "${programs[@]}"; do
        status=0
        sh tools/program.sh fresh "$part" || status=$?
        case $status in
            0) fresh+=("$part") ;;
            1) ;;
            *) exit 1 ;;
        esac
    done
}

# The crate of a program, and what lies there once it is proved.
crate_of() {
    case $1 in
        hid) echo hid ;;
        *) echo "$1_main" ;;
    esac
}

program_of() {
    echo "$1/crates/$(crate_of "$2")/out/$(crate_of "$2")"
}

# Is the program that lies in a tree proved of the sources there?
is_proved() {
    [ "$(sh "$1/tools/program.sh" sources "$2")" = "$(cat "$1/build/proved/$2.sources" 2> /dev/null)" ] &&
        cmp -s "$1/build/proved/$2" "$(program_of "$1" "$2")"
}

# The program that rt links of an object.
link() {
    local kit
    kit=$(dirname "$(rt doc)")
    "$kit/bin/rattle-link" --target x86_64-unknown-linux-gnu --toolchain "$kit/toolchain" \
        -o "$2" "$1" "$kit/c/libos_c.a" "$kit/c/liblibc_c.a"
}

# The files that the proofs of a tree give, into the scratch folder.
build() {
    local processor kept=$1/crates/hidreport_c/out/incremental
    [ -d "$1/crates/hidreport/out/rlib" ] ||
        wrong "no proofs in $1/crates; \`rt lib\` in crates/hidreport_c makes them"
    if [ -z "${HIDREPORT_KEPT:-}" ]; then
        HIDREPORT_KEPT=$scratch/kept
        [ ! -d "$kept" ] || cp -a "$kept" "$HIDREPORT_KEPT"
    fi
    export HIDREPORT_PROVED=$1 HIDREPORT_KEPT
    for processor in "${processors[@]}"; do
        mkdir -p "$scratch/built/$processor-linux"
        bash checks/c/library.sh "$scratch/archive.a" "$processor-unknown-linux-gnu" \
            "$scratch/built/$processor-linux/hidreport.s" > "$scratch/said" 2>&1 || {
            tail -n 20 "$scratch/said" >&2
            wrong "nothing was built for $processor"
        }
        mv "$scratch/built/$processor-linux/hidreport.s.ll" "$scratch/$processor.ll"
    done
    command -v wasm-opt > /dev/null || return 0
    mkdir -p "$scratch/built/wasm"
    bash checks/generated/wasm.sh --spoil "$scratch/aarch64.ll"
    bash checks/generated/wasm.sh "$scratch/aarch64.ll" "$scratch/built/wasm/hidreport.wasm" ||
        wrong 'no WebAssembly was built'
    command -v wasm2c > /dev/null || return 0
    mkdir -p "$scratch/built/portable"
    bash checks/generated/portable.sh "$scratch/built/wasm/hidreport.wasm" \
        "$scratch/built/portable/hidreport.c" || wrong 'no portable C was built'
}

# The program whose version decides the bytes of WebAssembly, and that of portable C.
lowered_by() {
    wasm-opt --version 2> /dev/null || echo none
}

written_by() {
    echo "wasm2c $(wasm2c --version 2> /dev/null || echo none)"
}

# The object of a program for a processor, into the scratch folder, and what it was compiled of.
build_object() {
    bash checks/generated/object.sh "$1" "$2" "$3-unknown-linux-gnu" "$scratch/$2.$3.o" \
        "$scratch/$2.$3" > "$scratch/said" 2>&1 || {
        tail -n 20 "$scratch/said" >&2
        wrong "no object of $2 was built for $3"
    }
}

# `hid` as WebAssembly, packed, of what its object for aarch64 was compiled of, into the scratch folder.
build_hid_module() {
    bash checks/generated/wasm.sh --program "$scratch/hid.aarch64.ll" "$scratch/hid.wasm" ||
        wrong 'no WebAssembly of hid was built'
    gzip -9 -n -c "$scratch/hid.wasm" > "$scratch/hid.wasm.gz"
}

write() {
    local program processor
    . checks/common/needs.sh
    need_rt generated
    [ "$(lowered_by)" != none ] || wrong 'no `wasm-opt` on the path (package binaryen)'
    command -v wasm2c > /dev/null || wrong 'no `wasm2c` on the path (package wabt)'
    if [ "$1" = "$top" ]; then
        (cd crates/hidreport_c && rt lib) > "$scratch/said" 2>&1 || {
            tail -n 20 "$scratch/said" >&2
            wrong 'the library is not proved'
        }
        HIDREPORT_KEPT="$top/crates/hidreport_c/out/incremental"
        for program in "${programs[@]}"; do
            make -s "prove-$program"
        done
    fi
    [ "$(sum_of "$1" library)" = "$(sum_of "$top" library)" ] || wrong "$1 has other sources"
    for program in "${programs[@]}"; do
        [ "$(sum_of "$1" "$program")" = "$(sum_of "$top" "$program")" ] || wrong "$1 has other sources"
        is_proved "$1" "$program" || wrong "$program isn't proved in $1"
    done
    build "$1"
    for program in "${programs[@]}"; do
        for processor in "${processors[@]}"; do
            build_object "$1" "$program" "$processor"
            gzip -9 -n -c "$scratch/$program.$processor.o" \
                > "$scratch/built/$processor-linux/$program.o.gz"
        done
    done
    build_hid_module
    cp "$scratch/hid.wasm.gz" "$scratch/built/wasm/"
    cp -r "$scratch/built/." generated/
    {
        echo 'From what, and by what, checks/generated.sh --write made this folder; then its sums.'
        echo "version: $(version_of_header)"
        echo "toolchain: $(rt version)"
        echo "lowered by: $(lowered_by)"
        echo "written by: $(written_by)"
        echo "sources: $(sum_of "$top" library)"
        for program in "${programs[@]}"; do
            echo "code of $program: $(sum_of "$top" "$program")"
        done
        (cd generated && sha256sum "${files[@]}")
    } > generated/SOURCES
    say "made from the sources of $(noted version)"
}

# Has each file in a folder the sum that is noted?
has_its_sums() {
    (cd "$1" && grep -E '^[0-9a-f]{64}  ' "$top/generated/SOURCES" | sha256sum --check --quiet) \
        > /dev/null 2>&1
}

# Is it what the proofs build?
compare() {
    local file
    [ "$(sum_of "$1" library)" = "$(noted sources)" ] || wrong "$1 has other sources"
    build "$1"
    for file in "${processors[@]/%/-linux/hidreport.s}"; do
        cmp "generated/$file" "$scratch/built/$file" ||
            wrong "generated/$file isn't what the proofs build"
    done
    if [ "$(lowered_by)" = "$(noted 'lowered by')" ]; then
        cmp generated/wasm/hidreport.wasm "$scratch/built/wasm/hidreport.wasm" ||
            wrong "generated/wasm/hidreport.wasm isn't what the proofs build"
        if [ "$(written_by)" = "$(noted 'written by')" ]; then
            cmp generated/portable/hidreport.c "$scratch/built/portable/hidreport.c" ||
                wrong "generated/portable/hidreport.c isn't what the proofs build"
        else
            say "portable C was made by $(noted 'written by'), so by $(written_by) answers alone decide"
        fi
    else
        say "WebAssembly was made by $(noted 'lowered by'), so by $(lowered_by) answers alone decide"
    fi
    say 'the library is byte for byte what the proofs build'
}

compare_program() {
    [ "$(sum_of "$1" "$2")" = "$(noted "code of $2")" ] || wrong "$1 has other sources"
    is_proved "$1" "$2" || wrong "$2 isn't proved in $1"
    gzip -dc "generated/x86_64-linux/$2.o.gz" > "$scratch/$2.o"
    link "$scratch/$2.o" "$scratch/$2" > "$scratch/said" 2>&1 || {
        tail -n 20 "$scratch/said" >&2
        wrong "$2.o isn't linked"
    }
    cmp "$scratch/$2" "$(program_of "$1" "$2")" ||
        wrong "generated/x86_64-linux/$2.o.gz isn't what the proofs build"
    build_object "$1" "$2" aarch64
    gzip -dc "generated/aarch64-linux/$2.o.gz" | cmp - "$scratch/$2.aarch64.o" ||
        wrong "generated/aarch64-linux/$2.o.gz isn't what the proofs build"
    if [ "$2" = hid ] && [ "$(lowered_by)" = "$(noted 'lowered by')" ]; then
        build_hid_module
        gzip -dc generated/wasm/hid.wasm.gz | cmp - "$scratch/hid.wasm" ||
            wrong "generated/wasm/hid.wasm.gz isn't what the proofs build"
    fi
    say "$2 is byte for byte what the proofs build"
}

# The header's functions, and the names that a library shows.
functions() {
    sed -n 's/^[a-z].*[ *]\(hidreport_[a-z_]*\)(.*/\1/p' include/hidreport.h | LC_ALL=C sort
}

shown_by() {
    nm --defined-only "$@" | sed -n 's/^[0-9a-f]* [A-Z] //p' | LC_ALL=C sort
}

# The shared library shows these alone, the static one the three of heap.c besides.
shows_the_header() {
    local archive
    archive=$(shown_by -g "$1/libhidreport.a" | grep -vx 'rattle_\(re\|de\)\?alloc')
    [ "$archive" = "$(functions)" ] &&
        [ "$(shown_by -D "$1/libhidreport.so")" = "$(functions)" ]
}

# The path without `rt`: a folder that has it is another, with links to all else.
hide_rt() {
    local folder path=
    for folder in ${PATH//:/ }; do
        if [ -e "$folder/rt" ]; then
            mkdir -p "$scratch/path$folder"
            ln -sf "$folder"/* "$scratch/path$folder/"
            rm "$scratch/path$folder/rt"
            folder=$scratch/path$folder
        fi
        path=$path:$folder
    done
    PATH=${path#:}
    ! command -v rt > /dev/null || wrong '`rt` is still on the path'
}

# What a user has: no more of the tree than these files.
copy() {
    mkdir -p "$1/crates"
    cp -r Makefile generated include c rust tools checks share crates.txt hid hidreport "$1/"
    rm -rf "$1/rust/target"
    cp -r --parents crates/hid/data crates/hidreport_main/data crates/hidreport_main/stdout \
        tests/hidreport_cases/data crates/*/src "$1/"
}

# Does a closed pipe end a call by the signal, as it ends `grep`, with no word of it?
ends_quietly() {
    local status
    status=$({ { sleep 0.2 && "$@" 2> "$scratch/errors" || echo "$?" >&3; } | :; } 3>&1)
    [ "$status" = 141 ] && ! grep -qi pipe "$scratch/errors"
}

# A program of the copy: the first call of its launcher links it, in at most five seconds of a processor,
# and it makes the stored runs.
ask_program() {
    local tree=$1 program=$2 linked
    linked="$tree/build/run/$program"
    case $program in
        hid) set -- fields "$tree/crates/hid/data/mouse.hex" ;;
        *) set -- items "$tree/crates/hidreport_main/data/mouse.rdesc" ;;
    esac
    (ulimit -t 5 && timeout 60 "$tree/$program" "$@") > "$scratch/said" 2> "$scratch/errors" ||
        wrong "the first call of ./$program fails: $(tail -n 1 "$scratch/errors")"
    grep -q "^$program: linked from generated/" "$scratch/errors" ||
        wrong "./$program isn't linked from generated/"
    ends_quietly "$linked" "$@" || wrong "$program ends otherwise where its output is closed"
    case $program in
        hid)
            python3 "$tree/checks/hid/runs.py" "$linked" &&
                python3 "$tree/checks/launchers/terminal.py" "$linked"
            ;;
        *) sh "$tree/checks/hidreport/statuses.sh" "$linked" ;;
    esac > "$scratch/said" 2>&1 || {
        tail -n 20 "$scratch/said" >&2
        wrong "$program as it is linked goes otherwise"
    }
    say "./$program links what generated/ has; that makes its stored runs, and ends quietly by a closed pipe"
}

# The answers from C and Rust on this processor.
ask_here() {
    make -C "$1" check install PREFIX="$scratch/prefix" > "$scratch/said" 2>&1 || {
        tail -n 20 "$scratch/said" >&2
        wrong 'make fails'
    }
    shows_the_header "$1/build" || wrong 'a library shows other names than the header'
    bash "$1/checks/c/cases.sh" "$scratch/prefix" > "$scratch/said" 2>&1 || {
        cat "$scratch/said" >&2
        wrong 'the archive answers otherwise'
    }
    cat "$scratch/said"
    bash "$1/checks/c/growth.sh" "$scratch/prefix" || wrong 'a call grows too fast'
    command -v cargo > /dev/null || return 0
    (cd "$1/rust" && cargo test --offline --quiet) > "$scratch/said" 2>&1 || {
        tail -n 20 "$scratch/said" >&2
        wrong 'the cargo package fails'
    }
    say 'the cargo package makes its library of generated/, and its tests pass'
}

# The answers from C on the other processor, where a program of it can be run.
ask_there() {
    command -v aarch64-linux-gnu-gcc > /dev/null && command -v qemu-aarch64 > /dev/null || {
        say 'no `aarch64-linux-gnu-gcc` or no `qemu-aarch64`, so for aarch64 nothing is asked'
        return 0
    }
    make -C "$1" check BUILD="$1/there" CC=aarch64-linux-gnu-gcc AR=aarch64-linux-gnu-ar \
        RUN="qemu-aarch64 -L ${QEMU_LD_PREFIX:-/usr/aarch64-linux-gnu}" > "$scratch/said" 2>&1 || {
        tail -n 20 "$scratch/said" >&2
        wrong 'aarch64 answers otherwise'
    }
    say 'on aarch64, by qemu, both libraries give the wanted answers'
}

# What is spoilt has to be refused: one byte of a text, and one more name in a library.
spoil() {
    local text=$1/generated/x86_64-linux/hidreport.s
    has_its_sums "$1/generated" || wrong 'a file has another sum than the one that is noted'
    sed -i '0,/\.p2align\t4/s//.p2align\t5/' "$text"
    ! has_its_sums "$1/generated" || wrong 'a spoilt byte is not seen'
    printf '.text\n.globl hidreport_more\nhidreport_more: ret\n' >> "$text"
    make -C "$1" > /dev/null 2>&1 || wrong 'with one more name make fails'
    ! shows_the_header "$1/build" || wrong 'a name too many is not seen'
    say 'a spoilt byte and a name too many are seen'
}

tree() {
    (cd "${1:-$top}" && pwd)
}

if [ "${1-}" = --write ]; then
    shift
    write "$(tree "$@")"
fi
has_its_sums generated || wrong 'a file has another sum than the one that is noted'
find_fresh
[ ${#fresh[@]} -gt 0 ] || exit 0
if ! command -v rt > /dev/null; then
    say 'no `rt` on the path, so answers alone decide'
elif [ "$(rt version)" != "$(noted toolchain)" ]; then
    say "made by $(noted toolchain), so by $(rt version) answers alone decide"
else
    tree=$(tree "$@")
    for part in "${fresh[@]}"; do
        case $part in
            library) compare "$tree" ;;
            *) compare_program "$tree" "$part" ;;
        esac
    done
fi
if ! command -v cc > /dev/null || ! command -v make > /dev/null; then
    say 'no `cc` or no `make` on the path, so nothing is asked'
    exit 0
fi
hide_rt
copy "$scratch/tree"
make -C "$scratch/tree" > "$scratch/said" 2>&1 || {
    tail -n 20 "$scratch/said" >&2
    wrong 'make fails'
}
for part in "${fresh[@]}"; do
    if [ "$part" = library ]; then
        ask_here "$scratch/tree"
        ask_there "$scratch/tree"
    elif [ "$(uname -m)" = x86_64 ]; then
        ask_program "$scratch/tree" "$part"
    fi
done
[ "$(uname -m)-${fresh[0]}" != x86_64-library ] || spoil "$scratch/tree"
