#!/bin/bash
# What `make` builds does not depend on how many jobs it has: five times from nothing with eight, each
# product is byte for byte that of a serial build, the library has just the functions of the header, and
# what is installed is the same. A second `make` has nothing to do, and `make install` behind it compiles
# nothing. In copies of what a user has, as if generated/ was made of these sources; in half a minute.
set -euo pipefail
export LC_ALL=C

top=$(cd "$(dirname "$0")/../.." && pwd)
cd "$top"
scratch=$(mktemp -d)
trap 'rm -rf "$scratch"' EXIT
asked=0

wrong() {
    echo "make: $1" >&2
    [ ! -s "$scratch/said" ] || tail -n 20 "$scratch/said" >&2
    exit 1
}

copy() {
    mkdir -p "$1/crates"
    cp -r Makefile generated include c rust tools checks share crates.txt "$1/"
    rm -rf "$1/rust/target"
    (cd crates && cp -r --parents ./*/src "$1/crates/")
    sed -i "s/^sources: .*/sources: $(sh tools/program.sh code library)/
        s/^code of hid: .*/code of hid: $(sh tools/program.sh code hid)/
        s/^code of hidreport: .*/code of hidreport: $(sh tools/program.sh code hidreport)/" \
        "$1/generated/SOURCES"
}

# What is built, with a sum each: all files but those that only say that something was done.
products() {
    (cd "$1/build" && find . -type f -not -name fresh -not -name answers -print0 | sort -z |
        xargs -0 sha256sum)
}

functions() {
    sed -n 's/^[a-z].*[ *]\(hidreport_[a-z_]*\)(.*/\1/p' include/hidreport.h | sort
}
shown() {
    nm --defined-only "$@" 2> /dev/null | sed -n 's/^[0-9a-f]* T //p' | grep -v '^rattle_' | sort
}

make_in() {
    local tree=$1
    shift
    make -C "$tree" "$@" > "$scratch/said" 2>&1 || wrong "make $* fails"
}

# A second `make` has nothing to do, and installing compiles nothing.
is_settled() {
    local tree=$1 before
    make -q --no-print-directory -C "$tree" || wrong 'a second `make` has something to do'
    before=$(find "$tree/build" -type f -printf '%p %T@\n' | sort)
    make_in "$tree" install DESTDIR="$tree/root" PREFIX=/usr
    [ "$(find "$tree/build" -type f -printf '%p %T@\n' | sort)" = "$before" ] ||
        wrong '`make install` behind `make` builds something'
    asked=$((asked + 2))
}

[ "$(functions | wc -l)" -ge 45 ] || wrong 'the header has fewer functions'
copy "$scratch/serial"
make_in "$scratch/serial" all
is_settled "$scratch/serial"
make_in "$scratch/serial" check
products "$scratch/serial" > "$scratch/wanted"
[ "$(wc -l < "$scratch/wanted")" -ge 6 ] || wrong 'less is built'
for round in 1 2 3 4 5; do
    tree=$scratch/$round
    copy "$tree"
    case $round in
        1 | 2 | 3)
            make_in "$tree" -j8 all
            is_settled "$tree"
            ;;
        *) make_in "$tree" -j8 install DESTDIR="$tree/root" PREFIX=/usr ;;
    esac
    make_in "$tree" -j8 check
    products "$tree" | diff "$scratch/wanted" - > "$scratch/said" ||
        wrong "round $round: other products"
    diff -r --no-dereference "$scratch/serial/root" "$tree/root" > "$scratch/said" ||
        wrong "round $round: other files are installed"
    diff <(functions) <(shown -g "$tree/build/libhidreport.a") > "$scratch/said" ||
        wrong "round $round: the archive has other functions than the header"
    diff <(functions) <(shown -D "$tree/build/libhidreport.so") > "$scratch/said" ||
        wrong "round $round: the shared library has other functions than the header"
    asked=$((asked + 4))
    rm -rf "$tree"
done
# What LDFLAGS names the shared library and both programs are linked with.
make -n -C "$scratch/serial" BUILD="$scratch/none" LDFLAGS=-Wl,-z,now all > "$scratch/said" 2>&1 ||
    wrong 'make -n fails'
[ "$(grep -c -e ' -Wl,-z,now ' "$scratch/said")" -eq 3 ] ||
    wrong 'LDFLAGS are not what is linked with'
# What is noticed: a name less, a byte more, and a source that is newer than what is made of it.
! diff <(functions) <(shown -g "$scratch/serial/build/libhidreport.a" | sed 1d) > "$scratch/said" ||
    wrong 'a missing function is not noticed'
echo >> "$scratch/serial/build/hid"
! products "$scratch/serial" | diff "$scratch/wanted" - > "$scratch/said" ||
    wrong 'a byte more is not noticed'
touch "$scratch/serial/generated/heap.c"
! make -q --no-print-directory -C "$scratch/serial" ||
    wrong '`make -q` sees nothing to do behind a newer source'
echo "make: $((asked + 4)) answers, the same with eight jobs as with one"
