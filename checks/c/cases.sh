#!/bin/bash
# What C gets, by the header and by the cargo package: the questions of c/cases.txt are asked of the
# static library by a C program and by a Rust one, whose answers have to be those that stand there.
# A program in C++ tries the header's defaults.
# Then the tests of the cargo package are run: its numbers, its refusals, and want of memory, where
# each piece of each list is refused by itself. Its argument is a folder that ./install filled;
# without one it fills one. With `behind-ci` it builds the library over what `rt ci` has just proved
# (checks/c/library.sh), in two minutes. Where no C compiler is there, or no cargo, it says so and
# leaves that part out.
set -eu
export LC_ALL=C

top=$(cd "$(dirname "$0")/../.." && pwd)
scratch=$(mktemp -d)
trap 'rm -rf "$scratch"' EXIT
if ! command -v cc > /dev/null || ! command -v ar > /dev/null; then
    echo 'c_cases: no `cc` or no `ar` on the path, so nothing is asked from C'
    exit 0
fi
prefix=${1:-$scratch/prefix}
if [ "$prefix" = behind-ci ]; then
    prefix=$scratch/prefix
    export HIDREPORT_ARCHIVE="$scratch/libhidreport_c.a"
    bash "$top/checks/c/library.sh" "$HIDREPORT_ARCHIVE" > "$scratch/said" 2>&1 || {
        tail -n 5 "$scratch/said"
        echo 'c_cases: not built over what rt ci has proved, so what ./install has is asked'
        unset HIDREPORT_ARCHIVE
    }
fi
[ -e "$prefix" ] || "$top/install" "$prefix" c > /dev/null
grep -v '^  ' "$top/c/cases.txt" > "$scratch/questions"
asked=$(grep -c '^[a-z]' "$scratch/questions")

# ask WHO PROGRAM: its answers against the cases, in so little memory that a case of want is one.
ask() {
    (ulimit -v 4000000 && "$2" < "$scratch/questions") > "$scratch/answers" || {
        echo "c_cases: $1 ends with status $?"
        exit 1
    }
    diff "$top/c/cases.txt" "$scratch/answers" > "$scratch/differ" || {
        echo "c_cases: $1 gets other answers:"
        head -n 40 "$scratch/differ"
        exit 1
    }
    echo "c_cases: $1 gets the wanted answers to $asked questions"
}

cc -std=c11 -Wall -Wextra -Werror -O2 -I"$prefix/include" -o "$scratch/cases" "$top/c/cases.c" \
    "$prefix/lib/libhidreport.a"
ask 'a C program' "$scratch/cases"
cc -std=c11 -Wall -Wextra -Werror -O2 -I"$prefix/include" -o "$scratch/hostile" \
    "$top/c/hostile.c" "$prefix/lib/libhidreport.a"
(ulimit -v 64000 && "$scratch/hostile")
if command -v c++ > /dev/null; then
    c++ -std=c++11 -Wall -Wextra -Wpedantic -Werror -O2 -I"$prefix/include" \
        -o "$scratch/defaults" "$top/c/defaults.cc" "$prefix/lib/libhidreport.a"
    "$scratch/defaults"
else
    echo 'c_cases: no `c++` on the path, so the defaults are not tried from C++'
fi
if cargo --version > /dev/null 2>&1; then
    cp -r "$prefix/share/hidreport/rust" "$scratch/rust"
    (cd "$scratch/rust" && HIDREPORT_LIB_DIR="$prefix/lib" \
        cargo build --offline --quiet --example cases) ||
        { echo 'c_cases: the cargo package is not built'; exit 1; }
    ask 'a Rust program' "$scratch/rust/target/debug/examples/cases"
    # Of another library it is built anew.
    touch "$prefix/lib/libhidreport.a"
    (cd "$scratch/rust" && HIDREPORT_LIB_DIR="$prefix/lib" cargo build --offline --verbose) 2>&1 |
        grep -q 'Running .*/build-script-build' ||
        { echo 'c_cases: the cargo package is not built anew of another library'; exit 1; }
    cp -r "$top/rust/tests" "$scratch/rust/"
    (cd "$scratch/rust" && HIDREPORT_LIB_DIR="$prefix/lib" \
        HIDREPORT_CASES="$top/tests/hidreport_cases/data" cargo test --offline --quiet) \
        > "$scratch/said" 2>&1 || {
        tail -n 20 "$scratch/said"
        echo 'c_cases: a test of the cargo package fails'
        exit 1
    }
    echo 'c_cases: the cargo package answers the cases of the library'
else
    echo 'c_cases: no `cargo` that runs, so the cargo package is not asked'
fi
