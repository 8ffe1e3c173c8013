#!/bin/bash
# The library for C and Rust: the questions of c/cases.txt from both (c/cases.sh, whose argument this
# takes). c/installed.sh, which is run by hand, builds programs in C, C++ and Rust from an installed
# folder alone, and runs them under valgrind; c/library.sh builds the archive over kept proofs.
set -eu
export LC_ALL=C
bash "$(dirname "$0")/c/cases.sh" "$@"
