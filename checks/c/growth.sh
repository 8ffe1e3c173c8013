#!/bin/bash
# growth.sh PREFIX: how much longer each function for C takes over 64 KB than over 1 KB of one shape
# (c/growth.c): none may grow faster than the bytes to the power of 1.3. It sees that one which does is
# noticed. PREFIX is a folder that ./install filled. Takes a quarter of a minute.
set -eu
export LC_ALL=C
top=$(cd "$(dirname "$0")/../.." && pwd)
scratch=$(mktemp -d)
trap 'rm -rf "$scratch"' EXIT
cc -std=c11 -Wall -Wextra -Werror -O2 -I"$1/include" -o "$scratch/growth" "$top/c/growth.c" \
    "$1/lib/libhidreport.a" -lm
"$scratch/growth"
! "$scratch/growth" spoilt > "$scratch/said" || {
    echo 'growth: a call that grows too fast is not noticed'
    exit 1
}
grep -q ': spoilt by options' "$scratch/said"
