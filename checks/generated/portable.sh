#!/bin/bash
# portable.sh MODULE FILE: makes FILE, the library for C as one file of C (checks/generated/portable.py), of
# MODULE, generated/wasm/hidreport.wasm. It takes Debian's `wasm2c` (package wabt).
set -euo pipefail
export LC_ALL=C
top=$(cd "$(dirname "$0")/../.." && pwd)
scratch=$(mktemp -d)
trap 'rm -rf "$scratch"' EXIT
command -v wasm2c > /dev/null || {
    echo 'portable: no `wasm2c` on the path (package wabt)' >&2
    exit 1
}
cp "$1" "$scratch/hidreport.wasm"
(cd "$scratch" && wasm2c hidreport.wasm -o hidreport.c)
python3 "$top/checks/generated/portable.py" "$scratch/hidreport.c" "$scratch/hidreport.h" > "$2"
