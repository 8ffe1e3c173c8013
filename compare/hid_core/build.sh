#!/bin/bash
# Builds `ask`, which reads report descriptors by the functions of Linux's hid-core themselves:
#
#     build.sh SOURCES FOLDER    SOURCES is the folder of a kernel's sources; FOLDER gets `ask`
#     build.sh debian FOLDER     the sources of Debian's package linux-source-6.12, which apt-get fetches
#
# Of SOURCES it reads drivers/hid/hid-core.c, drivers/hid/hid-ids.h, include/linux/hid.h and
# include/uapi/linux/hid.h (6.12). The functions, structures and constants that are needed are cut out
# unchanged, in their order, into FOLDER/kernel.h and FOLDER/kernel.c (cut.sh), and compiled with shim.h,
# shim.c, asking.c and ask.c, which are ours. One thing is put between: behind fetch_item its name is made
# that of a hook, which counts the items and calls it. Nothing of the kernel's source is kept here.
set -euo pipefail
export LC_ALL=C
[ $# -eq 2 ] || { echo 'usage: build.sh SOURCES|debian FOLDER' >&2; exit 2; }
here=$(cd "$(dirname "$0")" && pwd)
mkdir -p "$2"
folder=$(cd "$2" && pwd)
. "$here/cut.sh"
find_sources "$1" "$folder" "${core_files[@]}"

{
    echo '#pragma once'
    echo '#include "shim.h"'
    cat "$sources/include/uapi/linux/hid.h" "$sources/drivers/hid/hid-ids.h"
    cut_structures "$sources/include/linux/hid.h" 'HID_[A-Z0-9_]+' "$core_structures"
    echo "$core_declarations"
} > "$folder/kernel.h"
{
    echo '#include "kernel.h"'
    cut_functions "$sources/drivers/hid/hid-core.c" "$core_functions"
    echo "$core_calls"
} > "$folder/kernel.c"

compile_kernel "$folder" -I "$here" -I "$folder"
"${CC:-cc}" -std=gnu11 -O2 -Wall -Wextra -I "$here" -I "$folder" -o "$folder/ask" "$folder/kernel.o" \
    "$here/shim.c" "$here/asking.c" "$here/ask.c"
