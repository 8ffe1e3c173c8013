#!/bin/bash
# library.sh ARCHIVE [TARGET TEXT]
# Builds the library for C over the libraries that `rt ci` has just proved. `rt lib` would prove
# these once more, since rt ci leaves them without the sums by which rt knows what it has built.
# ARCHIVE is the path of the archive to be made. With two more words it is for TARGET, as
# aarch64-unknown-linux-gnu, and TEXT gets what was compiled as assembly, which gas and clang read, and
# TEXT.ll as LLVM's own text, of which checks/generated/wasm.sh makes WebAssembly.
# HIDREPORT_PROVED names another tree whose proved libraries are taken, HIDREPORT_KEPT a folder in
# which what is checked is kept for the next call.
set -eu
export LC_ALL=C

top=$(cd "$(dirname "$0")/../.." && pwd)
kit=$(dirname "$(rt doc)")
toolchain="$kit/toolchain"
below=()
for crate in hidreport_linux hidreport_usages hidreport hidreport_fields hidreport_lists hidreport_items hidreport_types; do
    built="${HIDREPORT_PROVED:-$top}/crates/$crate/out/rlib"
    below+=(--extern "$crate=$built/$crate.rlib" -L "dependency=$built")
done
more=()
[ -z "${HIDREPORT_KEPT:-}" ] || more+=(--incremental "$HIDREPORT_KEPT")

if [ $# -eq 3 ]; then
    . "$top/checks/generated/keeps_text.sh"
    scratch=$(mktemp -d)
    trap 'rm -rf "$scratch"' EXIT
    keeps_text "$kit" "$scratch" "$3" assembly
    toolchain=$scratch
    more+=(--target "$2")
fi
cd "$top/crates/hidreport_c"
"$kit/bin/rattle" build --crate-name hidreport_c src/lib.rt --crate-type staticlib \
    --extern "std=$kit/rlibs/std.rlib" -L "dependency=$kit/rlibs" "${below[@]}" \
    --antt-project "$kit/rattle/logic/antt-project.json" --logic-built "$kit/logic_built" \
    --links hidreport_c= --jobs "$(nproc)" "${more[@]}" --toolchain "$toolchain" --backend llvm \
    -o "$1"
