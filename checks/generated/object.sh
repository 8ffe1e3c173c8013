#!/bin/bash
# object.sh TREE PROGRAM TARGET OBJECT [TEXT]: the object of `hid` or `hidreport` for TARGET, as
# aarch64-unknown-linux-gnu, over the libraries that `rt ci` proved in TREE, and TEXT.ll with what it was
# compiled of. The program's own crate is proved once more, in a minute or two: rt ci keeps no more of it
# than its object for x86-64. What is proved so is kept for the next call beside the folder HIDREPORT_KEPT.
set -eu
export LC_ALL=C

top=$(cd "$(dirname "$0")/../.." && pwd)
tree=$1 part=$2 target=$3 object=$4
kit=$(dirname "$(rt doc)")
toolchain=$kit/toolchain
if [ $# -eq 5 ]; then
    . "$top/checks/generated/keeps_text.sh"
    scratch=$(mktemp -d)
    trap 'rm -rf "$scratch"' EXIT
    keeps_text "$kit" "$scratch" "$5"
    toolchain=$scratch
fi
more=()
mapfile -t crates < <(sh "$top/tools/program.sh" crates "$part")
own=${crates[-1]}
if [ -n "${HIDREPORT_KEPT:-}" ]; then
    mkdir -p "$HIDREPORT_KEPT.$own"
    more+=(--incremental "$HIDREPORT_KEPT.$own")
fi
below=()
for crate in "${crates[@]}"; do
    [ "$crate" != "$own" ] || continue
    built=$tree/crates/$crate/out/rlib
    below+=(-L "dependency=$built")
    # What the program's own line names is named, the rest is found.
    ! grep -qE "^$own:.* $crate( |\$)" "$top/crates.txt" || below+=(--extern "$crate=$built/$crate.rlib")
done
for library in $(sed -n "s/^$own: //p" "$top/crates.txt"); do
    [ ! -d "$kit/rlibs/$library.rlib" ] || below+=(--extern "$library=$kit/rlibs/$library.rlib")
done
cd "$tree/crates/$own"
"$kit/bin/rattle" build --crate-name "$own" src/main.rt \
    --extern "std=$kit/rlibs/std.rlib" -L "dependency=$kit/rlibs" "${below[@]}" \
    --antt-project "$kit/rattle/logic/antt-project.json" --logic-built "$kit/logic_built" \
    --links "$own=" --jobs "$(nproc)" --toolchain "$toolchain" --backend llvm "${more[@]}" \
    --target "$target" -o "$object"
