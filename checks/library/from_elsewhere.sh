#!/bin/sh
# Uses the library from another repository, as somebody new would, from an empty folder: five folders of crates/ are copied, and of crates.txt
# their five lines. A crate that names `hidreport` and `hidreport_fields` of these reads a mouse's descriptor and a report. `rt try` runs it before any proof, so
# this takes half a minute; `rt check` in its folder would prove the five and then the crate. Leaves nothing behind.
set -eu
export LC_ALL=C

top=$(cd "$(dirname "$0")/../.." && pwd)
. "$top/checks/common/needs.sh"
need_rt from_elsewhere
scratch=$(mktemp -d)
trap 'rm -rf "$scratch"' EXIT

# What is copied: sources, definitions and proofs. The edits that must fail, and what `rt` made, stay here.
for crate in hidreport_types hidreport_items hidreport_lists hidreport_fields hidreport; do
    mkdir -p "$scratch/crates/$crate"
    for part in src specs proofs; do
        cp -R "$top/crates/$crate/$part" "$scratch/crates/$crate/"
    done
    grep "^$crate:" "$top/crates.txt" >> "$scratch/crates.txt"
done

# What is new: a line and a file.
echo 'reader: hidreport hidreport_fields anyhow' >> "$scratch/crates.txt"
mkdir -p "$scratch/crates/reader/src"
cp "$top/checks/library/from_elsewhere/main.source" "$scratch/crates/reader/src/main.rt"

printf '00010030 5\n00010031 -5\n' > "$scratch/wanted"
bash "$top/checks/common/unproved.sh" --kit "$scratch/kit"
(cd "$scratch/crates/reader" && "$scratch/kit/bin/rt" try) > "$scratch/shown" 2> "$scratch/said" || {
    echo 'from_elsewhere: the crate does not run:' >&2
    tail -n 20 "$scratch/said" >&2
    exit 1
}
if ! cmp -s "$scratch/wanted" "$scratch/shown"; then
    echo 'from_elsewhere: in place of 5 and -5 the crate shows:' >&2
    cat "$scratch/shown" >&2
    exit 1
fi
echo 'from_elsewhere: a new repository shows the values of a mouse'
