#!/bin/bash
# What ./release writes: the tarball, the wheel and the package for JavaScript, the same bytes each time,
# by other settings of git, too; these two are installed and read the mouse; from the tarball, with no `rt`
# on the path, `make`, `make check` and `make install` in half a minute, a program in C linked from what is
# installed, and the installed programs. It is no part of the gate: it is run before a version gets its
# number. Leaves nothing behind.
set -euo pipefail
export LC_ALL=C

top=$(cd "$(dirname "$0")/../.." && pwd)
scratch=$(mktemp -d)
trap 'rm -rf "$scratch"' EXIT

wrong() {
    echo "release: $1" >&2
    exit 1
}

# With a link where an older one put a file of its own.
mkdir "$scratch/first"
echo kept > "$scratch/own"
ln -s "$scratch/own" "$scratch/first/.room"
asked=0
while read -r folder settings; do
    printf '[%s]\n\t%s\n' $settings > "$scratch/settings"
    GIT_CONFIG_GLOBAL=$scratch/settings "$top/release" "$scratch/$folder" > "$scratch/said" 2>&1 ||
        wrong "by $settings: $(tail -n 3 "$scratch/said")"
    for file in "$scratch/$folder"/*.tar.xz "$scratch/$folder"/*.whl "$scratch/$folder"/*.tgz; do
        cmp "$scratch/first/${file##*/}" "$file" || wrong "by $settings other bytes are written"
        asked=$((asked + 1))
    done
done << END
first core autocrlf=false
second tar umask=0077
third core autocrlf=true
fourth core eol=crlf
END
[ "$(cat "$scratch/own")" = kept ] || wrong 'a file that a link leads to is emptied'
archive=$(cd "$scratch/first" && ls -- *.tar.xz)

# The packages, installed from nowhere else.
mouse='05010902a1010901a10005091901290315002501950375018102950175058101050109300931158125'
mouse+=7f750895028106c0c0
python3 -m venv "$scratch/venv"
"$scratch/venv/bin/pip" install -q --no-index "$scratch/first"/*.whl > "$scratch/said" 2>&1 ||
    wrong "the wheel isn't installed: $(tail -n 3 "$scratch/said")"
read_mouse="import hidreport
device = hidreport.ReportDescriptor(bytes.fromhex('$mouse'))
print([values for field, values in device.input_reports[0].values(bytes([0, 5, 0xfb])) if values][-2:])"
[ "$(cd / && "$scratch/venv/bin/python" -c "$read_mouse")" = '[[5], [-5]]' ] || wrong 'the wheel reads otherwise'
mkdir "$scratch/node"
(cd "$scratch/node" && npm install --silent --offline "$scratch/first"/*.tgz) > "$scratch/said" 2>&1 ||
    wrong "the package for JavaScript isn't installed: $(tail -n 3 "$scratch/said")"
[ "$(cd "$scratch/node" && echo "$mouse" | npx --offline hid values --form hex - <(echo 00 05 fb) 2> /dev/null |
    grep -c 'X\|Y')" -gt 0 ] || wrong 'hid of the package for JavaScript reads otherwise'
tar -C "$scratch" -xf "$scratch/first/$archive"
tree=$scratch/${archive%.tar.xz}

# A path with links to all but `rt`.
hidden=
for folder in ${PATH//:/ }; do
    if [ -e "$folder/rt" ]; then
        mkdir -p "$scratch/path$folder"
        ln -sf "$folder"/* "$scratch/path$folder/"
        rm "$scratch/path$folder/rt"
        folder=$scratch/path$folder
    fi
    hidden=$hidden:$folder
done
PATH=${hidden#:}
! command -v rt > /dev/null || wrong '`rt` is still on the path'

begun=$SECONDS
for goal in all check "install PREFIX=$scratch/prefix"; do
    # shellcheck disable=SC2086
    make -C "$tree" $goal > "$scratch/said" 2>&1 || {
        tail -n 20 "$scratch/said" >&2
        wrong "make $goal fails"
    }
done
[ $((SECONDS - begun)) -le 30 ] || wrong "make takes $((SECONDS - begun)) s"

data="$tree/crates/hidreport_main/data"
wanted=$'0..8 00010030 5\n8..16 00010031 -5'
cc -o "$scratch/values" -I"$scratch/prefix/include" "$tree/c/values.c" "$scratch/prefix/lib/libhidreport.a"
[ "$("$scratch/values" "$data/mouse.rdesc" "$data/mouse.report")" = "$wanted" ] ||
    wrong 'a program in C gets other values'
if [ "$(uname -m)" = x86_64 ]; then
    "$scratch/prefix/bin/hidreport" values "$data/mouse.rdesc" "$data/mouse.report" |
        grep -qxF '8..16 variable 00010031 -5' || wrong 'hidreport shows other values'
    (cd "$tree/crates/hid/data" && "$scratch/prefix/bin/hid" values --down keyboard.hex keyboard.report) \
        2> /dev/null | grep -qxF 'Keyboard A' || wrong 'hid shows other values'
fi
echo "release: $archive and two packages, the same bytes $asked times, made and installed in $((SECONDS - begun)) s"
