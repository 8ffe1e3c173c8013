#!/bin/bash
# kernel.sh HID [SOURCES]: asks Linux's own functions and `hid` the same: how a descriptor is read, which events
# reports send, what is written for lamps, and the codes of contacts, of every descriptor of the tree and of
# thousands that are made (compare/README.md). SOURCES is a folder of a kernel's sources; without it they are those of Debian's package
# linux-source-6.12, where apt-get has it; where it hasn't, that is said, and the recorded answers are all.
set -euo pipefail
export LC_ALL=C
hid=$1
compare=$(cd "$(dirname "$0")/../../compare" && pwd)
folder=$(mktemp -d)
trap 'rm -rf "$folder"' EXIT
untried() {
    echo "UNTRIED: Linux's own functions: $1"
    exit 0
}

command -v python3 > /dev/null || untried 'no `python3` on the path'
command -v "${CC:-cc}" > /dev/null || untried 'no C compiler on the path'
sources=${2-}
if [ -z "$sources" ]; then
    package=linux-source-6.12
    patience=(-o Acquire::Retries=1 -o Acquire::http::Timeout=20)
    mkdir "$folder/package"
    (cd "$folder/package" && apt-get download -qq "${patience[@]}" "$package" > /dev/null 2>&1) ||
        untried "apt-get has no $package"
    dpkg-deb -x "$folder/package/$package"_*.deb "$folder/package"
    sources=$folder/sources
    mkdir "$sources"
    tar -xJf "$folder/package/usr/src/$package.tar.xz" -C "$sources" --strip-components=1 \
        "$package/drivers/hid" "$package/drivers/input" "$package/include"
    rm -r "$folder/package"
fi
said=$folder/said
{
    python3 "$compare/linux_readings.py" "$sources" made > "$folder/readings"
    python3 "$(dirname "$0")/as_linux.py" "$hid" "$folder/readings" | sed 's/^as_linux:/kernel: readings:/'
    python3 "$compare/linux_input.py" compare "$hid" "$sources" | sed 's/^linux_input:/kernel: events:/'
    python3 "$compare/linux_lamps.py" compare "$hid" "$sources" | sed 's/^linux_lamps:/kernel: lamps:/'
    python3 "$compare/linux_multitouch.py" compare "$hid" "$sources" | sed 's/^linux_multitouch:/kernel: contacts:/'
} > "$said"
cat "$said"

# How many were asked isn't stored, since a later kernel may take others: that they are about as many is
# wanted of each. enough LINE WORDS LEAST
enough() {
    local count
    count=$(grep "^kernel: $1:" "$said" | grep -oE "$2" | grep -oE '[0-9]+') || true
    [ "${count:-0}" -ge "$3" ] || {
        echo "kernel: of $1 only ${count:-none} were asked, in place of $3" >&2
        exit 1
    }
}
enough readings '[0-9]+ descriptors' 13000
enough events 'reports: [0-9]+' 35000
enough lamps 'reports: [0-9]+' 2300
enough contacts 'usages: [0-9]+' 110000
