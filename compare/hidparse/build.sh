#!/bin/bash
# Builds `ask`, which reads report descriptors by the parser of Wine's hidparse.sys itself:
#
#     build.sh SOURCES FOLDER    SOURCES is the folder of Wine's sources; FOLDER gets `ask`
#     build.sh debian FOLDER     the sources of Debian's package wine (10.0), which apt-get fetches
#
# Of SOURCES it reads dlls/hidparse.sys/main.c and the headers in `files` (10.0). They are compiled
# unchanged, with shim.h in the place of Windows' own headers and of Wine's messages, and with ask.c: both
# are ours. Nothing of Wine's source is kept here.
set -euo pipefail
export LC_ALL=C
[ $# -eq 2 ] || { echo 'usage: build.sh SOURCES|debian FOLDER' >&2; exit 2; }
here=$(cd "$(dirname "$0")" && pwd)
mkdir -p "$2"
folder=$(cd "$2" && pwd)
files=(dlls/hidparse.sys/main.c include/hidusage.h include/ddk/hidpi.h include/ddk/hidpddi.h
    include/wine/hid.h include/wine/list.h)

# Where this machine has Debian's own packages from.
registry() {
    apt-get indextargets --format '$(REPO_URI) $(RELEASE)' 'Created-By: Packages' |
        awk '$2 !~ /security|updates|backports/ { print $1; exit }'
}

# fetch_sources: sets `sources` to those of Debian's package, of the suite that has 10.0. The lists of
# apt-get lie in the folder, so those of the machine stay as they are.
fetch_sources() {
    local package=$folder/package options
    sources=$folder/sources
    mkdir -p "$package/lists/partial" "$package/parts" "$sources"
    {
        echo 'Types: deb-src'
        echo "URIs: $(registry)"
        echo 'Suites: trixie'
        echo 'Components: main'
        echo 'Signed-By: /usr/share/keyrings/debian-archive-keyring.gpg'
    } > "$package/wine.sources"
    options=(-qq -o APT::Sandbox::User=root -o Dir::Etc::sourcelist="$package/wine.sources"
        -o Dir::Etc::sourceparts="$package/parts" -o Dir::State::lists="$package/lists"
        -o Dir::Cache="$package")
    (cd "$package" && apt-get "${options[@]}" update &&
        apt-get "${options[@]}" source --tar-only --download-only wine)
    tar -xJf "$package"/wine_10.0~repack.orig.tar.xz -C "$sources" --strip-components=1 \
        "${files[@]/#/wine-10.0/}"
    rm -r "$package"
}

if [ "$1" = debian ]; then
    fetch_sources
else
    sources=$(cd "$1" && pwd)
fi
for file in "${files[@]}"; do
    [ -r "$sources/$file" ] || { echo "build.sh: no $file in $sources" >&2; exit 2; }
done

# The headers that are ours: each is shim.h.
ours=(ntstatus.h windef.h winbase.h winternl.h winioctl.h ddk/wdm.h wine/debug.h)
mkdir -p "$folder/include/ddk" "$folder/include/wine"
for file in "${ours[@]}"; do
    echo '#include "shim.h"' > "$folder/include/$file"
done
for file in "${files[@]:1}"; do
    cp "$sources/$file" "$folder/$file"
done

includes=(-I "$here" -I "$folder/include")
# The parser is compiled as Wine is: numbers wrap.
"${CC:-cc}" -std=gnu11 -O2 -w -fno-strict-overflow -fno-strict-aliasing "${includes[@]}" -include hook.h \
    -c -o "$folder/hidparse.o" "$sources/dlls/hidparse.sys/main.c"
"${CC:-cc}" -std=gnu11 -O2 -Wall -Wextra "${includes[@]}" -o "$folder/ask" "$folder/hidparse.o" \
    "$here/ask.c"
