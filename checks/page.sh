#!/bin/bash
# The page hid.html that `make page` writes, of the repository alone: it asks for nothing, and Chromium does in
# it what a person does (page/acts.mjs), with what is then seen compared with the stored runs of `hid`; links,
# keys, widths, colours, print, names for screen readers and times are looked at, too (page/looks.mjs).
# A page with a spoilt program, and one with a spoilt script, are tried, and have to be noticed.
set -euo pipefail
export LC_ALL=C
top=$(cd "$(dirname "$0")/.." && pwd)
scratch=$(mktemp -d)
trap 'rm -rf "$scratch"' EXIT

wrong() {
    echo "page: $1" >&2
    exit 1
}

# Writes the page of a folder like this one, and nothing but it.
made() {
    SECONDS=0
    make -s -C "$1" page BUILD="$2" 2>&1 || wrong 'make page fails'
    [ "$SECONDS" -lt 10 ] || wrong "make page takes $SECONDS s"
}
made "$top" "$scratch"
addresses=$(sed 's/<script type="text\/plain" id="program">.*//' "$scratch/hid.html" | grep -oE '[a-z]+://[^"'\'' )]*' | sort -u)
[ "$addresses" = http://www.w3.org/2000/svg ] || wrong "it has other addresses: $addresses"
echo 'page: make page writes one file that has all it needs'

command -v node > /dev/null && command -v chromium > /dev/null || {
    echo 'page: no `node` or no `chromium` on the path, so no browser is asked'
    exit 0
}
stale=$(sh "$top/tools/program.sh" fresh hid) || {
    echo "$stale"
    exit 0
}
node "$top/checks/page/run.mjs" "$scratch/hid.html"

# What is spoilt is seen at the first act.
noticed() {
    ! node "$top/checks/page/run.mjs" --patience 3000 "$scratch/spoilt/hid.html" 'typed as hex' > "$scratch/said" 2>&1 ||
        wrong "$1 is not noticed"
    grep -q '^page: ' "$scratch/said" || wrong "$1 is not looked at: $(tail -n 3 "$scratch/said")"
}
mkdir -p "$scratch/copy/generated" "$scratch/copy/crates/hid_page" "$scratch/copy/crates/hid/src"
cp -r "$top"/{Makefile,page,tools,js,include,c,rust} "$scratch/copy"
cp -r "$top/generated/wasm" "$scratch/copy/generated"
cp -r "$top/crates/hid_page/page" "$scratch/copy/crates/hid_page"
cp -r "$top/crates/hid/data" "$scratch/copy/crates/hid"
gzip -dc "$top/generated/wasm/hid.wasm.gz" | sed 's/Generic Desktop/Generic Dasktop/' |
    gzip -c > "$scratch/copy/generated/wasm/hid.wasm.gz"
made "$scratch/copy" "$scratch/spoilt"
noticed 'a program that answers otherwise'
sed 's/MOST_ITEMS = 800;/MOST_ITEMS = 801;/' "$scratch/hid.html" > "$scratch/spoilt/hid.html"
noticed 'a script that is not the one of the policy'
echo 'page: a spoilt program and a spoilt script are noticed'
