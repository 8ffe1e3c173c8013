#!/bin/sh
# page.sh VERSION: writes the page hid.html, the program `hid` whole in one file, to the standard output:
# of page/, of the script and style of `hid page` (crates/hid_page/page), of js/src, and of the program
# as WebAssembly (generated/wasm). `make page` calls this. The page's policy lets run and show only what
# has the hashes of these.
set -eu
export LC_ALL=C
cd "$(dirname "$0")/.."
scratch=$(mktemp -d)
trap 'rm -rf "$scratch"' EXIT

# Modules as one: what they import from each other stands before it.
joined() {
    sed '/^import .*;$/d; /^import /,/;$/d; s/^export //' "$@"
}

# The hash of a file's bytes, as a policy has it.
digits() {
    if command -v sha256sum > /dev/null; then sha256sum "$1"; else shasum -a 256 "$1"; fi | head -c 64
}
hash() {
    printf 'sha256-'
    for byte in $(digits "$1" | sed 's/../0x& /g'); do
        # shellcheck disable=SC2059
        printf "\\$(printf %03o "$byte")"
    done | base64
}

# What `hid page` does in its own page, as a function of what it takes for one.
show_page() {
    echo 'function showPage(document, window, history, location) {'
    sed 's,.*,crates/hid_page/page/&.js,' crates/hid_page/page/parts.list | xargs cat
    echo '}'
}

samples() {
    for name in keyboard.hex mouse.recording touchpad.hex gamepad.hex odd.hex; do
        printf '<script type="text/plain" id="sample-%s" data-sample="%s">' "${name%.*}" "$name"
        cat "crates/hid/data/$name"
        echo '</script>'
    done
}

printf %s "$1" > "$scratch/version"
base64 < generated/wasm/hid.wasm.gz | tr -d '\n' > "$scratch/program"
joined js/src/host.js js/src/memory_files.js page/worker.js > "$scratch/worker"
samples > "$scratch/samples"
cat crates/hid_page/page/page.css page/app.css > "$scratch/style"
{
    sed 's,.*,page/&.js,' page/parts.list | xargs cat js/src/collections.js > "$scratch/parts"
    joined "$scratch/parts"
    show_page
} > "$scratch/script"
{
    printf "default-src 'none'; script-src '%s' 'wasm-unsafe-eval'; " "$(hash "$scratch/script")"
    printf "style-src '%s'; worker-src blob:; base-uri 'none'; form-action 'none'; " \
        "$(hash "$scratch/style")"
    printf "require-trusted-types-for 'script'; trusted-types hid"
} > "$scratch/policy"

# The template with what its marks name, one in a line at most.
while IFS= read -r line; do
    case $line in
        *'{{'*'}}'*)
            mark=${line#*'{{'}
            mark=${mark%%'}}'*}
            printf %s "${line%%'{{'*}"
            cat "$scratch/$mark"
            printf '%s\n' "${line#*'}}'}"
            ;;
        *) printf '%s\n' "$line" ;;
    esac
done < page/hid.html
