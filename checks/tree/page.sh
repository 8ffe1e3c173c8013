#!/bin/bash
# Writes crates/hid_page/src/shell.rt, the constant texts of the page that `hid page` writes, from
# the files in crates/hid_page/page, which a person edits: page.html has {{marks}} where the
# style, the script and what comes from an input stand. The page's policy lets run and show only
# what has the hashes of these. With --check it writes nothing, and fails where that file is stale.
set -euo pipefail
cd "$(dirname "$0")/../../crates/hid_page"
export LC_ALL=C
fresh=$(mktemp -d)
trap 'rm -rf "$fresh"' EXIT

# The script's parts, in the order in which they stand.
{ echo; sed 's,.*,page/&.js,' page/parts.list | xargs cat; } > "$fresh/script"
{ echo; cat page/page.css; } > "$fresh/style"

# The hash of a file's bytes, as a policy has it.
hash() {
    printf 'sha256-'
    printf '%b' "$(sha256sum "$1" | head -c 64 | sed 's/../\\x&/g')" | base64
}
{
    printf "default-src 'none'; script-src '%s'; " "$(hash "$fresh/script")"
    printf "style-src '%s'; base-uri 'none'; form-action 'none'; " "$(hash "$fresh/style")"
    printf "require-trusted-types-for 'script'; trusted-types 'none'"
} > "$fresh/policy"

# The shell with the constant parts in it, cut where an input's stand.
awk -v folder="$fresh" '
function whole(file,   text, line) {
    while ((getline line < (folder "/" file)) > 0) text = text (begun++ ? "\n" : "") line
    begun = 0
    return text
}
BEGIN {
    part = "title"
    after["title"] = "heading"
    after["heading"] = "text"
    after["text"] = "data"
    after["data"] = "end"
}
{
    line = $0
    while (match(line, /\{\{[a-z]+\}\}/)) {
        mark = substr(line, RSTART + 2, RLENGTH - 4)
        printf "%s", substr(line, 1, RSTART - 1) > (folder "/part." part)
        line = substr(line, RSTART + RLENGTH)
        if (mark ~ /^(policy|style|script)$/) {
            printf "%s%s", whole(mark), mark == "policy" ? "" : "\n" > (folder "/part." part)
        } else if (mark == part) {
            part = after[mark]
        } else {
            print "page: {{" mark "}} for {{" part "}}" > "/dev/stderr"
            exit 1
        }
    }
    print line > (folder "/part." part)
}
' page/page.html

# A text as a constant: a line for each of its lines.
constant() {
    echo
    echo "/// $2"
    echo '#[rattlefmt::skip]'
    echo "pub const $1: &str = \"\\"
    sed 's/\\/\\\\/g; s/"/\\"/g; s/^ /\\x20/; s/$/\\n\\/' "$fresh/part.$3" > "$fresh/text"
    # The last line has an end only if the text has.
    [ -z "$(tail -c 1 "$fresh/part.$3")" ] || sed -i '$s/\\n\\$//' "$fresh/text"
    cat "$fresh/text"
    echo '";'
}
{
    echo '//! The constant texts of a page.'
    echo '// Written by checks/tree/page.sh from crates/hid_page/page: edit these.'
    constant BEFORE_TITLE 'What stands before the title.' title
    constant BEFORE_HEADING 'What stands between the title and the heading.' heading
    constant BEFORE_TEXT 'What stands between the heading and the items as text.' text
    constant BEFORE_DATA 'What stands between the text and the blocks of JSON.' data
    constant AFTER_DATA 'What stands behind the blocks of JSON.' end
} > "$fresh/shell.rt"

if [ "${1-}" != --check ]; then
    cp "$fresh/shell.rt" src/shell.rt
elif ! cmp -s "$fresh/shell.rt" src/shell.rt; then
    echo 'page: crates/hid_page/src/shell.rt is stale: checks/tree/page.sh writes it' >&2
    exit 1
fi
