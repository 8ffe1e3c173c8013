#!/bin/bash
# What `hid page` writes: its JSON is what `hid decode`, `fields`, `record` and `values` say of the
# same inputs, nothing of an input is markup or script, and its policy lets run just its own script
# (page.py); where `chromium` is on the path, what a browser makes of it, too (page_browser.py). The
# argument, if any, is the program; else it is the one that ./hid runs.
set -eu
export LC_ALL=C
top=$(cd "$(dirname "$0")/../.." && pwd)
program=$(readlink -f "${1:-$top/build/run/hid}")
[ -x "$program" ] || {
    echo "hid_page: no program $program" >&2
    exit 2
}
command -v python3 > /dev/null || {
    echo 'hid_page: no `python3` on the path, so the pages of `hid page` are not looked at'
    exit 0
}
python3 "$top/checks/hid/page.py" "$program"
if command -v chromium > /dev/null; then
    python3 "$top/checks/hid/page_browser.py" "$program"
else
    echo 'hid_page: no `chromium` on the path, so no browser has shown the pages'
fi
