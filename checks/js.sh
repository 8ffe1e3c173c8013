#!/bin/bash
# js/: its tests by Node over generated/wasm, and once more of the package as `npm pack` makes it, from
# nowhere else; each question of c/cases.txt is one of them. `hid` of the package makes all
# stored runs in one process of Node (hid/serve.mjs), and some in one each.
# A module that answers otherwise, and none, are tried each time, and have to be noticed.
# What WebHID tells of a device becomes its fields (js/webhid.mjs). Where `tsc` is on the path the types are
# tried by a use of all exports and by wrong uses, which it has to refuse (js/types).
set -euo pipefail
export LC_ALL=C
top=$(cd "$(dirname "$0")/.." && pwd)
command -v node > /dev/null || {
    echo 'js: no `node` on the path, so js/ is not tried'
    exit 0
}
stale=$(sh "$top/tools/program.sh" fresh library) || {
    echo "$stale"
    exit 0
}
scratch=$(mktemp -d)
trap 'rm -rf "$scratch"' EXIT

wrong() {
    echo "js: $1" >&2
    exit 1
}

# The tests; how many there are.
ask() {
    node --test tests/ > "$scratch/said" 2>&1 || return 1
    tests=$(sed -n 's/^# pass //p' "$scratch/said")
    [ "$tests" -eq 10 ]
}

mkdir "$scratch/generated" "$scratch/c"
cp -r "$top/js" "$scratch/js"
cp -r "$top/generated/wasm" "$scratch/generated"
cp "$top/c/cases.txt" "$scratch/c"
cd "$scratch/js"
ask || wrong "a test fails: $(grep -A 8 '^not ok' "$scratch/said" | head -n 30)"

# The types, as a program has them that npm installs the package for; how many wrong uses are refused.
types() {
    (cd "$scratch/types" && tsc -p .) > "$scratch/said" 2>&1 &&
        node "$top/checks/js/exports.mjs" "$scratch/js" "$scratch/types/uses.mts" > "$scratch/said" 2>&1
}
if command -v tsc > /dev/null; then
    mkdir -p "$scratch/types/node_modules"
    cp "$top"/checks/js/types/* "$scratch/types"
    ln -s "$scratch/js" "$scratch/types/node_modules/hidreport"
    types || wrong "types: $(head -n 5 "$scratch/said")"
    echo "$(< "$scratch/said"), $(grep -c '@ts-expect-error' "$scratch/types/refused.mts") wrong uses are refused"
    sed -i 's/readonly inputReports/inputReports/' "$scratch/js/index.d.ts"
    ! types || wrong 'a type that lets more through is not noticed'
    cp "$top/js/index.d.ts" "$scratch/js"
else
    echo 'js: no `tsc` on the path, so the types are not tried'
fi

# A device of WebHID.
webhid() {
    node "$top/checks/js/webhid.mjs" "$scratch/js" "$@" > "$scratch/said" 2>&1
}
webhid || wrong "$(head -n 5 "$scratch/said")"
cat "$scratch/said"
for edit in 's/item.reportSize);/item.reportCount);/' 's/reportId === 0 ?/reportId !== 0 ?/'; do
    sed -i "$edit" "$scratch/js/src/collections.js" "$scratch/js/src/webhid.js"
    ! webhid 10 || wrong "devices of WebHID: that $edit is not noticed"
    cp "$top"/js/src/*.js "$scratch/js/src"
done

# What a browser answers to the same questions: the page asks this machine's own server for a file that is
# named as what it found.
in_browser() {
    local server browser turn
    cat > "$scratch/index.html" << 'END_OF_PAGE'
<!doctype html><script type="module">
import { answers } from "./js/tests/cases.js";
const lines = (await (await fetch("c/cases.txt")).text()).replace(/\n$/, "").split("\n");
const got = answers(lines.filter((line) => !line.startsWith("  ")));
const other = lines.findIndex((line, k) => got[k] !== line);
fetch(other < 0 && got.length === lines.length
  ? `found/${lines.filter((line) => /^[a-z]/.test(line)).length}-alike` : `found/another-answer-${other + 1}`);
</script>
END_OF_PAGE
    : > "$scratch/served"
    python3 -u -m http.server 0 --bind 127.0.0.1 --directory "$scratch" >> "$scratch/served" 2>&1 &
    server=$!
    for ((turn = 0; turn < 200; turn++)); do
        ! grep -q ' port ' "$scratch/served" || break
        sleep 0.1
    done
    chromium --headless --no-sandbox --disable-gpu --user-data-dir="$(mktemp -d "$scratch/profile.XXXXXX")" --remote-debugging-port=0 \
        "http://127.0.0.1:$(sed -n 's/.* port \([0-9]*\) .*/\1/p' "$scratch/served")/index.html" \
        > "$scratch/said" 2>&1 &
    browser=$!
    for ((turn = 0; turn < 1200; turn++)); do
        ! grep -q 'GET /found/' "$scratch/served" || break
        sleep 0.1
    done
    kill "$browser" "$server"
    wait "$browser" "$server" 2> /dev/null || true
    sed -n 's/.*GET \/found\/\([^ ]*\) .*/\1/p' "$scratch/served" | head -n 1
}
if command -v chromium > /dev/null && command -v python3 > /dev/null; then
    questions=$(grep -c '^[a-z]' "$top/c/cases.txt")
    said=$(in_browser)
    [ "$said" = "$questions-alike" ] || wrong "in a browser: $said"
    sed -i 's/^  X$/  Z/' "$scratch/c/cases.txt"
    said=$(in_browser)
    [ "${said#another-answer}" != "$said" ] || wrong "another answer is not noticed in a browser: $said"
    cp "$top/c/cases.txt" "$scratch/c"
    echo "js: a browser answers $questions questions"
    node "$top/checks/js/example.mjs" "$scratch"
else
    echo 'js: no `chromium` or no `python3` on the path, so no browser is asked'
fi

# The package alone.
npm pack --silent > "$scratch/packed" 2>&1 || wrong "nothing is packed: $(tail -n 3 "$scratch/packed")"
tar -xzf "$(tail -n 1 "$scratch/packed")" -C "$scratch"

# One that calls a mouse otherwise.
sed -i 's/Mouse/Mause/' "$scratch/generated/wasm/hidreport.wasm"
! ask || wrong 'a module that answers otherwise is not noticed'
rm -r "$scratch/generated"
! ask || wrong 'a module that is not there is not noticed'
cp -r tests "$scratch/package/"
cd "$scratch/package"
ask || wrong "a test of the package fails: $(grep -A 8 '^not ok' "$scratch/said" | head -n 30)"

# The program of the package, by its own name; where its output is closed it ends quietly.
by_node() {
    printf '#!/bin/sh\nexec node --liftoff-only "%s/bin/hid.js" "$@"\n' "$scratch/package" > "$scratch/hid"
    chmod +x "$scratch/hid"
    python3 "$top/checks/hid/runs.py" "$scratch/package/hid.wasm.gz" > "$scratch/all" 2>&1 &&
        python3 "$top/checks/hid/runs.py" --every 80 "$scratch/hid" > "$scratch/said" 2>&1 &&
        python3 "$top/checks/launchers/terminal.py" "$scratch/hid" > "$scratch/terminal" 2>&1
}
if ! stale=$(sh "$top/tools/program.sh" fresh hid); then
    echo "$stale"
elif [ ! -e "$scratch/package/hid.wasm.gz" ] || ! command -v python3 > /dev/null; then
    echo 'js: no `python3` on the path, or no module of hid, so its runs are not tried'
else
    by_node || {
        tail -n 20 "$scratch/all" "$scratch/said" >&2
        wrong 'hid by Node goes otherwise'
    }
    runs() {
        sed -n 's/^hid_runs: \([0-9]*\) runs.*/\1/p' "$1"
    }
    echo "js: $(runs "$scratch/all") runs of hid over WebAssembly in one process of Node, $(runs "$scratch/said") in one each"
    status=0
    "$scratch/hid" decode "$top/crates/hid/data/mouse.hex" > /dev/full 2> "$scratch/errors" || status=$?
    [ "$status" -eq 1 ] && grep -q 'No space left on device (os error 28)' "$scratch/errors" ||
        wrong "a full device is not told: $status"
    { "$scratch/hid" decode "$top/crates/hid/data/mouse.hex" 2> "$scratch/errors" || echo "$?" > "$scratch/status"; } | true
    [ "$(< "$scratch/status")" = 141 ] && ! grep -qi pipe "$scratch/errors" || wrong 'a closed pipe is told'
    mv "$scratch/package/hid.wasm.gz" "$scratch/hid.wasm.gz"
    gzip -dc "$scratch/hid.wasm.gz" | sed 's/Generic Desktop/Generic Dasktop/' | gzip -c > "$scratch/package/hid.wasm.gz"
    ! by_node || wrong 'a module of hid that answers otherwise is not noticed'
    mv "$scratch/hid.wasm.gz" "$scratch/package/"
fi
echo "js: $tests tests and $(grep -c '^[a-z]' "$top/c/cases.txt") questions, also of the packed package"
