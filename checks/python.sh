#!/bin/bash
# python/: its tests over the library that `make` builds of generated/, and once more of the package as
# pip installs it, from nowhere else; each question of c/cases.txt is one of them. A library that answers
# otherwise, and none, are tried each time, and have to be noticed.
set -euo pipefail
export LC_ALL=C
top=$(cd "$(dirname "$0")/.." && pwd)
command -v python3 > /dev/null || {
    echo 'python: no `python3` on the path, so python/ is not tried'
    exit 0
}
stale=$(sh "$top/tools/program.sh" fresh library) || {
    echo "$stale"
    exit 0
}
scratch=$(mktemp -d)
trap 'rm -rf "$scratch"' EXIT
export PYTHONDONTWRITEBYTECODE=1

wrong() {
    echo "python: $1" >&2
    exit 1
}

# The tests, by a Python; how many there are.
ask() {
    "$@" -m unittest tests/test_hidreport.py > "$scratch/said" 2>&1 || return 1
    tests=$(sed -n 's/^Ran \([0-9]*\) tests.*/\1/p' "$scratch/said")
    [ "$tests" -eq 10 ]
}

cp -r "$top/python" "$scratch/python"
make -s -C "$top" BUILD="$scratch/build" "$scratch/build/libhidreport.so" > "$scratch/said" 2>&1 ||
    wrong "no library is built: $(tail -n 3 "$scratch/said")"
mkdir "$scratch/c"
cp "$top/c/cases.txt" "$scratch/c"
cd "$scratch/python"
ask python3 || wrong "a test fails: $(tail -n 20 "$scratch/said")"

# One that calls a mouse a keyboard.
sed 's/Mouse/Mause/' "$scratch/build/libhidreport.so" > "$scratch/spoilt.so"
! HIDREPORT_LIBRARY=$scratch/spoilt.so ask python3 || wrong 'a library that answers otherwise is not noticed'
! HIDREPORT_LIBRARY=$scratch/none.so ask python3 || wrong 'a library that is not there is not noticed'

python3 -m venv "$scratch/venv" > "$scratch/said" 2>&1 &&
    "$scratch/venv/bin/pip" install -q --no-index "$top/python" >> "$scratch/said" 2>&1 ||
    wrong "the package is not installed: $(tail -n 5 "$scratch/said")"
# The package beside the tests goes, so that the installed one is asked.
rm -r "$scratch/python/hidreport" "$scratch/build"
ask "$scratch/venv/bin/python" || wrong "a test of the installed package fails: $(tail -n 20 "$scratch/said")"
echo "python: $tests tests and $(grep -c '^[a-z]' "$top/c/cases.txt") questions, also as pip installs the package"
