#!/bin/bash
# What can be seen without a build, in a second: the tree's rules that no compiler knows.
# Its status is 0 where all hold; each that doesn't is a line.
set -u
export LC_ALL=C
cd "$(dirname "$0")/../.."
faults=0

fault() {
    echo "rules: $*"
    faults=$((faults + 1))
}

[ "$(cat HANDLES)" = 'Handles allowed: none.' ] || fault 'HANDLES has another line'

# Crates: each folder is listed, each listed one is there, and its root file asks for `auto`.
listed=$(sed -n 's/^\([a-z0-9_]*\)[ :].*/\1/p' crates.txt | LC_ALL=C sort)
[ "$listed" = "$(ls crates | LC_ALL=C sort)" ] || fault 'crates.txt and crates/ name other crates'
for crate in $listed; do
    root=$(ls crates/"$crate"/src/main.rt crates/"$crate"/src/lib.rt 2> /dev/null | head -n 1)
    grep -qxF '#![tactic(auto)]' "$root" || fault "$root has no #![tactic(auto)]"
done

# Edits: each file that one names is there, and has each `old:` text just once.
found=$(python3 checks/mutations/edited.py) || fault "$found"
# Plants: each text stands just once in the file that is named, or in the law's.
for plants in checks/mutations/planted/*.txt; do
    files=()
    while IFS= read -r line; do
        case $line in
            'file: '*) files=("crates/${line#file: }") ;;
            'law: '*) mapfile -t files < <(ls crates/hidreport{_types,_items,_lists,_fields,}/specs/"${line#law: }.antt" 2> /dev/null) ;;
            'old: '*)
                times=$(cat "${files[@]}" 2> /dev/null | grep -oF -e "${line#old: }" | wc -l)
                [ "$times" -eq 1 ] || fault "$plants: a text stands $times times: ${line#old: }"
                ;;
        esac
    done < "$plants"
done
# Those beside the proofs (checks/mutations/plants.py): a `file:` line has a path from here.
for plants in checks/mutations/plants/*.txt; do
    text=
    while IFS= read -r line; do
        case $line in
            'file: '*) text=$(cat "${line#file: }" 2> /dev/null) ;;
            'old: '*)
                rest=${text/"${line#old: }"/}
                [ "$rest" != "$text" ] && [ "${rest/"${line#old: }"/}" = "$rest" ] ||
                    fault "$plants: a text doesn't stand once: ${line#old: }"
                ;;
        esac
    done < "$plants"
done
found=$(ls crates/*/must-fail/* 2> /dev/null)
[ -z "$found" ] || fault "edits lie in checks/mutations/edits: for these rt ci would prove a crate once more:" $found

# Layout: each source is as `rt fmt` writes it.
mapfile -t sources < <(find crates \( -name '*.rt' -path '*/src/*' -o -name '*.antt' \) \
    -not -path '*/out/*')
# Those of checks/library and tests/ are not proved, so the kit wants no .rt there: copies are looked at.
copies=$(mktemp -d)
trap 'rm -rf "$copies"' EXIT
while read -r source; do
    sources+=("$copies/$(sed 's|/|_|g; s|source$|rt|' <<< "$source")")
    cp "$source" "${sources[-1]}"
done < <(find checks tests -name '*.source')
if command -v rattle > /dev/null; then
    rattle fmt --check "${sources[@]}" > /dev/null 2>&1 || fault 'a source is not as rt fmt writes it'
else
    fault "no \`rattle\` on the path, so nothing is known of the sources' layout"
fi

# Tests: none lies in a crate, which would be proved twice; each folder is listed, and each file of
# cases is asked.
found=$(grep -rlF --include='*.rt' '#[test]' crates/*/src)
[ -z "$found" ] || fault "tests go into tests/hidreport_tests:" $found
[ "$(sed 's/:.*//' tests/crates.list | LC_ALL=C sort)" = "$(ls -d tests/*/ | sed 's|.*/\(.*\)/|\1|')" ] ||
    fault 'tests/crates.list and tests/ name other crates'
[ "$(ls tests/hidreport_cases/data)" = "$(cat tests/hidreport_cases/args)" ] ||
    fault 'tests/hidreport_cases: args names other files than data/ has'

# Version: the header has it, and each file that repeats it has the same.
version=$(sed -n 's/^#define HIDREPORT_VERSION_[A-Z]* \([0-9][0-9]*\)$/\1/p' include/hidreport.h |
    paste -sd . | sed 's/\.\([0-9]*\)$/-\1/')
while read -r file text; do
    grep -qF -e "$text" "$file" || fault "$file has another version than the header's $version"
done << END_OF_FILES
README.md Version $version (
CHANGELOG.md ## $version (
crates/hidreport_c/src/version.rt 0x$(sed 's/[.-]/ /g' <<< "$version" | xargs printf '%02x%02x_%02x%02x')
crates/hid_commands/src/command_line.rt .version("$version")
crates/hid/data/words.txt | hid $version
share/man/man1/hid.1 "hidreport $version"
share/man/man1/hidreport.1 "hidreport $version"
rust/Cargo.toml version = "$version"
rust/Cargo.lock version = "$version"
python/hidreport/__init__.py __version__ = "$version"
python/hidreport/_c.py VERSION = 0x$(sed 's/[.-]/ /g' <<< "$version" | xargs printf '%02x%02x%02x%02x')
python/pyproject.toml version = "${version%-*}.post${version#*-}"
python/backend.py VERSION = "hidreport", "${version%-*}.post${version#*-}"
js/package.json "version": "$version"
js/src/library.js VERSION = 0x$(sed 's/[.-]/ /g' <<< "$version" | xargs printf '%02x%02x%02x%02x')
debian/changelog hidreport (${version/-/\~}-1)
END_OF_FILES

# Texts: 100 columns, tables apart.
long=$(LC_ALL=C.UTF-8 grep -nE '^[^|].{100,}' README.md CONTRIBUTING.md CHANGELOG.md SECURITY.md docs/*.md compare/*.md \
    bench/*.md | cut -d: -f1,2)
[ -z "$long" ] || fault "lines past 100 columns:" $long

# Scripts: each reads and sorts by bytes, whatever the locale; those that are read by `.` have no line of
# their own. And what they may lack stands in the gate's list of tools.
while read -r script; do
    ! grep -q '^set -' "$script" || grep -qx 'export LC_ALL=C' "$script" ||
        fault "$script doesn't set LC_ALL=C"
done < <(git ls-files '.ci/run' 'checks/*.sh')
while read -r tool; do
    grep -q "^$tool |" checks/common/tools.txt ||
        fault "a script looks for \`$tool\`, which checks/common/tools.txt doesn't have"
done < <(git ls-files 'checks/*.sh' | xargs grep -ohE 'command -v [a-z][a-z0-9+-]*' | cut -d ' ' -f 3 | sort -u |
    grep -vxE 'rt|rattle|flock|apt-get')

[ "$faults" -eq 0 ] || exit 1
echo 'rules: all rules of the tree hold'
