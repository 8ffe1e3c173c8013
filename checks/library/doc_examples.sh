#!/bin/bash
# The examples in the doc comments of the library: each block that begins with ```rust is a test of a
# crate of its own, which names the crates as a caller does; all are built once, and run. The `use`
# lines of a block stand outside its test; `rt` and `alloc` are the test's runtime and its allocator.
# Proves nothing, takes half a minute, and leaves nothing behind.
# Its argument, if any, is the repository to look at.
set -eu
export LC_ALL=C

. "$(dirname "$0")/../common/needs.sh"
. "$(dirname "$0")/../common/probe.sh"
need_rt doc_examples
repository=${1:-$(dirname "$0")/../..}
crates=(hidreport_types hidreport_items hidreport_lists hidreport_fields hidreport hidreport_usages
    hidreport_linux)
# At least so many are found.
least=28

make_probe doc_examples "$repository" "${crates[@]}"

# Each block in a file of its own, with its place in the first line, and a list of all places.
(cd "$repository/crates" && find "${crates[@]/%//src}" -name '*.rt' -type f | LC_ALL=C sort |
    xargs -d '\n' awk -v folder="$scratch/crates/probe/src" -v places="$scratch/places" '
    FNR == 1 { inside = 0 }
    !inside && /^ *\/\/[\/!] ```rust$/ {
        inside = 1
        uses = body = ""
        count += 1
        place = FILENAME ":" FNR
        next
    }
    inside && /^ *\/\/[\/!] ```$/ {
        inside = 0
        file = folder "/example_" count ".rt"
        print "// " place > file
        print uses "use std::test::Fail;\n" > file
        print "#[test]\nfn example(rt: HostRuntime) -> Result<(), Fail> {" > file
        print "    let alloc = rt.alloc();\n" body "    Ok(())\n}" > file
        close(file)
        print count, place > places
        next
    }
    inside {
        sub(/^ *\/\/[\/!] ?/, "")
        if (/^use /) uses = uses $0 "\n"
        else body = body "    " $0 "\n"
    }')
count=$(wc -l < "$scratch/places")
[ "$count" -ge "$least" ] || fail "there are $count examples, fewer than $least" < "$scratch/places"

{
    echo '#![tactic(auto)]'
    for ((n = 1; n <= count; n += 1)); do
        printf '\n#[cfg(test)]\nmod example_%s;\n' "$n"
    done
} > "$probe"
said=$(answer)
while read -r n place; do
    echo "$said" | grep -q "^test example_$n::example \.\.\. ok" ||
        echo "$said" | fail "the example at crates/$place fails (src/example_$n.rt), or none is built"
done < "$scratch/places"
echo "doc_examples: all $count run"
