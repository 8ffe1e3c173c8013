#!/bin/bash
# The library as its callers have it, in crates of their own that are built without a proof: what
# must not compile (second_setting, builder_states), how often memory is asked for and what is
# answered where it is refused (item_allocations, refused_memory), use from another repository
# (from_elsewhere), the examples of the doc comments (doc_examples), and all cases and tests of tests/
# (tests, which takes the words of this). The parts lie in library/; it takes some seven minutes, and
# leaves nothing behind, but for `--keep FILE` the program that asks the cases.
set -eu
export LC_ALL=C
here=$(cd "$(dirname "$0")/library" && pwd)
bash "$here/tests.sh" "$@"
cd "$here"
for part in second_setting builder_states item_allocations refused_memory from_elsewhere doc_examples; do
    bash "$part.sh"
done
