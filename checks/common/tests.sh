# The crates of tests/, which are built without a proof: to be read by `.`, not run. $top is the
# repository. `rt ci` wants no .rt file outside of crates/ and no second crates.txt, so their
# sources end in .source, and what would stand in crates.txt stands in tests/crates.list.

# Makes a tree of a folder, in which they are crates among all others.
make_tree_with_tests() {
    local folder part source
    mkdir -p "$1/crates"
    git init -q "$1"
    cp "$top/HANDLES" "$1"
    cat "$top/crates.txt" "$top/tests/crates.list" > "$1/crates.txt"
    for folder in "$top"/crates/*/ "$top"/tests/*/; do
        mkdir "$1/crates/$(basename "$folder")"
        for part in src specs proofs data; do
            [ ! -d "$folder/$part" ] || cp -r "$folder/$part" "$1/crates/$(basename "$folder")"
        done
    done
    for source in "$1"/crates/*/src/*.source; do
        mv "$source" "${source%.source}.rt"
    done
}
