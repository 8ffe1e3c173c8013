# A crate `probe` above some crates of the repository, for scripts that look at what compiles: to be read by `.`, not run.

# Its words: the script, the repository, and the crates, lowest first. Sets $scratch, which is removed at the end,
# $probe, the source of the crate, $wanted, the errors that are wanted of it, and $rt, which tries it.
make_probe() {
    script=$1
    repository=$2
    shift 2
    scratch=$(mktemp -d)
    trap 'rm -rf "$scratch"' EXIT
    git init -q "$scratch"
    for crate in "$@"; do
        mkdir -p "$scratch/crates/$crate"
        for part in src specs proofs; do
            if [ -d "$repository/crates/$crate/$part" ]; then
                cp -r "$repository/crates/$crate/$part" "$scratch/crates/$crate"
            fi
        done
        grep "^$crate:" "$repository/crates.txt" >> "$scratch/crates.txt"
    done
    echo "probe: $*" >> "$scratch/crates.txt"
    mkdir -p "$scratch/crates/probe/src"
    probe="$scratch/crates/probe/src/lib.rt"
    wanted="$scratch/wanted"
    : > "$wanted"
    bash "$(dirname "$0")/../common/unproved.sh" --kit "$scratch/kit"
    rt=$scratch/kit/bin/rt
}

# Ends the script with a line, and with the standard input behind it.
fail() {
    echo "$script: $1" >&2
    cat >&2
    exit 1
}

# The line that was added to the source last is refused, since this type doesn't have this trait.
want_refusal() {
    line=$(wc -l < "$probe")
    echo "src/lib.rt:$line: the trait bound \`$1: $2\` is not satisfied" >> "$wanted"
}

answer() {
    (cd "$scratch/crates/probe" && "$rt" try --test 2>&1) || true
}

# The errors of an answer, each with its line and without its column.
errors_of() {
    echo "$1" | sed -n 's/^\(src[^:]*:[0-9]*\):[0-9]*: error\[unsatisfied-bound\]/\1/p; /error\[unsatisfied-bound\]/d; /error/p'
}

# The source is refused for just the wanted reasons.
expect_refusals() {
    said=$(answer)
    errors_of "$said" | cmp -s - "$wanted" ||
        errors_of "$said" | diff "$wanted" - | fail "$1"
}

# The source compiles, and its one test passes.
expect_success() {
    said=$(answer)
    echo "$said" | grep -q '^test result: ok\. 1 passed' ||
        echo "$said" | fail "$1"
}
