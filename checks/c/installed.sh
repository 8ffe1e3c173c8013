#!/bin/sh
# The library from C, C++ and Rust (docs/C.md): ./install fills a folder, and from that folder alone
# the example c/values.c, the test c/test.c, a program in C++ and two cargo packages are built. What
# the test prints is compared with what the program `hidreport` prints, over the descriptors of
# bench/ and reports with several ids, whole and cut short, under valgrind. It is no part of the
# gate, since it needs a C compiler; where cargo, a C++ compiler or valgrind is missing it says so
# and goes on. From a clean clone it takes as long as `make prove-hidreport`; else a minute.
set -eu
export LC_ALL=C

top=$(cd "$(dirname "$0")/../.." && pwd)
. "$top/checks/common/needs.sh"
need_rt installed
command -v cc > /dev/null || {
    echo 'installed: no `cc` on the path' >&2
    exit 2
}
scratch=$(mktemp -d)
trap 'rm -rf "$scratch"' EXIT
prefix="$scratch/prefix"
data="$top/crates/hidreport_main/data"

wrong() {
    echo "installed: $1" >&2
    exit 1
}

make -s -C "$top" prove-hidreport
"$top/hidreport" values "$data/mouse.rdesc" "$data/mouse.report" > "$scratch/mouse"
program="$top/crates/hidreport_main/out/hidreport_main"
"$top/install" "$prefix" c > "$scratch/said" || wrong 'nothing was installed'

# What pkg-config says, or what the file says without it.
if command -v pkg-config > /dev/null; then
    flags=$(PKG_CONFIG_PATH="$prefix/lib/pkgconfig" pkg-config --cflags --libs hidreport)
    version=$(PKG_CONFIG_PATH="$prefix/lib/pkgconfig" pkg-config --modversion hidreport)
    grep -qF "## $version " "$top/CHANGELOG.md" ||
        wrong "CHANGELOG.md has no version $version"
else
    echo 'installed: no `pkg-config` on the path, so its file is not tried'
    flags="-I$prefix/include -L$prefix/lib -lhidreport"
fi
# What is linked by these is the shared library.
export LD_LIBRARY_PATH="$prefix/lib"

# Sources stand alone: neither the header nor the library of this tree is on their paths.
mkdir "$scratch/c"
cp "$top/c/values.c" "$top/c/test.c" "$top/c/mouse.cc" "$scratch/c/"
for source in values test; do
    # shellcheck disable=SC2086
    cc -std=c11 -Wall -Wextra -Wpedantic -Werror -O2 -o "$scratch/$source" \
        "$scratch/c/$source.c" $flags
done

# The example of docs/C.md.
"$scratch/values" "$data/mouse.rdesc" "$data/mouse.report" > "$scratch/shown"
printf '0..8 00010030 5\n8..16 00010031 -5\n' | cmp -s - "$scratch/shown" || {
    cat "$scratch/shown" >&2
    wrong 'that is what the example shows in place of 5 and -5'
}

# A program in C++.
if command -v c++ > /dev/null; then
    # shellcheck disable=SC2086
    c++ -std=c++17 -Wall -Wextra -Wpedantic -Werror -O2 -o "$scratch/plus" \
        "$scratch/c/mouse.cc" $flags
    [ "$("$scratch/plus" | tr '\n' ' ')" = '00010030 00010031 ' ] || wrong 'C++ gets other usages'
else
    echo 'installed: no `c++` on the path, so the header is not tried from C++'
fi

watched="$scratch/test"
if command -v valgrind > /dev/null; then
    watched="valgrind -q --error-exitcode=9 --leak-check=full $scratch/test"
else
    echo 'installed: no `valgrind` on the path, so the test runs without it'
fi

runs=0
# Both print the same for these words: compare COMMAND DESCRIPTOR [REPORT]. The test says nothing of
# a report's id and size, nor of the kinds of items, nor that no report is there.
compare() {
    wanted=0
    "$program" "$@" > "$scratch/program" 2> /dev/null || wanted=$?
    got=0
    $runner "$@" > "$scratch/ours" || got=$?
    case $1 in
        values) sed -i -e '/^report /d' -e '/^refused: no report$/d' "$scratch/program" ;;
        items) sed -i '/^[0-9]/s/ [A-Za-z]*$//' "$scratch/program" ;;
    esac
    [ "$got" -le 1 ] && cmp -s "$scratch/program" "$scratch/ours" || {
        diff "$scratch/program" "$scratch/ours" | head -n 20 >&2
        wrong "$* differs ($wanted, $got)"
    }
    runs=$((runs + 1))
}

runner=$watched
compare values "$data/mouse.rdesc" "$data/mouse.report"
for text in "$top"/bench/descriptors/*.txt; do
    "$scratch/test" bytes "$text" > "$scratch/descriptor"
    head -c 40 "$scratch/descriptor" > "$scratch/cut"
    # Many reports, without valgrind.
    runner="$scratch/test"
    for id in 001 002 003 005 032; do
        {
            printf "\\$id"
            printf '\177\200\001\376\125\252\000\377%.0s' 1 2 3 4 5 6 7 8
        } > "$scratch/report"
        compare values "$scratch/descriptor" "$scratch/report"
        head -c 2 "$scratch/report" > "$scratch/short"
        compare values "$scratch/descriptor" "$scratch/short"
    done
    runner=$watched
    for descriptor in descriptor cut; do
        compare items "$scratch/$descriptor"
        compare rebuild "$scratch/$descriptor"
        compare values "$scratch/$descriptor" "$scratch/report"
    done
done

# A cargo package that names the installed one by its path.
if command -v cargo > /dev/null; then
    mkdir -p "$scratch/user/src"
    cat > "$scratch/user/Cargo.toml" << END
[package]
name = "user"
version = "0.1.0"
edition = "2021"

[dependencies]
hidreport = { package = "hidreport-proved", path = "$prefix/share/hidreport/rust" }
END
    cat > "$scratch/user/src/main.rs" << 'END'
use hidreport::{Field, Report, ReportDescriptor};

fn main() {
    let mouse = b"\x05\x01\x15\x81\x25\x7f\x75\x08\x95\x02\x09\x30\x09\x31\x81\x02";
    let mouse = ReportDescriptor::try_from(&mouse[..]).expect("a mouse");
    let report = mouse.find_input_report(&[5, 0xfb]).expect("its report");
    let read = |field: &Field| field.values(&[5, 0xfb]).expect("values")[0].into();
    let values: Vec<i32> = report.fields().iter().map(read).collect();
    assert_eq!(values, [5, -5]);
}
END
    (cd "$scratch/user" && cargo run --offline --quiet) || wrong 'a cargo program fails'
else
    echo 'installed: no `cargo` on the path, so the cargo package is left out'
fi
echo "installed: a C program shows the values of a mouse, and $runs answers are those of the program"
bash "$top/checks/c/cases.sh" "$prefix"
