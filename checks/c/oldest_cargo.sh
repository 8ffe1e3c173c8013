#!/bin/bash
# The cargo package rust/ by the oldest cargo and rustc that it says it needs, those of Debian 12: it
# builds, and its tests pass, by its own lock file; so it does with `ccache gcc` and `env gcc` as CC, and,
# where mingw-w64 and wine are there, for Windows (x86_64-pc-windows-gnu), but for tests/growth.rs. It is
# no part of the gate: it is run before a version gets its number, on Debian 12, whose packages it
# downloads (120 MB) and unpacks into a folder of its own. Leaves nothing behind.
set -euo pipefail
export LC_ALL=C

top=$(cd "$(dirname "$0")/../.." && pwd)
scratch=$(mktemp -d)
trap 'rm -rf "$scratch"' EXIT
asked=0
: > "$scratch/said"

wrong() {
    tail -n 20 "$scratch/said" >&2
    echo "oldest_cargo: $1" >&2
    exit 1
}
command -v apt-get > /dev/null || wrong 'no `apt-get` on the path'

# What these two need besides what is installed.
mkdir "$scratch/packages" "$scratch/root"
chmod 755 "$scratch" "$scratch/packages"
(cd "$scratch/packages" && apt-get download rustc cargo libstd-rust-1.63 libstd-rust-dev libstd-rust-dev-windows libllvm14 \
    libgit2-1.5 libhttp-parser2.9 libssh2-1 libmbedtls14 libmbedx509-1 libmbedcrypto7 libcurl3-gnutls) \
    > "$scratch/said" 2>&1 || wrong 'the packages of Debian 12 are not there'
for package in "$scratch"/packages/*.deb; do
    dpkg -x "$package" "$scratch/root"
done
export PATH="$scratch/root/usr/bin:$PATH" CARGO_HOME="$scratch/home"
libraries=$scratch/root/usr/lib/$(dpkg-architecture -q DEB_HOST_MULTIARCH)
wanted=$(sed -n 's/^rust-version = "\(.*\)"$/\1/p' "$top/rust/Cargo.toml")
LD_LIBRARY_PATH=$libraries rustc --version > "$scratch/said" 2>&1 || wrong 'rustc does not run'
grep -q "^rustc $wanted\." "$scratch/said" || wrong "rust/Cargo.toml wants rustc $wanted, and this is another"

mkdir -p "$scratch/tree/crates" "$scratch/tree/tests"
cp -R "$top/rust" "$top/generated" "$top/c" "$top/include" "$scratch/tree"
rm -rf "$scratch/tree/rust/target"
cp -R "$top/crates/hidreport_main" "$scratch/tree/crates"
cp -R "$top/tests/hidreport_cases" "$scratch/tree/tests"
cd "$scratch/tree/rust"
try() {
    rm -rf target
    CC=$1 LD_LIBRARY_PATH=$libraries cargo test --offline --locked > "$scratch/said" 2>&1 ||
        wrong "CC=$1: the tests fail"
    [ "$(grep -c '^test result: ok' "$scratch/said")" -eq 6 ] || wrong "CC=$1: other tests than six kinds"
    [ "$(grep -c '^test .* ok$' "$scratch/said")" -ge 18 ] || wrong "CC=$1: fewer tests"
    asked=$((asked + 5))
}
for compiler in cc 'env gcc' 'ccache gcc'; do
    if command -v "${compiler%% *}" > /dev/null; then
        try "$compiler"
    else
        echo "oldest_cargo: no \`${compiler%% *}\` on the path, so \`$compiler\` is not tried"
    fi
done

# For Windows, of generated/portable/hidreport.c.
linker=x86_64-w64-mingw32-gcc
if command -v "$linker" > /dev/null && command -v wine > /dev/null; then
    rm -rf target
    CARGO_TARGET_X86_64_PC_WINDOWS_GNU_LINKER=$linker \
        CARGO_TARGET_X86_64_PC_WINDOWS_GNU_RUNNER=wine WINEDEBUG=-all WINEPREFIX=$scratch/wine \
        LD_LIBRARY_PATH=$libraries \
        cargo test --offline --locked --target x86_64-pc-windows-gnu --lib --test recorded > "$scratch/said" 2>&1 ||
        wrong 'for Windows the tests fail'
    tr -d '\r' < "$scratch/said" | grep -c '^test .* ok$' > "$scratch/windows"
    [ "$(cat "$scratch/windows")" -ge 13 ] || wrong 'for Windows there are fewer tests'
    echo "oldest_cargo: $(cat "$scratch/windows") tests pass for x86_64-pc-windows-gnu, by wine"
else
    echo 'oldest_cargo: no mingw-w64 or no wine on the path, so Windows is not tried'
fi
echo "oldest_cargo: $asked answers by rustc $wanted"
