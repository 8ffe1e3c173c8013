#!/bin/bash
# What `dpkg-buildpackage` makes of the tree by debian/: three packages, without an error of lintian, that
# have all that `make install` puts, hardened; installed into a clean root by dpkg, where the programs run,
# and a program in C and a cargo package are built from what is there; removed again they leave nothing.
# It is no part of the gate: it is run before a version gets its number, on Debian (apt-get install
# dpkg-dev debhelper lintian fakeroot), in a minute. Leaves nothing behind.
set -euo pipefail
export LC_ALL=C

top=$(cd "$(dirname "$0")/../.." && pwd)
scratch=$(mktemp -d)
trap 'rm -rf "$scratch"' EXIT
asked=0
packages=(hidreport libhidreport-dev libhidreport0)
: > "$scratch/said"

wrong() {
    tail -n 20 "$scratch/said" >&2
    echo "debian: $1" >&2
    exit 1
}
for command in dpkg-buildpackage dh lintian fakeroot pkg-config; do
    command -v "$command" > /dev/null || wrong "no \`$command\` on the path"
done
is() {
    asked=$((asked + 1))
    [ "$2" = "$3" ] || wrong "$1: wanted '$2', got '$3'"
}

tree=$scratch/hidreport
mkdir "$tree"
(cd "$top" && git ls-files -z | xargs -0 cp -P --parents -t "$tree" --)
(cd "$tree" && dpkg-buildpackage -us -uc -b) > "$scratch/said" 2>&1 || wrong 'nothing is built'
cd "$scratch"
is 'the packages' "${packages[*]}" \
    "$(for file in *.deb; do echo "${file%%_*}"; done | grep -v dbgsym | xargs)"
lintian --fail-on error ./*.changes > said 2>&1 || wrong 'lintian finds errors'
is 'errors of lintian' 0 "$(grep -c '^E:' said || true)"

# All that is installed is in one package: but that pages are packed, and zsh's files lie elsewhere.
multiarch=$(dpkg-architecture -q DEB_HOST_MULTIARCH)
make -s -C "$tree" install DESTDIR="$scratch/installed" PREFIX=/usr LIBDIR="/usr/lib/$multiarch" > said 2>&1
for package in "${packages[@]}"; do
    dpkg-deb --fsys-tarfile "${package}"_*.deb | tar -t | grep -v '/$'
done | sed 's,^\./,,; /^usr\/share\/doc\//d; s/\.\([13]\)\.gz$/.\1/' | sort > packed
(cd installed && find usr -not -type d) | sed 's,zsh/site-functions,zsh/vendor-completions,' | sort > wanted
diff wanted packed > said || wrong 'the packages have other files than are installed'
is 'as many files' "$(wc -l < wanted)" "$(sort -u packed | wc -l)"

# A root that has Debian's C library and nothing else.
root=$scratch/root
mkdir -p "$root/var/lib/dpkg/info" "$root/var/lib/dpkg/updates" "$root/tmp"
dpkg-query -s libc6 | sed '/^Conffiles:/,/^[A-Z]/{/^Conffiles:/d;/^ /d}' \
    > "$root/var/lib/dpkg/status"
in_root() {
    fakeroot dpkg --root="$root" --force-not-root --log="$scratch/log" "$@" > said 2>&1
}
! in_root --install libhidreport-dev_*.deb || wrong 'headers are installed without their library'
is 'a package by itself' 1 "$(grep -c 'depends on libhidreport0' said)"
in_root --purge libhidreport-dev || wrong 'libhidreport-dev is not removed'
in_root --install hidreport_*.deb libhidreport-dev_*.deb libhidreport0_*.deb ||
    wrong 'the packages are not installed'
is 'installed' "${packages[*]}" "$(dpkg-query --admindir="$root/var/lib/dpkg" -W \
    -f '${db:Status-Status} ${Package}\n' | sed -n 's/^installed //p' | grep -vx libc6 | xargs)"

# Hardened: all names are found at the start, and then can't be written; programs lie anywhere.
library=$root/usr/lib/$multiarch
for file in "$root/usr/bin/hid" "$root/usr/bin/hidreport" "$library/libhidreport.so.0"; do
    is "$file: BIND_NOW" 1 "$(readelf -dW "$file" | grep -c 'BIND_NOW')"
    is "$file: RELRO" 1 "$(readelf -lW "$file" | grep -c 'GNU_RELRO')"
    is "$file: DYN" 1 "$(readelf -hW "$file" | grep -c 'Type: *DYN')"
    is "$file: a stack that runs" 0 "$(readelf -lW "$file" | grep 'GNU_STACK' | grep -c ' RWE ' || true)"
done

# The programs, by the root's own loader.
loader=$(ldd "$root/usr/bin/hid" | sed -n 's,^[ \t]*\(/[^ ]*ld-linux[^ ]*\) .*,\1,p')
libc=$(ldd "$root/usr/bin/hid" | sed -n 's,.*libc\.so\.6 => \([^ ]*\) .*,\1,p')
mkdir -p "$root${loader%/*}" "$root${libc%/*}"
cp -L "$loader" "$root$loader"
cp -L "$libc" "$root$libc"
data=$top/crates/hidreport_main/data
cp "$data/mouse.rdesc" "$data/mouse.report" "$root/tmp"
version=$(sed -n 's/^#define HIDREPORT_VERSION_[A-Z]* //p' "$top/include/hidreport.h" | paste -sd .)
if [ "$(id -u)" -eq 0 ]; then
    is 'hid' "hid ${version%.*}-${version##*.}" "$(chroot "$root" /usr/bin/hid --version)"
    is 'hidreport' "$(cat "$top/crates/hidreport_main/stdout")" \
        "$(chroot "$root" /usr/bin/hidreport values /tmp/mouse.rdesc /tmp/mouse.report)"
else
    echo 'debian: not root, so the programs are not run in the root'
fi

# A program in C, by pkg-config, linked with the shared library.
export PKG_CONFIG_SYSROOT_DIR="$root" PKG_CONFIG_LIBDIR="$library/pkgconfig"
export PKG_CONFIG_ALLOW_SYSTEM_CFLAGS=1 PKG_CONFIG_ALLOW_SYSTEM_LIBS=1
# shellcheck disable=SC2046
cc -o values "$top/c/values.c" $(pkg-config --cflags --libs hidreport) > said 2>&1 ||
    wrong "a program isn't built by: $(pkg-config --cflags --libs hidreport)"
is 'what a program asks for' libhidreport.so.0 \
    "$(readelf -dW values | sed -n 's/.*NEEDED.*\[\(libhid.*\)\]/\1/p')"
is 'a program in C' $'0..8 00010030 5\n8..16 00010031 -5' \
    "$(LD_LIBRARY_PATH=$library ./values "$data/mouse.rdesc" "$data/mouse.report")"
if command -v cargo > /dev/null; then
    mkdir -p uses/src
    printf '[package]\nname = "uses"\nversion = "0.1.0"\nedition = "2021"\n[dependencies]\n' > uses/Cargo.toml
    echo "hidreport = { package = \"hidreport-proved\", path = \"$root/usr/share/hidreport/rust\" }" \
        >> uses/Cargo.toml
    echo 'fn main() { println!("{}", hidreport::ReportDescriptor::try_from(&[5u8, 1][..]).is_ok()); }' \
        > uses/src/main.rs
    is 'a program in Rust' true "$(cd uses && cargo run -q --offline 2>&1)"
else
    echo 'debian: no `cargo` on the path, so no program in Rust is built'
fi

in_root --purge "${packages[@]}" || wrong 'the packages are not removed'
is 'what is left' '' \
    "$(find "$root" -path "$root/usr/*" -not -type d -not -name 'libc.so*' -not -name 'ld-linux*')"
echo "debian: ${packages[*]}: $asked answers"
