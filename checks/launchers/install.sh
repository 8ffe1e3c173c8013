#!/bin/bash
# What ./install and `make install` put into an empty folder: just the files that the head of ./install
# tells of, each compared with what it is made of, with modes that no umask changes, in folders with odd
# names and where a distribution has them; of a part alone its own; the same where it was put before. In a
# copy of what they read, with stand-ins in generated/, and for `rt` where that is stale. It takes seconds,
# and leaves nothing behind.
set -euo pipefail
export LC_ALL=C

top=$(cd "$(dirname "$0")/../.." && pwd)
scratch=$(mktemp -d)
trap 'rm -rf "$scratch"' EXIT
copy="$scratch/copy"
answers=0
: > "$scratch/out"

processor=$(cc -dumpmachine)
made="$copy/generated/${processor%%-*}-linux"
mkdir -p "$copy/checks/common" "$copy/crates" "$made" "$scratch/bin" "$scratch/rust"
cp -R "$top"/{install,Makefile,tools,crates.txt,c,include,share} "$copy"
cp "$top/checks/common/needs.sh" "$copy/checks/common"
cp "$top/generated/heap.c" "$top/generated/programs.c" "$copy/generated"
(cd "$top/crates" && cp -R --parents ./*/src "$copy/crates")
(cd "$top/rust" && find . -type f -not -path './target/*' -not -path './tests/*' -not -name Cargo.lock \
    -exec cp --parents -t "$scratch/rust" {} +)
# What cargo leaves, and a version that isn't the header's: neither is installed.
cp -R "$scratch/rust" "$copy/rust"
mkdir "$copy/rust/target"
touch "$copy/rust/target/made" "$copy/rust/Cargo.lock"
sed -i 's/^version = .*/version = "0.0.0"/' "$copy/rust/Cargo.toml"

# An object that has a mark, as cc makes it by the words behind that.
object() {
    echo "const char hidreport_mark[] = \"mark: $1\"; int main(void) { return 0; }" |
        cc -x c -fPIC "${@:2}" -
}
# An archive of such an object.
archive() {
    object "$2" -c -o "$scratch/library.o"
    ar rc "$1" "$scratch/library.o"
}
object generated -S -o "$made/hidreport.s"
archive "$scratch/proved.a" proved
archive "$scratch/given.a" given
for program in hid hidreport; do
    object "generated $program" -c -o "$scratch/program.o"
    gzip -c "$scratch/program.o" > "$made/$program.o.gz"
    object "proved $program" -o "$scratch/proved_$program"
done

wrong() {
    echo "install: $1" >&2
    cat "$scratch/out" >&2
    exit 1
}

number() {
    awk -v name="HIDREPORT_VERSION_$1" '$1 == "#define" && $2 == name { print $3 }' \
        "$top/include/hidreport.h"
}
version="$(number MAJOR).$(number MINOR).$(number PATCH)-$(number STAGE)"

# From now on generated/ is made of these sources, or of others.
fresh() {
    local part
    echo "version: $version"
    for part in library hid hidreport; do
        sum=$(sh "$copy/tools/program.sh" code "$part")
        [ "$1" = yes ] || sum=other
        [ "$part" = library ] && echo "sources: $sum" || echo "code of $part: $sum"
    done
}

cat > "$scratch/bin/rt" << STUB
#!/bin/bash
crate=\${PWD##*/}
echo "\$1 \$crate" >> "$scratch/built"
[ ! -e "$scratch/fails" ] || { echo 'what rt said of it'; exit 1; }
mkdir -p out
case \$1 in
    lib) cp "$scratch/proved.a" out/libhidreport_c.a ;;
    run) cp "$scratch/proved_\${crate%_main}" "out/\$crate" ;;
esac
STUB
chmod +x "$scratch/bin/rt"
# A path without `rt`.
nothing=$scratch/nothing
mkdir "$nothing"
for folder in ${PATH//:/ }; do
    ln -sf "$folder"/* "$nothing/" 2> /dev/null || true
done
rm -f "$nothing/rt"
path=$nothing

# A call of ./install in the copy, from the scratch folder; the status that is wanted, and what it
# says last.
call() {
    local wanted=$1 says=$2 status=0
    shift 2
    : > "$scratch/built"
    (cd "$scratch" && umask 077 && PATH=$path "$copy/install" "$@") > "$scratch/out" 2>&1 || status=$?
    [ "$status" -eq "$wanted" ] || wrong "./install $*: status $status in place of $wanted"
    [ "$(tail -n 1 "$scratch/out")" = "$says" ] || wrong "./install $*: doesn't say '$says'"
    answers=$((answers + 1))
}

# The files that are wanted, made by other means: the tree's own, but for those that are built.
last="install: hidreport $version is in"
wanted_c() {
    mkdir -p "$1/include" "$1/lib/pkgconfig" "$1/share/hidreport" "$1/share/man/man3"
    cp "$top/include/hidreport.h" "$1/include"
    cp -R "$scratch/rust" "$1/share/hidreport/rust"
    for file in a so so.0 so.$version; do
        echo "mark: $2" > "$1/lib/libhidreport.$file"
    done
    cat > "$1/lib/pkgconfig/hidreport.pc" << END
libdir=\${pcfiledir}/..
includedir=\${pcfiledir}/../../include

Name: hidreport
Description: HID report descriptors read, values taken from reports and written to them
Version: $version
Cflags: -I\${includedir}
Libs: -L\${libdir} -lhidreport
END
    awk -v version="$version" -f "$top/c/man_page.awk" "$top/include/hidreport.h" \
        > "$1/share/man/man3/hidreport.3"
}
wanted_programs() {
    local shells='bash-completion/completions zsh/site-functions fish/vendor_completions.d' shell
    mkdir -p "$1/bin" "$1/share/man/man1"
    for shell in $shells; do
        mkdir -p "$1/share/$shell"
        cp "$top/share/$shell"/* "$1/share/$shell"
    done
    for program in hid hidreport; do
        echo "mark: $2 $program" > "$1/bin/$program"
        cp "$top/share/man/man1/$program.1" "$1/share/man/man1"
    done
}

# What is in a folder is what is in another: names and contents. Of what is built its mark is compared.
# Everyone may read all, and run the programs alone.
is_whole() {
    local prefix=$1 wanted=$2 file mark
    rm -rf "$scratch/shown"
    cp -RL "$prefix" "$scratch/shown"
    for file in "$scratch"/shown/lib/lib* "$scratch"/shown/bin/*; do
        if [ -e "$file" ]; then
            mark=$(grep -aoE 'mark: [a-z]+( hid(report)?)?' "$file" || true)
            echo "$mark" > "$file"
        fi
    done
    diff -r "$wanted" "$scratch/shown" >> "$scratch/out" || wrong "$prefix has other files"
    has_modes "$prefix"
    answers=$((answers + $(find "$wanted" -type f | wc -l)))
}
has_modes() {
    find "$1" -type d -not -perm 755 -o -type f -not -path '*/bin/*' -not -perm 644 \
        -o -path '*/bin/*' -not -perm 755 > "$scratch/modes"
    [ ! -s "$scratch/modes" ] || wrong "other modes: $(head -n 3 "$scratch/modes")"
}

fresh yes > "$copy/generated/SOURCES"
wanted_c "$scratch/of_c" generated
wanted_c "$scratch/of_given" given
wanted_programs "$scratch/of_programs" generated
cp -R "$scratch/of_c" "$scratch/whole"
cp -R "$scratch/of_programs/." "$scratch/whole"
wanted_c "$scratch/of_proved" proved
wanted_programs "$scratch/of_proved" proved

for name in 'a prefix' "an odd'pre\"fix\$(x)&#%"; do
    call 0 "$last $name" "$name"
    is_whole "$scratch/$name" "$scratch/whole"
done
call 0 "$last c" c c
is_whole "$scratch/c" "$scratch/of_c"
call 0 "$last $scratch/programs" "$scratch/programs" programs
is_whole "$scratch/programs" "$scratch/of_programs"
HIDREPORT_ARCHIVE="$scratch/given.a" call 0 "$last given" given c
is_whole "$scratch/given" "$scratch/of_given"
# With `rt` the same, which it isn't asked for; where generated/ is stale it proves each part, else refused.
path=$scratch/bin:$nothing
call 0 "$last with_rt" with_rt
is_whole "$scratch/with_rt" "$scratch/whole"
[ ! -s "$scratch/built" ] || wrong 'what generated/ has is proved once more'
fresh no > "$copy/generated/SOURCES"
call 0 "$last proved" proved
is_whole "$scratch/proved" "$scratch/of_proved"
[ "$(sort "$scratch/built" | tr '\n' ' ')" = 'lib hidreport_c run hid run hidreport_main ' ] ||
    wrong 'other crates were proved'
: > "$scratch/fails"
call 1 'install: the library was not built' none
grep -qxF 'what rt said of it' "$scratch/out" || wrong 'what rt said is not shown'
call 1 'install: hidreport was not proved' none programs
path=$nothing
call 1 'install: what is stale the toolchain proves, and no `rt` is on the path' none
[ -z "$(find "$scratch/none" -type f)" ] || wrong 'a refused call leaves files'
fresh yes > "$copy/generated/SOURCES"
answers=$((answers + 4))

# Over what an older one put: the folder of the cargo package is its own. A link that has the name of no
# file of ours is left alone, and what it leads to.
echo old | tee "$scratch/a prefix/share/hidreport/rust/src/old.rs" "$scratch/a prefix/bin/hid" \
    "$scratch/own" > "$scratch/a prefix/lib/pkgconfig/hidreport.pc"
ln -s "$scratch/own" "$scratch/a prefix/.room"
call 0 "$last a prefix" 'a prefix'
rm -f "$scratch/a prefix/.room"
is_whole "$scratch/a prefix" "$scratch/whole"
[ "$(cat "$scratch/own")" = old ] || wrong 'a file that a link leads to is emptied'

# By `make`, below DESTDIR, as a distribution has it: the folders of the library are named in its file for
# pkg-config, and all else is the same.
root="$scratch/a 'root'\""
(umask 077 && make -s -C "$copy" install DESTDIR="$root" PREFIX=/usr LIBDIR=/usr/lib/of_processor \
    INCLUDEDIR=/usr/include/of_it) > "$scratch/out" 2>&1 || wrong 'make install fails'
grep -qxF 'libdir=/usr/lib/of_processor' "$root/usr/lib/of_processor/pkgconfig/hidreport.pc" &&
    grep -qxF 'includedir=/usr/include/of_it' "$root/usr/lib/of_processor/pkgconfig/hidreport.pc" ||
    wrong 'hidreport.pc has other folders'
has_modes "$root"
for folder in lib/of_processor include/of_it; do
    mv "$root/usr/$folder"/* "$root/usr/${folder%/*}" && rmdir "$root/usr/$folder"
done
cp "$scratch/whole/lib/pkgconfig/hidreport.pc" "$root/usr/lib/pkgconfig"
is_whole "$root/usr" "$scratch/whole"
answers=$((answers + 3))

# What its head and docs/C.md tell of is there, and nothing else.
told() {
    grep -oE '(bin|include|lib|share)(/[a-z0-9_.-]+)+[a-z0-9]' | sort -u
}
head=$(sed -n '/^set -eu/q; s/^# //p' "$top/install" | told)
while IFS= read -r file; do
    while [ "$file" != . ] && ! grep -qxF "$file" <<< "$head"; do
        file=$(dirname "$file")
    done
    [ "$file" != . ] || wrong 'the head of ./install tells nothing of a file that is installed'
    echo "$file"
done < <(cd "$scratch/whole" && find . -type f -printf '%P\n' | sed "s/\.so\.[0-9.-]*$/.so/") |
    sort -u > "$scratch/installed"
diff "$scratch/installed" - <<< "$head" >> "$scratch/out" ||
    wrong 'the head of ./install tells of other files'
of_c=$(sed -n '/^PREFIX then has/,/^$/p' "$top/docs/C.md" | told)
[ "$of_c" = "$(grep -E '^(include|lib|share/(hidreport|man/man3))/?' <<< "$head")" ] ||
    wrong 'docs/C.md tells of other files'
of_programs=$(tr '\n' ' ' < "$top/docs/HID.md" |
    grep -oE '`./install PREFIX programs` ([^.]|\.[^ ])*\. ')
programs_head=$(grep -E '^(bin|share/(man/man1|bash-|zsh|fish))' <<< "$head")
[ "$(told <<< "$of_programs")" = "$programs_head" ] ||
    wrong 'docs/HID.md tells of other files'
answers=$((answers + 3))

# Refusals, which leave nothing.
usage='usage: ./install PREFIX [c | programs]'
call 2 "$usage"
call 2 "$usage" none all
call 2 "$usage" none c programs
call 2 "$usage" none ''
call 2 "install: the folder $scratch/out/none can't be written" "$scratch/out/none"
for command in cc ar make gzip; do
    mv "$nothing/$command" "$scratch/hidden"
    call 2 "install: no \`$command\` on the path (Debian: apt-get install gcc libc6-dev make gzip)" none
    mv "$scratch/hidden" "$nothing/$command"
done
[ -z "$(find "$scratch/none" -type f)" ] || wrong 'a refused call leaves files'
echo "install: $answers answers"
