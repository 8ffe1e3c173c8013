# Machines without a tool, or of another kind: read by launcher.sh. What is missing is said, in a line.

hint='(Debian: apt-get install gcc libc6-dev make gzip)'
sed -i "s/^code of hidreport: .*/code of hidreport: $(sh "$copy/tools/program.sh" code hidreport)/" \
    "$copy/generated/SOURCES"
# (Beside it stands what `make` says of the same.)
for line in make:1 gzip:2 cc:3; do
    command=${line%:*}
    less rt "$command"
    call 0
    shows "without $command" 2 '' 0 "${line#*:}"
    says "without $command" "hidreport: no \`$command\` on the path"
    says "without $command" "$hint"
done
less rt flock
call 0
shows 'without flock' 0 'linked: <0>' 0 1
rm -rf "$copy/build"

# Another processor; and a linker that fails, whose own words are shown.
less rt cc
printf '#!/bin/sh\necho riscv64-linux-gnu\n' > "$path/cc"
chmod +x "$path/cc"
call 0
says 'another processor' 'hidreport: generated/ has no program for the processor riscv64'
[ "$status" -eq 2 ] || wrong 'another processor'
less rt cc
printf '#!/bin/sh\n[ "$1" != -dumpmachine ] || exec %s "$@"\necho "ld: no such symbol" >&2\nexit 1\n' \
    "$(command -v cc)" > "$path/cc"
chmod +x "$path/cc"
call 0
says 'a linker that fails' 'ld: no such symbol'
says 'a linker that fails' "hidreport: the program isn't linked: cc says above why"
[ "$status-$(cat "$scratch/out")" = 2- ] || wrong 'a linker that fails'
# A folder that can't be written. (Root may write everywhere but into a file.)
rm -rf "$copy/build"
: > "$copy/build"
path=$PATH
call 0
[ "$status-$(cat "$scratch/out")" = 2- ] || wrong "a folder that can't be written"
says "a folder that can't be written" "hidreport: the folder build can't be written"
rm "$copy/build"
answers=$((answers + 3))

# By the kit's own rt, once: a changed source gives a program that isn't proved, and it runs.
if command -v rt > /dev/null; then
    cp "$top/HANDLES" "$copy"
    for crate in $(sh "$copy/tools/program.sh" crates hidreport); do
        for part in src specs proofs; do
            [ ! -d "$top/crates/$crate/$part" ] || cp -R "$top/crates/$crate/$part" "$copy/crates/$crate"
        done
    done
    cp "$top/crates.txt" "$copy"
    sed -i 's/^code of hidreport: .*/code of hidreport: none/' "$copy/generated/SOURCES"
    data=$top/crates/hidreport_main/data
    call values "$data/mouse.rdesc" "$data/mouse.report"
    shows "by the kit's rt" 0 $'report -- 16\n0..8 variable 00010030 5\n8..16 variable 00010031 -5' 0 2
else
    echo "launcher: no \`rt\` on the path, so the kit's own isn't called"
fi
