# A changed source is noticed, and the program then built without a proof, which is said: read by launcher.sh.

path=$scratch/bin:$PATH
main=$copy/crates/hidreport_main/src/main.rt
tried=2
note="this program is checked as it runs, not proved: \`make prove-hidreport\` proves it"
echo >> "$main"
call 0 x
shows 'a changed source' 0 'tried: <0> <x>' 1 2
says 'a changed source' 'hidreport: building the program without a proof, in about a minute'
says 'a changed source' "hidreport: $note"
call 5
shows 'the call after that' 5 'tried: <5>' 0 1
says 'the call after that' "$note"

# In each crate of a program, and in none that isn't one of its.
for called in hid hidreport; do
    for crate in $(sh "$copy/tools/program.sh" crates "$called"); do
        echo >> "$(find "$copy/crates/$crate/src" -name '*.rt' | sort | tail -n 1)"
        call 0
        shows "a changed source of $crate" 0 'tried: <0>' 1 $tried
    done
done
echo >> "$copy/crates/hidreport_example/src/lib.rt"
find "$copy/crates/hidreport/specs" -type f -exec sh -c 'echo >> "$1"' sh {} \;
touch "$main"
call 0
shows 'other files, and a time' 0 'tried: <0>' 0 1
# A change of the same size and time, a file that comes, one that goes; then all as it was.
cp -p "$main" "$scratch/kept"
sed 's/auto/otua/' "$scratch/kept" > "$main"
touch -r "$scratch/kept" "$main"
call 0
shows 'a change of the same size and time' 0 'tried: <0>' 1 $tried
echo '//! New.' > "$copy/crates/hidreport_main/src/more.rt"
call 0
shows 'a new file' 0 'tried: <0>' 1 $tried
rm "$copy/crates/hidreport_main/src/more.rt"
call 0
shows 'a removed file' 0 'tried: <0>' 1 $tried
sed -i '/^hidreport_types:/s/$/ hidreport_transfer/' "$copy/crates.txt"
call 0
shows 'the crates are the same' 0 'tried: <0>' 0 1
sed -i '/^hidreport_main:/s/$/ hidreport_example/' "$copy/crates.txt"
call 0
shows 'a crate more' 0 'tried: <0>' 1 $tried

# What is edited while the program is built isn't what was built, so the next call builds it, also where
# the source is again as it was.
for again in no yes; do
    : > "$scratch/slow"
    echo >> "$main"
    cp "$main" "$scratch/kept"
    : > "$scratch/calls"
    PATH=$path "$copy/hidreport" 0 > "$scratch/first" 2>&1 &
    await '^try' "$scratch/calls"
    echo >> "$main"
    rm "$scratch/slow"
    wait $! || wrong 'a build beside an edit'
    [ $again = no ] || cp "$scratch/kept" "$main"
    call 0
    shows "an edit while it was built, as it was: $again" 0 'tried: <0>' 1 $tried
    call 0
    shows 'the call after that' 0 'tried: <0>' 0 1
done

# A call beside a build waits for it, says so, and builds nothing.
: > "$scratch/slow"
echo >> "$main"
: > "$scratch/calls"
PATH=$path "$copy/hidreport" 0 > "$scratch/first" 2>&1 &
await '^try' "$scratch/calls"
{ (await 'waiting for it' "$scratch/errors") || true; rm "$scratch/slow"; } &
call 4
wait
shows 'a call beside a build' 4 'tried: <4>' 0 2
says 'a call beside a build' 'hidreport: another call is building the program; waiting for it'

# A build that fails, and a program that can't be kept: both say it, and leave nothing that is run.
echo >> "$main"
: > "$scratch/fails"
call 0
says 'a build that fails' "hidreport: the program isn't built; all that was said is in build/unproved/"
says 'a build that fails' 'what rt said of it'
[ "$status-$(cat "$scratch/out")" = 2- ] || wrong 'a build that fails'
rm "$scratch/fails"
: > "$scratch/hides"
call 0
says "a program that can't be kept" "hidreport: the program isn't built"
[ "$status-$(cat "$scratch/out")" = 2- ] || wrong "a program that can't be kept"
rm "$scratch/hides"
[ -z "$(find "$copy/build" -name 'trying.*')" ] || wrong 'a folder of a build is left'
call 0
shows 'the call after that' 0 'tried: <0>' 1 $tried
# Without `rt` that is said; where generated/ was made of these sources it is linked again.
path=$PATH
less rt
echo >> "$main"
call 0
shows 'a changed source without rt' 2 '' 0 3
says 'a changed source without rt' 'hidreport: a source has changed since generated/ was made'
sed -i "s/^code of hidreport: .*/code of hidreport: $(sh "$copy/tools/program.sh" code hidreport)/" \
    "$copy/generated/SOURCES"
call 0
shows 'the source of generated/' 0 'linked: <0>' 0 1
answers=$((answers + 3))
