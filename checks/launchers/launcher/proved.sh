# What `make prove` and the gate tell of a program that rt has proved: read by launcher.sh.

path=$scratch/bin:$PATH
program() {
    PATH=$path sh "$copy/tools/program.sh" "$@" > "$scratch/out" 2> "$scratch/errors"
}
echo >> "$copy/crates/hid/src/main.rt"
called=hid
: > "$scratch/calls"
PATH=$path make -s -C "$copy" prove-hid > "$scratch/out" 2> "$scratch/errors" || wrong 'a proof'
[ "$(cat "$scratch/calls")" = 'run hid' ] || wrong 'a proof is another call of rt'
call 3 x
shows 'a program that was proved' 3 'proved: <3> <x>' 0 0
echo >> "$copy/crates/hid/src/main.rt"
call 0
shows 'a source that was changed behind the proof' 0 'tried: <0>' 1 2
# A proof that fails, and one beside an edit, are none.
: > "$scratch/fails"
! PATH=$path make -s -C "$copy" prove-hid > "$scratch/out" 2> "$scratch/errors" || wrong 'a proof that fails'
says 'a proof that fails' "hid: it isn't proved"
says 'a proof that fails' 'what rt said of it'
rm "$scratch/fails"
# The gate proves by itself, and says of which sources.
program sources hid
sources=$(cat "$scratch/out")
mkdir -p "$copy/crates/hid/out"
cp "$scratch/proved" "$copy/crates/hid/out/hid"
program proved hid "$sources" || wrong 'what the gate proved'
call 0
shows 'a call behind the gate' 0 'proved: <0>' 0 0
for file in crates/hid/src/main.rt crates/hidreport/specs/"$(ls "$copy/crates/hidreport/specs" | head -n 1)" \
    crates.txt; do
    echo >> "$copy/$file"
    ! program proved hid "$sources" || wrong "another $file isn't noticed"
    says "another $file" 'hid: the sources changed while they were proved'
    program sources hid
    sources=$(cat "$scratch/out")
done
call 0
shows 'a call behind that' 0 'tried: <0>' 1 2
# Where generated/ has the same it is linked, in place of what was proved.
program proved hid "$sources" || wrong 'what the gate proved once more'
sed -i "s/^code of hid: .*/code of hid: $(sh "$copy/tools/program.sh" code hid)/" "$copy/generated/SOURCES"
call 0
shows 'generated/ has what was proved' 0 'linked: <0>' 0 1
answers=$((answers + 6))
