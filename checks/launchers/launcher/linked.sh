# A program that generated/ has of these sources is linked by the first call, and run: read by launcher.sh.

for called in hid hidreport; do
    rm -rf "$copy/build/$called"* "$copy/build/run/$called"*
    { TIMEFORMAT='%3U %3S' && time call 0 x; } 2> "$scratch/took"
    # (In processor time, for other work may stand beside.)
    awk '{ spent = $1 + $2 } END { exit !(NR == 1 && spent < 2) }' "$scratch/took" ||
        wrong "the first output comes late: $(cat "$scratch/took")"
    shows 'the first call' 0 'linked: <0> <x>' 0 1
    says 'the first call' \
        "$called: linked from generated/, which a-kit made of these sources once they were proved"
    call 0 'y z'
    shows 'the second call' 0 'linked: <0> <y z>' 0 0
done
# Words, and the status, are as they are; a file reaches the program open where its name isn't UTF-8.
call 7 ' *  ' '' $'a\nb' '\' '$x'
shows 'odd words' 7 $'linked: <7> < *  > <> <a\nb> <\\> <$x>' 0 0
call
shows 'no words' 0 'linked:' 0 0
call --prove
shows "a word of the program's" 0 'linked: <--prove>' 0 0
odd=$scratch/$'a\351'
echo 05 > "$odd"
call 0 "$odd" "${odd}b" x "$odd"
shows "names that aren't UTF-8" 0 $'linked: <0> </dev/fd/9> <'"${odd}b"'> <x> </dev/fd/8>' 0 2
says "names that aren't UTF-8" "hidreport: a file whose name isn't UTF-8 is read as /dev/fd/9"
# From a link, another folder, and with a setting of make about.
ln -s "$copy/hid" "$scratch/linked"
(cd / && MAKEFLAGS=n BUILD=elsewhere "$scratch/linked" 3 > "$scratch/out" 2> "$scratch/errors") || status=$?
shows 'by a link' 3 'linked: <3>' 0 0
# No more than a call of make, which compiles nothing, and less than 80 lines of shell.
lines=$(cat "$top/hid" "$top/hidreport" "$top/tools/launch.sh" | wc -l)
[ "$lines" -lt 80 ] || wrong "the launchers have $lines lines"
# What a linked program is made of is noticed; without build/ it is linked once more.
echo >> "$copy/generated/programs.c"
before=$(stat -c %Y.%i "$copy/build/hidreport")
call 0
shows 'a changed file of generated/' 0 'linked: <0>' 0 0
[ "$(stat -c %Y.%i "$copy/build/hidreport")" != "$before" ] || wrong "a changed file isn't noticed"
rm -r "$copy/build"
call 0
shows 'without build/' 0 'linked: <0>' 0 1

# Two first calls at once: both run the program, one of them having linked it.
for round in 1 2 3 4 5 6 7 8; do
    rm -rf "$copy/build"
    pids=()
    for number in 1 2; do
        "$copy/hid" 0 > "$scratch/out$number" 2> "$scratch/errors$number" &
        pids+=($!)
    done
    for pid in "${pids[@]}"; do
        wait "$pid" || wrong "round $round: one of two first calls is refused: $(cat "$scratch"/errors[12])"
    done
    [ "$(cat "$scratch"/out[12])" = 'linked: <0>linked: <0>' ] || wrong "round $round: another output"
    # (Where linking takes more than two seconds, the other says besides that it waits.)
    [ "$(cat "$scratch"/errors[12] | grep -c 'linked from')" -eq 1 ] || wrong "round $round: both link"
    answers=$((answers + 1))
done
# While one runs another may be made.
: > "$scratch/waits"
"$copy/hid" wait "$scratch/waits" > "$scratch/running" 2>&1 &
await '^linked: <wait>' "$scratch/running"
flock -n "$copy/Makefile" true || wrong 'a program that runs keeps the lock'
rm "$scratch/waits"
wait $! || true
answers=$((answers + 1))
