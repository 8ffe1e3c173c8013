#!/bin/bash
# samples.sh HID HIDREPORT: the samples of README.md, docs/ and the pages of man, runs of the two
# programs: what each writes is what stands below its line `$ ..`, down to the next or to the end of
# the block. A block may begin with `$ cd FOLDER`; those of docs/HID.md and hid.1 lie in
# crates/hid/data, those of hidreport.1 in crates/hidreport_main/data. A remark behind a line
# says bytes that are on its standard input. Of the other programs (`rt run`) what stands below is
# the beginning of the output that is stored beside them, `..` standing for what is left out;
# `./values` of docs/C.md writes what `hidreport values` does, without its first line and the kinds.
set -euo pipefail
export LC_ALL=C

top=$(cd "$(dirname "$0")/../.." && pwd)
hid=$(readlink -f "${1:-$top/build/run/hid}")
hidreport=$(readlink -f "${2:-$top/build/run/hidreport}")
for program in "$hid" "$hidreport"; do
    [ -x "$program" ] || {
        echo "samples: no program $program" >&2
        exit 2
    }
done
scratch=$(mktemp -d)
trap 'rm -rf "$scratch"' EXIT
copy="$scratch/copy"
answers=0

# The data where the samples look for it, with the programs under their launchers' names.
mkdir -p "$copy/crates/hid" "$copy/crates/hidreport_main"
cp -R "$top/crates/hid/data" "$copy/crates/hid"
cp -R "$top/crates/hidreport_main/data" "$copy/crates/hidreport_main"
for folder in "$copy" "$copy/crates/hid/data" "$copy/crates/hidreport_main/data"; do
    ln -s "$hid" "$folder/hid"
    ln -s "$hidreport" "$folder/hidreport"
done

wrong() {
    echo "samples: $1" >&2
    exit 1
}

# Parts a text's samples: of each NAME, with what stands below it, NAME.line and NAME.folder.
gather() {
    awk -v to="$scratch/samples/" -v from="$2" -v text="${1##*/}" '
        /^```/ { within = !within; folder = from; file = ""; next }
        !within { next }
        /^\$ cd [^ ]*$/ { folder = $3; file = ""; next }
        /^\$ / {
            file = sprintf("%s%s_%03d", to, text, FNR)
            printf "" > file
            print substr($0, 3) > (file ".line")
            print folder > (file ".folder")
            next
        }
        file != "" { print > file }' "$1"
}

# The examples of a page of man as blocks of a text; they call programs that are installed.
blocks() {
    sed -n '/^\.SH EXAMPLES$/,/^\.SH SEE/p' "$1" |
        sed 's/\\-/-/g; s/\\(aq/'\''/g; s/\\e/\\/g; s/^\.[nf][fi]$/```/; s/^\$ hid/$ .\/hid/'
}

# Whether an output begins as a sample: ` .. ` and `..` at a line's end stand for a part of it that
# is left out, a line `..` for lines.
begins_as() {
    local output=$1 wanted=$2 line got skips=no
    while IFS= read -r line <&3; do
        [ "$line" != .. ] || { skips=yes && continue; }
        line=${line// .. / * }
        case $line in *..) line="${line%..}*" ;; esac
        while :; do
            IFS= read -r got <&4 || return 1
            # shellcheck disable=SC2053
            [[ $got != $line ]] || break
            [ "$skips" = yes ] || return 1
        done
        skips=no
    done 3< "$wanted" 4< "$output"
}

# A run of `hid` or `hidreport`: its standard input from the remark, its standard output as it is
# below, where sed's commands have changed it.
run() {
    local sample=$1 changes=${2-} line bytes='' words=() folder
    line=$(< "$sample.line")
    folder="$copy/$(< "$sample.folder")"
    case $line in
        *' # with '*' on the standard input')
            bytes=${line##*# with }
            bytes=${bytes% on the standard input}
            line=${line%%#*}
            ;;
    esac
    eval "words=($line)"
    (cd "$folder" && "${words[@]}" <<< "$bytes") > "$scratch/output" 2> "$scratch/errors" ||
        [ $? -eq 1 ] ||
        wrong "${sample##*/}: $line: $(cat "$scratch/errors")"
    sed "$changes" "$scratch/output" | diff "$sample" - > "$scratch/differing" || {
        cat "$scratch/differing" >&2
        wrong "${sample##*/}: $line: another output than below it"
    }
}

# A run of another program: its words are those that are stored, and its output begins as that.
stored() {
    local sample=$1 line crate words
    line=$(< "$sample.line")
    crate=${line#cd }
    crate=$top/${crate%% *}
    words=''
    [ ! -f "$crate/args" ] || words=$(tr '\n' ' ' < "$crate/args")
    [ "$(sed 's/.*rt run//; s/^ -- //; s/ < stdin$//; s,data/,,g' <<< "$line")" = "${words% }" ] ||
        wrong "${sample##*/}: other words than those of ${crate##*/}/args"
    sed -i 's,^data/,,' "$sample"
    begins_as "$crate/stdout" "$sample" ||
        wrong "${sample##*/}: another beginning than that of ${crate##*/}/stdout"
}

mkdir "$scratch/samples"
for text in "$top"/README.md "$top"/docs/*.md; do
    case $text in
        */HID.md) gather "$text" crates/hid/data ;;
        *) gather "$text" . ;;
    esac
done
for page in hid hidreport; do
    blocks "$top/share/man/man1/$page.1" > "$scratch/$page.1"
done
gather "$scratch/hid.1" crates/hid/data
gather "$scratch/hidreport.1" crates/hidreport_main/data
for sample in "$scratch"/samples/*.line; do
    sample=${sample%.line}
    line=$(< "$sample.line")
    [ "${line#sudo ./values }" = "$line" ] || continue
    [ -s "$sample" ] || wrong "${sample##*/}: nothing stands below it"
    case $line in
        *hid' '* | *hidreport' '*) run "$sample" ;;
        './values '*)
            sed -i 's,^./,./hidreport ,' "$sample.line"
            run "$sample" '1d; s/ variable / /'
            ;;
        'cd crates/'*'rt run'*) stored "$sample" ;;
        *) wrong "${sample##*/}: $line: no run of a program that is known" ;;
    esac
    answers=$((answers + 1))
done
begun=$(cat "$top"/README.md "$top"/docs/*.md "$top"/share/man/man1/*.1 | grep '^\$ ' |
    grep -cvE '^\$ (cd [^ ]*|sudo .*)$')
[ "$answers" -eq "$begun" ] || wrong "$answers of $begun lines that begin with \$ stand in blocks"
echo "samples: $answers runs of README.md, docs/ and the pages of man as they are written"
