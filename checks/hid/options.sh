#!/bin/bash
# options.sh HID HIDREPORT
# The options of `hid`: those that its help tells of each command, those of its page of man, and those
# that bash, zsh and fish complete are the same, with their values; so are its commands with their
# arguments. docs/HID.md names no other option. Then the commands of `hidreport`, by its usage. It
# needs neither zsh nor fish: in their files each option has a line, with the help's words for what it
# is for.
set -euo pipefail
export LC_ALL=C

top=$(cd "$(dirname "$0")/../.." && pwd)
scratch=$(mktemp -d)
trap 'rm -rf "$scratch"' EXIT
# A program calls itself by its file's name.
cp "$1" "$scratch/hid"
cp "$2" "$scratch/hidreport"
help=$scratch/help
mkdir "$help"
answers=0

# same WHAT ONE OTHER: two lists, a word or a text in each line, whose order is free.
same() {
    local differing
    differing=$(diff <(LC_ALL=C sort -u <<< "$2") <(LC_ALL=C sort -u <<< "$3")) || {
        echo "hid_options: $1:" >&2
        grep '^[<>]' <<< "$differing" >&2
        exit 1
    }
    answers=$((answers + 1))
}

# A page of man as plain lines: a macro of fonts joins its words, `.B` and `.I` keep them.
plain() {
    awk '
        function words(text,    parts, count, i, joined, piece) {
            count = split(text, parts, "\"")
            for (i = 1; i <= count; i++) {
                piece = parts[i]
                if (i % 2) gsub(/ /, "", piece)
                joined = joined piece
            }
            return joined
        }
        { gsub(/\\-/, "-") }
        /^\.(BI|BR|RI|RB|IR|IB) / { print words(substr($0, 5)); next }
        /^\.[BI] / { print substr($0, 4); next }
        { print }' "$top/share/man/man1/$1.1"
}

# The lines of a section; of the entry of a word (behind .TP) in it.
section() {
    sed -n "/^\.SH $1\$/,/^\.SH /p" <<< "$page" | sed '/^\.SH /d'
}
entry() {
    section "$1" | awk -v word="$2" '
        $0 == ".TP" { begins = 1; stands = 0; next }
        begins { begins = 0; stands = $1 == word }
        stands'
}

# The first line of each entry of a section.
entries() {
    section "$1" | sed -n '/^\.TP$/{n;p}'
}

# The options of the section OPTIONS that a command takes: an entry's line `Of ..` names those that take
# it, or behind `all but` those that don't; one without such a line is of all, and of `hid` itself.
taken() {
    section OPTIONS | awk -v command="$1" '
        function end() {
            if (head != "") print head
        }
        $0 == ".TP" { end(); begins = 1; next }
        begins { begins = 0; head = $0; next }
        /^Of .*\.$/ {
            is_but = sub(/^Of all but /, "")
            gsub(/^Of|,|\.| and /, " ")
            is_named = index(" " $0 " ", " " command " ") != 0
            if (command == "hid" || is_but == is_named) head = ""
        }
        END { end() }' | sed -E 's/^(-[a-zA-Z]), (.*) NAME$/\1 VALUE\n\2 VALUE/
        s/^(-[a-zA-Z]), /\1\n/; s/ (N|DIR)$/ VALUE/'
}

# Each option of a text, short ones too.
options() {
    grep -oE -e '(^|[^a-zA-Z0-9-])--?[a-zA-Z][a-z-]*' | grep -oE -e '--?[a-zA-Z][a-z-]*$'
}

# What a text of the help tells of options: `-h`, `--form bytes|hex|..`, `--device VALUE`.
helped() {
    sed -n '/^Options\( of all commands\)\?:$/,/^$/p' "$help/$1" | sed -nE '
        s/^  (-[a-zA-Z]), (--[a-z-]+) <[A-Z]+> .*/\1 VALUE\n\2 VALUE/
        s/^  (-[a-zA-Z]), /\1\n      /
        s/^      (--[a-z-]+) <[A-Z]+> .*\[possible values: ([^]]*)\]$/\1 \2/
        s/^(.*\n)?      (--[a-z-]+) <[A-Z]+> .*/\1\2 VALUE/
        s/^(.*\n)?      (--[a-z-]+) .*/\1\2/
        s/, /|/g
        /^-/p'
}
names() {
    sed 's/ .*//'
}

# The same with what each is for, as `--form bytes|hex|..: WHAT`; the commands, as `decode: WHAT`.
described() {
    sed -n '/^Options\( of all commands\)\?:$/,/^$/p' "$help/$1" | awk '
        !/^ / { next }
        {
            values = / <[A-Z]+> / ? " VALUE" : ""
            if (match($0, /\[possible values: .*\]$/)) {
                values = " " substr($0, RSTART + 18, RLENGTH - 19)
                gsub(/, /, "|", values)
            }
            what = $0
            sub(/ \[(default|possible values): .*/, "", what)
            sub(/.*  /, "", what)
            if ($1 ~ /,$/) print substr($1, 1, 2) values ": " what
            match($0, /--[a-z-]+/)
            print substr($0, RSTART, RLENGTH) values ": " what
        }'
}
described_commands() {
    sed -nE '/^Commands:/,/^$/s/^  ([a-z]+) +(.*)$/\1: \2/p' "$help/help"
}

# What a line of zsh's or fish's file completes: an option, and in zsh's one without a value first.
of_zsh() {
    sed -nE '
        s/^ *"(--?[a-zA-Z-]+)\[([^]]*)\]"( \\)?$/\1: \2/p
        s/^ *"(--?[a-zA-Z-]+)\[([^]]*)\]:[a-z]+:\(([^)]*)\)"$/\1 \3: \2/p
        s/^ *"(--?[a-zA-Z-]+)\[([^]]*)\]:[a-z]+:[^(]*"$/\1 VALUE: \2/p' | barred
}
of_fish() {
    sed -nE '
        s/ -a "\(.*\)"//
        s/^complete -c hid ((-n "[^"]*" )?)(-s ([a-zA-Z]) )?-l ([a-z-]+) (.*)$/\5 \6\n\4 \6/
        s/\n .*//
        s/(^|\n)([a-z-]+) -x -a "([^"]*)" -d "([^"]*)"/\1--\2 \3: \4/
        s/(^|\n)([a-z-]+) -x -d "([^"]*)"/\1--\2 VALUE: \3/
        s/\n([a-zA-Z]) -x -d "([^"]*)"/\n-\1 VALUE: \2/
        s/^([a-z-]+) -d "([^"]*)"/--\1: \2/
        s/\n([a-zA-Z]) -d "([^"]*)"/\n-\1: \2/
        /^-/p' | barred
}

# Values with bars between them.
barred() {
    awk '{ place = index($0, ": "); option = substr($0, 1, place - 1); name = option
        sub(/ .*/, "", name); values = substr(option, length(name) + 2); gsub(/ /, "|", values)
        print name (values == "" ? "" : " " values) substr($0, place) }'
}

# What zsh's file completes of the lists that several commands take.
shared_of_zsh() {
    local list
    for list in $(sed -nE "s/^ *([a-z]+ \| )*$1( \| [a-z]+)*\) shared=\((.*)\) ;;\$/\3/p" "$zsh"); do
        sed -n "/^${list#\$}=(\$/,/^)\$/p" "$zsh"
    done | of_zsh
}

# The words that bash completes behind others, of which the last is begun.
# shellcheck source=/dev/null
. "$top/share/bash-completion/completions/hid"
# shellcheck source=/dev/null
. "$top/share/bash-completion/completions/hidreport"
completed() {
    COMP_WORDS=("$@")
    COMP_CWORD=$(($# - 1))
    COMPREPLY=()
    "_$1"
    [ ${#COMPREPLY[@]} -eq 0 ] || printf '%s\n' "${COMPREPLY[@]}"
}

# A folder with one file, which is seen among what is completed.
mkdir "$scratch/folder"
cd "$scratch/folder"
: > a_file

# What the program tells of itself and of each command; other words for the same tell no other.
"$scratch/hid" --help > "$help/help"
page=$(plain hid)
of_all=$(helped help)
commands=$(sed -n '/^Commands:/,/^$/s/^  \([a-z]*\) .*/\1/p' "$help/help" | grep -v '^help$')
for command in $commands; do
    "$scratch/hid" "$command" --help > "$help/of_$command"
    same "hid $command -h" "$(< "$help/of_$command")" "$("$scratch/hid" "$command" -h)"
done
for words in -h help; do
    same "hid $words" "$(< "$help/help")" "$("$scratch/hid" $words)"
done
same 'hid without words' "$(< "$help/help")"$'\n2' "$("$scratch/hid" 2>&1 || echo "$?")"
same 'hid -V' "$("$scratch/hid" --version)" "$("$scratch/hid" -V)"
[ "$(wc -l <<< "$commands")" -ge 10 ] && [ "$(wc -l <<< "$of_all")" -ge 8 ] || {
    echo 'hid_options: the help tells of fewer commands or options' >&2
    exit 1
}

# The options of all commands, with their values, in the page of man and by completion.
same 'OPTIONS of hid.1' "$of_all" "$(taken hid)"
same 'what is completed behind hid' "$(names <<< "$of_all")" "$(completed hid -)"
same 'what is completed behind hid alone' "$(names <<< "$of_all"; echo "$commands"; echo help)" \
    "$(completed hid '')"
same 'what is completed behind hid help' "$commands" "$(completed hid help '')"
same 'COMMANDS of hid.1' "$(
    for command in $commands; do
        sed -nE 's/^Usage: hid (.*)/\1/p' "$help/of_$command"
    done | sed -E 's/ \[OPTIONS\]//; s/[<>]//g; s/\]\.\.\./..]/'
    echo 'help [COMMAND]'
)" "$(entries COMMANDS)"

# The same in the files of zsh and fish, with what each is for.
zsh="$top/share/zsh/site-functions/_hid"
fish="$top/share/fish/vendor_completions.d/hid.fish"
same 'commands of zsh' "$(described_commands)" "$(sed -nE 's/^ *"([a-z]+):(.*)"$/\1: \2/p' "$zsh")"
same 'commands of fish' "$(described_commands)" \
    "$(sed -nE 's/^complete -c hid -n "\$none" -a ([a-z]+) -d "(.*)"$/\1: \2/p' "$fish")"
same 'the list of commands of fish' "$commands" \
    "$(sed -n 's/^set -l commands //p' "$fish" | tr ' ' '\n')"
same 'options of all commands of zsh' "$(described help)" \
    "$(sed '/^# Of several/,/^_arguments/d; /^case /,$d' "$zsh" | of_zsh)"
same 'options of all commands of fish' "$(described help)" \
    "$(grep -v '"__fish_seen_subcommand_from ' "$fish" | of_fish)"

told=$of_all
for command in $commands; do
    of_it=$(helped "of_$command")
    same "options of all commands in the help of $command" \
        "$(grep -vxF -e -V -e --version <<< "$of_all")" "$(grep -xF -e "$of_all" <<< "$of_it")"
    own=$(described "of_$command" | grep -vxF -e "$(described help)" || true)
    same "options of $command of zsh" "$own" \
        "$(sed -n "/^ *$command)\$/,/;;\$/p" "$zsh" | of_zsh; shared_of_zsh "$command")"
    same "options of $command of fish" "$own" \
        "$(grep -E "\"__fish_seen_subcommand_from ([a-z]+ )*$command( [a-z]+)*\"" "$fish" | of_fish)"
    own=$(entry COMMANDS "$command" | options || true)
    same "hid.1 of $command" "$of_it" \
        "$(grep -vxF -e -V -e --version <<< "$(taken "$command")"
            grep -E "^(${own//$'\n'/|})( |\$)" <<< "$of_it" || true)"
    same "own options in hid.1 of $command" "$own" "$(names <<< "$of_it" | grep -xF -e "$own" || true)"
    same "what is completed behind hid $command" "$(names <<< "$of_it")" \
        "$(completed hid "$command" -)"
    same "what is completed behind hid $command alone" "$(names <<< "$of_it"; echo a_file)" \
        "$(completed hid "$command" '')"
    while read -r option values; do
        case $values in
            '') same "behind $command $option" "$(names <<< "$of_it"; echo a_file)" \
                "$(completed hid "$command" "$option" '')" ;;
            VALUE) same "behind $command $option" '' "$(completed hid "$command" "$option" '')" ;;
            *)
                same "behind $command $option" "$(tr '|' '\n' <<< "$values")" \
                    "$(completed hid "$command" "$option" '')"
                grep -qF -e "$option $values" <<< "$page" || {
                    echo "hid_options: hid.1 doesn't tell the values of $option" >&2
                    exit 1
                }
                ;;
        esac
    done <<< "$of_it"
    told+=$'\n'$of_it
done

# No text names an option that none has.
for text in share/man/man1/hid.1 docs/HID.md; do
    beyond=$(sed 's/\\-/-/g; s/ -e .*//' "$top/$text" | options | grep -e -- -- | LC_ALL=C sort -u |
        grep -vxF -e "$(names <<< "$told")" || true)
    same "options in $text that there are not" '' "$beyond"
done

# The commands of `hidreport`, with their arguments.
page=$(plain hidreport)
usage=$("$scratch/hidreport" || [ $? -eq 2 ])
usage=$(sed 's/^usage: hidreport //; s/ | /\n/g' <<< "$usage")
same 'SYNOPSIS of hidreport.1' "$usage"$'\n--help' \
    "$(section SYNOPSIS | tr '\n' ' ' | sed 's/ \.br /\n/g; s/hidreport //g; s/ $//')"
same 'what is completed behind hidreport' "$(names <<< "$usage"; echo --help)" \
    "$(completed hidreport '')"
same 'what is completed behind hidreport values' a_file "$(completed hidreport values '')"
same 'commands of hidreport of zsh' "$(names <<< "$usage"; echo --help)" \
    "$(sed -n 's/^commands=(\(.*\))$/\1/p' "${zsh}report" | tr ' ' '\n')"
same 'commands of hidreport of fish' "$(names <<< "$usage")" \
    "$(sed -n 's/^set -l commands //p' "${fish%.fish}report.fish" | tr ' ' '\n')"
echo "hid_options: $answers lists of options, commands and values are the same"
