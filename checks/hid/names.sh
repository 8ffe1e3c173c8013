#!/bin/bash
# The names that `hid set --names` shows: each is taken, and those of fields with one value set each
# another bit. And that bash completes them behind `hid set FILE ID`, in quotes or behind backslashes as
# they were begun; zsh and fish, too, where these are there. The argument, if any, is the program to
# look at; else the one that ./hid runs.
set -euo pipefail
export LC_ALL=C

top=$(cd "$(dirname "$0")/../.." && pwd)
program=$(readlink -f "${1:-$top/build/run/hid}")
[ -x "$program" ] || {
    echo "hid_names: no program $program" >&2
    exit 2
}
scratch=$(mktemp -d)
trap 'rm -rf "$scratch"' EXIT
mkdir "$scratch/bin"
cp "$program" "$scratch/bin/hid"
PATH=$scratch/bin:$PATH
cp "$top/crates/hid/data/keyboard.hex" "$scratch/a keyboard.hex"
cd "$top/crates/hid/data"

wrong() {
    echo "hid_names: $1" >&2
    exit 1
}

# The names of a report: each is taken, and all of them set other bits.
count=0
taken() {
    local name names
    mapfile -t names < <(hid set --names "$@" 2> /dev/null)
    [ ${#names[@]} -gt 0 ] || wrong "no names: $*"
    for name in "${names[@]}"; do
        count=$((count + 1))
        hid set --zero "$@" "$name=1" 2> /dev/null || wrong "'$name' isn't taken: $*"
    done > "$scratch/reports"
    [ "$(LC_ALL=C sort -u "$scratch/reports" | wc -l)" -eq ${#names[@]} ] ||
        wrong "two names set the same: $*"
}
taken mouse.hex -
taken keyboard.hex -
taken --direction output keyboard.hex -
taken touchpad.hex 3
taken fingers.hex 1
taken gamepad.hex 1
[ "$count" -ge 150 ] || wrong "only $count names"

# What bash completes; the words stand as they are typed.
# shellcheck source=/dev/null
. "$top/share/bash-completion/completions/hid"
completed() {
    COMP_WORDS=("$@")
    COMP_CWORD=$(($# - 1))
    COMPREPLY=()
    _hid
    [ ${#COMPREPLY[@]} -eq 0 ] || printf '%s\n' "${COMPREPLY[@]}"
}
answers=0
same() {
    answers=$((answers + 1))
    [ "$2" = "$3" ] || wrong "$1: wanted '$2', got '$3'"
}
lamps=$(hid set --names --direction output keyboard.hex - 2> /dev/null)
same 'all lamps' "$lamps" "$(completed hid set --direction output keyboard.hex - '')"
same 'direction behind' "$lamps" "$(completed hid set keyboard.hex - --direction output '')"
same 'options with a value' "$lamps" \
    "$(completed hid --as linux set --to hex --press 9 --direction output keyboard.hex - '')"
same 'begun' 'Num Lock' "$(completed hid set --direction output keyboard.hex - Num)"
same 'backslash' 'Num Lock' "$(completed hid set --direction output keyboard.hex - 'Num\ L')"
same 'quote' 'Num Lock' "$(completed hid set --direction output keyboard.hex - "'Num L")"
same 'quotes' 'Num Lock' "$(completed hid set --direction output keyboard.hex - '"Num L')"
same 'behind a name' "$lamps" \
    "$(completed hid set --direction output keyboard.hex - "'Num Lock'" = 1 '')"
same 'a file with a space' "$lamps" \
    "$(completed hid set --direction output "$scratch/a\\ keyboard.hex" - '')"
same 'a file in quotes' "$lamps" \
    "$(completed hid set --direction output "'$scratch/a keyboard.hex'" - '')"
same 'several' $'X\nX#2\nX#3\nX#4\nX#5' "$(completed hid set fingers.hex 1 X)"
same 'no file' "$(compgen -f -- mouse.h)" "$(completed hid set mouse.h)"

# The same in a shell with a line to edit: what is typed, and what the shell then runs.
edited() {
    local shell=$1 wanted=$2 typed=$3
    shift 3
    command -v "$shell" > /dev/null && command -v python3 > /dev/null || return 0
    same "$shell: $typed" "$wanted" \
        "$(python3 "$top/checks/hid/names_typed.py" "$typed" "$shell" "$@" 2>&1)"
}
cat > "$scratch/bashrc" << END
. '$top/share/bash-completion/completions/hid'
PS1='ready> '
END
cat > "$scratch/.zshrc" << END
fpath=('$top/share/zsh/site-functions' \$fpath)
autoload -Uz compinit && compinit -u -D
unsetopt beep
PS1='ready> '
END
line='hid set --direction output keyboard.hex - '
for typed in 'Num\ L\t=1' '"Num L\t=1' 'Num\t=1'; do
    edited bash 01 "$line$typed" --noprofile --rcfile "$scratch/bashrc" -i
done
# Zsh leaves a quote open.
for typed in 'Num\ L\t=1' '"Num L\t=1"' 'Num\t=1'; do
    ZDOTDIR=$scratch edited zsh 01 "$line$typed" -i
done
if command -v fish > /dev/null; then
    same 'fish' 'Num Lock' "$(fish --no-config -c "
        source '$top/share/fish/vendor_completions.d/hid.fish'
        complete -C 'hid set --direction output keyboard.hex - Num'" 2> /dev/null)"
    same 'fish, a file with a space' 'Num Lock' "$(fish --no-config -c "
        source '$top/share/fish/vendor_completions.d/hid.fish'
        complete -C 'hid set \"$scratch/a keyboard.hex\" - --direction output Num\\ L'" 2> /dev/null)"
fi
echo "hid_names: $count names are taken, $answers lists of them are completed"
