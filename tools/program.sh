#!/bin/sh
# What is run as `hid` or `hidreport`, and of which sources it is. `make` calls this, and scripts do that
# want to know:
#   program.sh crates PART           the crates that a part is made of, lowest first
#   program.sh code PART             a sum over what of them makes code
#   program.sh sources PART          the same with definitions, proofs and crates.txt
#   program.sh fresh [PART]          says what of generated/ was made of other code; 1 if PART was
#   program.sh run NAME              makes build/run/NAME the program of these sources
#   program.sh prove NAME            proves it, so that it is run
#   program.sh proved NAME SOURCES   the same where rt proved it, of the sources with this sum
# A part is one of the two programs, or `library`: the one for C.
set -eu
export LC_ALL=C
cd "$(dirname "$0")/.."
part=${2-}
run=build/run/$part
proved=build/proved/$part
unproved=build/unproved/$part

say() {
    echo "$part: $*" >&2
}
refuse() {
    say "$1"
    exit 2
}

crate() {
    case $1 in
        library) echo hidreport_c ;;
        hidreport) echo hidreport_main ;;
        *) echo "$1" ;;
    esac
}
crates() {
    awk -v top="$(crate "$1")" '
        { sub(/#.*/, "") }
        split($0, half, ":") == 2 { split(half[1], words, " "); below[words[1]] = half[2] }
        function show(name,    needed, count, i) {
            if (!(name in below) || name in shown) return
            shown[name]
            count = split(below[name], needed, " ")
            for (i = 1; i <= count; i++) show(needed[i])
            print name
        }
        END { show(top) }' crates.txt
}

# A sum over the files of these names.
sum() {
    sort | xargs sha256sum | sha256sum | cut -d ' ' -f 1
}
# shellcheck disable=SC2046
code() (
    set -- $(crates "$1" | sed 's,$,/src,')
    cd crates
    find "$@" -name '*.rt' -type f | sum
)
# shellcheck disable=SC2046
sources() {
    set -- $(crates "$1" | sed 's,.*,crates/& crates/&/specs crates/&/proofs,; s, ,/src ,')
    { echo crates.txt && find "$@" -type f 2> /dev/null || :; } | sum
}

# A line of generated/SOURCES; the sum that stands there for a part.
noted() {
    sed -n "s/^$1: //p" generated/SOURCES
}
noted_of() {
    case $1 in
        library) noted sources ;;
        *) noted "code of $1" ;;
    esac
}

# What was made of other code is stale; where the version is another besides, that is a fault.
is_fresh() {
    [ "$(code "$1")" != "$(noted_of "$1")" ] || return 0
    line="generated: stale ($1): made from the sources of $(noted version), which have changed since"
    version=$(sed -n 's/^#define HIDREPORT_VERSION_[A-Z]* //p' include/hidreport.h | paste -s -d . -)
    [ "${version%.*}-${version##*.}" = "$(noted version)" ] || {
        echo "$line, as the version has" >&2
        exit 1
    }
    echo "$line"
    return 1
}

# What is missing to link a program of generated/.
lacking() {
    for tool in "${CC:-cc}" gzip; do
        command -v "${tool%% *}" > /dev/null || {
            echo "no \`${tool%% *}\` on the path: a C compiler, make and gzip link the program" \
                '(Debian: apt-get install gcc libc6-dev make gzip)'
            return
        }
    done
    processor=$(${CC:-cc} -dumpmachine)
    processor=${processor%%-*}
    [ -r "generated/$processor-linux/$part.o.gz" ] ||
        echo "generated/ has no program for the processor $processor"
}
link() {
    "${MAKE:-make}" -s "build/$part" ||
        refuse "the program isn't linked: ${CC:-cc} says above why"
    [ "$(readlink "$run")" = "../$part" ] ||
        say "linked from generated/, which $(noted toolchain | cut -d ' ' -f 1)" \
            'made of these sources once they were proved'
}

# Builds a program that keeps the checks which a proof makes needless: an index, a sum or a cast that goes
# wrong ends it. Where a source is edited meanwhile the next call builds it anew.
try() {
    command -v rt > /dev/null ||
        refuse "a source has changed since generated/ was made, and no \`rt\` is on the path, which
builds the program; it is the command of the Rattle kit (README.md, \"Two commands\")"
    say 'building the program without a proof, in about a minute'
    mkdir -p build/unproved
    rm -f "$unproved.of"
    bash checks/common/unproved.sh "$(crate "$part")" "$unproved" || {
        tail -n 30 "$unproved.said" >&2
        refuse "the program isn't built; all that was said is in $unproved.said"
    }
    [ "$1" != "$(code "$part")" ] || echo "$1" > "$unproved.of"
}

# A program of these sources: linked, or proved here, or not proved.
choose() {
    sum=$(code "$part")
    lacks=changed
    [ "$sum" != "$(noted_of "$part")" ] || lacks=$(lacking)
    made=../$part
    if [ -z "$lacks" ]; then
        link
    elif [ "$sum" = "$(cat "$proved.of" 2> /dev/null)" ]; then
        made=../proved/$part
    elif [ "$lacks" != changed ]; then
        refuse "$lacks"
    else
        made=../unproved/$part
        [ "$sum" = "$(cat "$unproved.of" 2> /dev/null)" ] || try "$sum"
    fi
    ln -sf "$made" "$run.new"
    mv -f "$run.new" "$run"
}

# Is there nothing of what it is made of that was changed, come or gone since it was chosen? (A change's
# own time tells: that of a file's contents can be set.)
# shellcheck disable=SC2046
is_current() {
    [ -x "$run" ] && [ -r "$run.at" ] || return 1
    set -- crates.txt generated $(crates "$part" | sed 's,.*,crates/&/src,')
    newer=$(find "$@" -cnewer "$run.at" 2> /dev/null) && [ -z "$newer" ]
}

make_current() {
    is_current || {
        { mkdir -p build/run && touch "$run.now"; } 2> /dev/null || refuse "the folder build can't be written"
        choose
        mv "$run.now" "$run.at"
    }
    [ "$(readlink "$run")" != "../unproved/$part" ] ||
        say "this program is checked as it runs, not proved: \`make prove-$part\` proves it"
}

# rt has proved the program of the sources with this sum: it is run from now on where they are these.
take_proved() {
    [ "$(sources "$part")" = "$1" ] ||
        refuse 'the sources changed while they were proved, so that program is not taken'
    mkdir -p build/proved
    rm -f "$proved.of"
    cp "crates/$(crate "$part")/out/$(crate "$part")" "$proved"
    echo "$1" > "$proved.sources"
    code "$part" > "$proved.of"
    rm -f "$run.at"
}
prove() {
    command -v rt > /dev/null ||
        refuse "no \`rt\` on the path; it is the command of the Rattle kit (README.md, \"Two commands\")"
    sum=$(sources "$part")
    words=--version
    [ "$part" = hid ] || words='items data/mouse.rdesc'
    # shellcheck disable=SC2086
    (cd "crates/$(crate "$part")" && rt run -- $words) > /dev/null || refuse "it isn't proved"
    take_proved "$sum"
}

case $1-$# in
    crates-2 | code-2 | sources-2) "$1" "$2" ;;
    fresh-2) is_fresh "$2" ;;
    fresh-1) for part in library hid hidreport; do is_fresh "$part" || :; done ;;
    run-2) make_current ;;
    prove-2) prove ;;
    proved-3) take_proved "$3" ;;
    *) exit 2 ;;
esac
