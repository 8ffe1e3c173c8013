#!/bin/sh
# launch.sh NAME [WORD ..]: runs the program NAME of these sources with the words that follow. `make`
# sees to it that it is of them (tools/program.sh); one call does so at a time.
set -eu
name=$1
shift
say() {
    echo "$name: $*" >&2
}
command -v make > /dev/null || {
    say 'no `make` on the path: a C compiler, make and gzip link the program' \
        '(Debian: apt-get install gcc libc6-dev make gzip)'
    exit 2
}
top=${0%/tools/launch.sh}
unset MAKEFLAGS MFLAGS MAKELEVEL
(
    cd "$top"
    if command -v flock > /dev/null; then
        exec 9< Makefile
        flock -w 2 9 || {
            say 'another call is building the program; waiting for it'
            flock 9
        }
    fi
    make -s "run-$name" >&2
) || exit 2

# Whether a word is the name of a file that can be read and isn't UTF-8: the programs open none such.
is_odd() (
    LC_ALL=C
    case $1 in *[!\ -~]*) ;; *) exit 1 ;; esac
    [ -r "$1" ] && ! printf %s "$1" | iconv -f UTF-8 -t UTF-8 > /dev/null 2>&1
)
opened=9
for word; do
    shift
    if [ $opened -gt 2 ] && is_odd "$word"; then
        eval "exec $opened< \"\$word\""
        word=/dev/fd/$opened
        opened=$((opened - 1))
        say "a file whose name isn't UTF-8 is read as $word"
    fi
    set -- "$@" "$word"
done
exec "$top/build/run/$name" "$@"
