# What the scripts need: to be read by `.`, not run. Each call ends the script with one line where
# something is missing.

# The kit's command `rt` is on the path.
need_rt() {
    command -v rt > /dev/null || {
        echo "$1: no \`rt\` on the path; it is the command of the Rattle kit (README.md," \
            '"Two commands")' >&2
        exit 2
    }
}

# A folder can be written: it is made where it isn't there, and nothing is put into it.
need_room() {
    { mkdir -p "$2" && [ -w "$2" ] && [ -x "$2" ]; } 2> /dev/null || {
        echo "$1: the folder $2 can't be written" >&2
        exit 2
    }
}
