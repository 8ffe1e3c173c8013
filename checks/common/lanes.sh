# Lanes side by side: to be read by `.`, not run. `lane NAME COMMAND ..` starts one, what it says goes to a
# file; `end_lanes` waits for all, shows what each said and how long it took, by the clock and of processor
# time, and fails where one did. With `lanes_at_once` a lane begins once fewer than so many run: where two
# processors share a core, more of them only take more processor time. Where `lanes_said` names a file, it
# gets all of it too. `spent FILE` is how many seconds of processor time the processes of a shell took that
# have ended, by what its `times` wrote.
lane_folder=
lane_names=()
declare -A lane_of

spent() {
    awk 'NR == 2 {
        for (i = 1; i <= 2; i++) {
            split($i, part, "[ms]")
            all += part[1] * 60 + part[2]
        }
        printf "%.0f\n", all
    }' "$1"
}

# Waits until a lane may begin.
until_there_is_room() {
    local name running
    while :; do
        running=0
        for name in "${lane_names[@]}"; do
            [ -e "$lane_folder/$name.status" ] || ! kill -0 "${lane_of[$name]}" 2> /dev/null ||
                running=$((running + 1))
        done
        [ "$running" -ge "${lanes_at_once:-$((running + 1))}" ] || return 0
        sleep 0.2
    done
}

lane() {
    local name=$1
    shift
    until_there_is_room
    [ -n "$lane_folder" ] || lane_folder=$(mktemp -d)
    lane_names+=("$name")
    (
        begun=$SECONDS
        set +e
        (
            set -e
            "$@"
        )
        status=$?
        times > "$lane_folder/$name.times"
        echo "$name: $((SECONDS - begun)) s, $(spent "$lane_folder/$name.times") of processor time"
        echo "$status" > "$lane_folder/$name.status"
    ) > "$lane_folder/$name" 2>&1 &
    lane_of[$name]=$!
}

end_lanes() {
    local name failed=0
    for name in "${lane_names[@]}"; do
        # Of a lane that ended long ago the shell may know no more, once its number is another process's.
        wait "${lane_of[$name]}" 2> /dev/null || true
        [ "$(cat "$lane_folder/$name.status" 2> /dev/null)" = 0 ] || {
            failed=1
            echo "FAILED: $name" >> "$lane_folder/$name"
        }
        cat "$lane_folder/$name"
        [ -z "${lanes_said:-}" ] || cat "$lane_folder/$name" >> "$lanes_said"
    done
    lane_names=()
    rm -rf "$lane_folder"
    lane_folder=
    return "$failed"
}
