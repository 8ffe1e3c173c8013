# The crates of a part, as crates.txt names them: read by launcher.sh.

# What is wrong with a list: the last is the part's own; each stands once, behind those of the repository
# that crates.txt names for it, and is named by one behind it.
fault_of() {
    local own=$1
    shift
    awk -v own="$own" -v list="$*" '
        { split($1, name, ":"); sub(/^[^:]*:/, ""); below[name[1]] = $0 }
        END {
            count = split(list, crate, " ")
            if (crate[count] != own) print own " isn\047t the last"
            for (i = 1; i <= count; i++) {
                if (!(crate[i] in below)) print crate[i] " is no crate"
                if (crate[i] in stood) print crate[i] " stands twice"
                many = split(below[crate[i]], needed, " ")
                for (j = 1; j <= many; j++) {
                    if (needed[j] in below && !(needed[j] in stood))
                        print crate[i] " stands without " needed[j]
                    used[needed[j]]
                }
                stood[crate[i]]
            }
            for (i = 1; i < count; i++) if (!(crate[i] in used)) print crate[i] " is named by none"
        }' "$top/crates.txt"
}

# It has none; it has one without any of its crates, with one twice, or with one that only others need. The
# sum is one over the files' sums.
for part in hid:hid hidreport:hidreport_main library:hidreport_c; do
    mapfile -t crates < <(sh "$copy/tools/program.sh" crates "${part%:*}")
    : > "$scratch/out"
    fault_of "${part#*:}" "${crates[@]}" > "$scratch/errors"
    [ ! -s "$scratch/errors" ] || wrong "the crates of ${part%:*}"
    for crate in "${crates[@]}"; do
        others=" ${crates[*]} "
        others=${others/ $crate / }
        for spoilt in "$others" "$crate $others $crate" "hidreport_example ${crates[*]}"; do
            # shellcheck disable=SC2086
            [ -n "$(fault_of "${part#*:}" $spoilt)" ] || wrong "a spoilt list is taken: $spoilt"
            answers=$((answers + 1))
        done
    done
    sum=$(cd "$copy/crates" && find "${crates[@]/%//src}" -name '*.rt' | sort | xargs sha256sum | sha256sum)
    [ "$(sh "$copy/tools/program.sh" code "${part%:*}")" = "${sum%% *}" ] || wrong "the sum of ${part%:*}"
    answers=$((answers + 2))
done
