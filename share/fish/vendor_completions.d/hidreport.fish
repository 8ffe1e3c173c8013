# Completions of `hidreport` for fish.
set -l commands items values values-within values-globals values-globals-within rebuild
complete -c hidreport -n "not __fish_seen_subcommand_from $commands" -f -a "$commands --help"
