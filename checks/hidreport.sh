#!/bin/bash
# The program `hidreport` from outside: its statuses and what it prints where a file or the output is
# no good (hidreport/statuses.sh), and in how little memory and time it answers
# (hidreport/little_memory.sh). The argument is the program; else it is the one that ./hidreport runs.
set -eu
export LC_ALL=C
parts=$(dirname "$0")/hidreport
sh "$parts/statuses.sh" "$@"
sh "$parts/little_memory.sh" "$@"
