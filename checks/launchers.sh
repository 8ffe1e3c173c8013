#!/bin/bash
# What ./hid, ./hidreport and ./install do around the programs (launchers/launcher.sh, install.sh), in
# copies with stand-ins for what they prove; how many columns a terminal has for them (terminal.py); and
# that `make` builds the same whatever its jobs are (generated/make.sh). It takes two minutes, and leaves
# nothing behind.
set -eu
export LC_ALL=C
cd "$(dirname "$0")/launchers"
bash launcher.sh
bash install.sh
! command -v python3 > /dev/null || python3 terminal.py
bash ../generated/make.sh
