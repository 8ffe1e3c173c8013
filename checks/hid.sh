#!/bin/bash
# hid.sh HID OTHER_HID HIDREPORT CASES
# The program `hid` from outside: its stored runs, by both compilers' programs; its options and those of
# HIDREPORT in all texts that have them; devices; the samples of the documents (of HIDREPORT, too); the
# names that shells complete; that what it writes is read back, also by programs of four languages; the
# pages of `hid page`; bounds of memory and time; the same answers as the library's (CASES is the program
# that `checks/library/tests.sh --keep CASES` builds), the same event codes as a model of Linux's and the
# same collections as one of WebHID's; what Windows refuses, beside Wine; and what it says beside TShark,
# lsusb and Linux's own functions. The parts lie in hid/; they go side by side in lanes, and what each lane
# says is shown once it has ended.
set -eu
export LC_ALL=C
hid=$1 other=$2 hidreport=$3 cases=$4
top=$(cd "$(dirname "$0")/.." && pwd)
parts=$top/checks/hid
. "$top/checks/common/lanes.sh"

shown() {
    python3 "$parts/runs.py" "$hid" "$other"
    python3 "$parts/told.py"
    python3 "$parts/rules.py" "$hid"
    bash "$parts/options.sh" "$hid" "$hidreport"
    bash "$parts/devices.sh" "$hid"
    bash "$parts/samples.sh" "$hid" "$hidreport"
    bash "$parts/names.sh" "$hid"
}

written() {
    bash "$parts/texts.sh" "$hid"
    bash "$parts/page.sh" "$hid"
    bash "$parts/hostile.sh" "$hid"
}

answered() {
    if command -v python3 > /dev/null; then
        python3 "$parts/questions.py" "$hid" "$cases"
        python3 "$parts/as_linux.py" "$hid"
        python3 "$top/compare/linux_readings.py" model
        python3 "$top/compare/linux_input.py" compare "$hid"
        python3 "$top/compare/linux_lamps.py" compare "$hid"
        python3 "$top/compare/linux_multitouch.py" compare "$hid"
        python3 "$top/compare/windows_readings.py" compare "$hid"
        python3 "$top/compare/linux_events.py" "$hid"
        python3 "$top/compare/webhid.py" "$hid"
    else
        echo 'hid: no `python3` on the path, so `hid`, the library and the models are not asked the same'
    fi
}

structs() {
    if command -v python3 > /dev/null; then
        bash "$parts/descriptors.sh" | cut -d ' ' -f 1 | python3 "$parts/structs.py" "$hid"
    else
        echo 'hid: no `python3` on the path, so what `hid struct` writes is not built'
    fi
}

beside() {
    bash "$parts/beside.sh" tshark "$hid"
    bash "$parts/beside.sh" lsusb "$hid"
    bash "$parts/kernel.sh" "$hid"
}

lane shown shown
lane written written
lane answered answered
lane structs structs
lane beside beside
end_lanes
