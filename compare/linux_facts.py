#!/usr/bin/env python3
"""linux_facts.py DIR: writes what crates/hidreport_linux/data/kernel.txt has, from the sources of a kernel
in a folder: the event codes of include/uapi/linux/input-event-codes.h, and the usages to which
drivers/hid/hid-input.c gives one code wherever they lie. It knows nothing of events.txt beside it, which
checks/tree/event_facts.sh compares with this file."""
import os
import re
import sys

HEAD = """# Facts of Linux 6.12, as compare/linux_facts.py reads them in its sources; checks/tree/event_facts.sh
# compares events.txt with them.
#
# A code: its name and number (include/uapi/linux/input-event-codes.h).
# A usage: its page and id, its code's name or number, and whether several usages of an input device may
# have it, since it is cleared first (drivers/hid/hid-input.c).
"""
PAGES = {"SIMULATION": 0x02, "LED": 0x08, "TELEPHONY": 0x0B, "CONSUMER": 0x0C, "DIGITIZER": 0x0D,
         "PID": 0x0F, "CAMERA": 0x90, "HPVENDOR2": 0xFF01, "HPVENDOR": 0xFF7F}
DESKTOP = {"START": 0x3D, "SELECT": 0x3E, "DO_NOT_DISTURB": 0x9B}


def codes_of(header):
    """The names of a header with their numbers."""
    numbers = {}
    for name, value in re.findall(r"^#define\s+((?:KEY|BTN|REL|ABS|MSC|LED)_\w+)\s+(\w+)", header, re.M):
        numbers[name] = numbers[value] if value in numbers else int(value, 0)
    return numbers


def cases_of(part):
    """The labels of a switch with the code that each maps: (label, name, whether it is cleared)."""
    labels = []
    for label, call, name, _ in re.findall(
            r"case (0x[0-9a-fA-F]+|HID_\w+):|(map_\w+)\s*\((\w+)\);|(break;|goto \w+;|return;)", part):
        if label:
            labels.append(label)
        elif call:
            for one in labels:
                yield one, name, call.endswith("_clear")
            labels = []
        else:
            labels = []


def usages_of(source):
    """The usages with one code: {usage: (code's name or number, whether it is shared)}."""
    found = {}
    table = re.search(r"hid_keyboard\[256\] = \{(.*?)\}", source, re.S)[1]
    words = [word.strip() for word in table.split(",") if word.strip()]
    for id, word in enumerate(words):
        if word not in ("0", "unk"):
            found[0x070000 | id] = (int(word), True)
    body = source[source.index("static void hidinput_configure_usage"):source.index("mapped:\n")]
    for part in re.split(r"\n\tcase HID_UP_", body)[1:]:
        page = PAGES.get(re.match(r"\w+", part)[0])
        for label, name, is_shared in cases_of(part):
            if page and label.startswith("0x"):
                found[page << 16 | int(label, 16)] = (name, is_shared)
            elif label[len("HID_GD_"):] in DESKTOP:
                found[0x010000 | DESKTOP[label[len("HID_GD_"):]]] = (name, is_shared)
        for row, cases in re.findall(r"0xf0\) == 0x([8ab])0\)(.*?)\n\t\t}\n", part, re.S):
            for label, name, is_shared in cases_of(cases):
                found[0x010000 | int(row, 16) << 4 | int(label, 16)] = (name, is_shared)
    return found


def main(folder):
    def text_of(name):
        with open(os.path.join(folder, name), encoding="utf-8") as file:
            return file.read()

    print(HEAD)
    for name, number in codes_of(text_of("include/uapi/linux/input-event-codes.h")).items():
        print(name, number)
    for usage, (code, is_shared) in sorted(usages_of(text_of("drivers/hid/hid-input.c")).items()):
        if usage != 0x0D0032:
            print(f"usage {usage >> 16:04X} {usage & 0xFFFF:04X} {code} {'shared' if is_shared else 'own'}")


if __name__ == "__main__":
    main(sys.argv[1])
