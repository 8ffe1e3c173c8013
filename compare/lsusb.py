"""Shows report descriptors as lsusb does, item by item.

`python3 compare/lsusb.py SOURCES` prints compare/lsusb.txt anew. lsusb shows the descriptors of
devices that are plugged in, so its function for one descriptor is built by itself from SOURCES, the
folder of the sources of usbutils 014 (`apt-get source usbutils`), and given those of
compare/tshark.txt. No part of the gate: checks/hid/beside.sh only reads the file.
"""

import pathlib
import re
import subprocess
import sys
import tempfile

HERE = pathlib.Path(__file__).parent

# What stands around the function: bytes as they are on the standard input, and names from tables.
BEFORE = """
#include <stdint.h>
#include <stdio.h>
#include <string.h>
#include "usb-spec.h"
static const char *named(struct genericstrtable *row, unsigned int number)
{
    while (row->name && row->num != number)
        row++;
    return row->name;
}
#define names_reporttag(number) named(reports, number)
#define names_huts(number) named(huts, number)
#define names_hutus(number) named(hutus, number)
"""
AFTER = """
int main(void)
{
    static unsigned char bytes[65536 + 4];
    dump_report_desc(bytes, fread(bytes, 1, 65536, stdin));
    return 0;
}
"""

HEADER = """\
# What lsusb (usbutils 014) shows of report descriptors: a line for each item, with its offset, and
# in parentheses what it shows below the item, or else the number behind its bytes; behind ` = `
# stands the number of an item for which it shows no name. It doesn't indent. Written by
# compare/lsusb.py from the descriptors of compare/tshark.txt but those with a long item, which
# lsusb doesn't know; checks/hid/beside.sh compares what `hid decode` says."""


def build(sources, program):
    """The program that shows one descriptor."""
    text = (sources / "lsusb.c").read_text()
    functions = [re.search(rf"^static void {name}\(.*?^}}", text, re.M | re.S).group(0)
                 for name in ("dump_unit", "dump_report_desc")]
    subprocess.run(["cc", "-w", "-x", "c", "-I", sources, "-o", program, "-"], check=True,
                   input=BEFORE + "\n".join(functions) + AFTER, text=True)


def shown(program, data):
    """The lines of a descriptor's items."""
    said = subprocess.run([program], input=data, stdout=subprocess.PIPE, check=True).stdout.decode()
    offset = 0
    for item in said.split("            Item(")[1:]:
        first, *below = item.rstrip("\n").split("\n")
        name, size, number = re.fullmatch(
            r"[A-Za-z ]*\): (.*), data=(?:none| \[ ((?:0x.. )*)\] (-?\d+))", first).groups()
        text = " ".join(line.strip() for line in below).removeprefix("Unit Exponent: ")
        if text == "(null)":
            text = f" = {number}" if number else ""
        elif text or number is not None:
            text = f" ({text or number})"
        yield f"{offset:>5}: {name}{text}"
        offset += 1 + len((size or "").split())


def is_long(data):
    """Whether a descriptor has a long item."""
    at = 0
    while at < len(data):
        if data[at] == 0xfe:
            return True
        at += 1 + (data[at] & 3) + (data[at] & 3 == 3)
    return False


def main():
    print(HEADER)
    with tempfile.TemporaryDirectory() as folder:
        program = pathlib.Path(folder) / "shown"
        build(pathlib.Path(sys.argv[1]).resolve(), program)
        for line in (HERE / "tshark.txt").read_text().split("\n"):
            if line.startswith("## "):
                title = line
            elif line.startswith("descriptor "):
                data = bytes.fromhex(line.split()[1])
                if not is_long(data):
                    print("", title, line, *shown(program, data), sep="\n")


main()
