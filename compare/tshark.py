"""Shows report descriptors as TShark does, item by item.

`python3 compare/tshark.py` reads the descriptors that compare/tshark.txt has (each line that begins
with `descriptor `, with the remark above it), has them shown by the `tshark` that is installed, and
prints the file anew. A descriptor is added by writing such a line there. No part of the gate:
checks/hid/beside.sh only reads the file.
"""

import pathlib
import struct
import subprocess
import tempfile
import xml.etree.ElementTree

FILE = pathlib.Path(__file__).with_name("tshark.txt")

# A configuration with one interface of the class HID, without which no descriptor is looked into.
CONFIGURATION = bytes.fromhex(
    "09 02 22 00 01 01 00 a0 32  09 04 00 00 01 03 01 02 00  09 21 11 01 00 01 22 00 00"
    "07 05 81 03 04 00 0a")

HEADER = """\
# What {version} shows of report descriptors: a line for each item, with its
# offset, and two spaces deeper for each collection around it. Behind ` = ` stands the number of an
# item that has no parenthesis. Written by compare/tshark.py, which reads the lines `descriptor` of
# this file, and those behind `## ` which say where they are from: a file of bench/descriptors or of
# crates/hid/data, or a line of a file of tests/hidreport_cases/data; the last were written
# for this file. checks/hid/beside.sh compares what `hid decode` says."""


def urb(is_answer, setup, data):
    """A line of Linux's usbmon (link type 220): a control transfer of device 3."""
    return struct.pack("<QBBBBHbbqiiII8siiII", 1, ord("C" if is_answer else "S"), 2, 0x80, 3, 1,
                       ord("-") if is_answer else 0, 0 if is_answer else ord("<"), 0, 0,
                       0 if is_answer else -115, len(data), len(data) if is_answer else 0, setup,
                       0, 0, 0, 0) + (data if is_answer else b"")


def capture(descriptors):
    """A capture in which a device is asked for its configuration, and for each descriptor."""
    asked = [(struct.pack("<BBHHH", 0x80, 6, 0x0200, 0, len(CONFIGURATION)), CONFIGURATION)]
    asked += [(struct.pack("<BBHHH", 0x81, 6, 0x2200, 0, len(data)), data) for data in descriptors]
    parts = [struct.pack("<IHHiIII", 0xa1b2c3d4, 2, 4, 0, 0, 65535, 220)]
    for setup, data in asked:
        for is_answer in (False, True):
            packet = urb(is_answer, setup, data)
            parts += [struct.pack("<IIII", 0, 0, len(packet), len(packet)), packet]
    return b"".join(parts)


def is_item(field):
    return len(field) != 0 and field[0].get("show") == "Header"


def number(item):
    """What stands behind an item that has no parenthesis, with its number in a line of its own."""
    values = [field.get("showname").split(": ", 1)[1] for field in item[1:2]
              if field.get("name").startswith("usbhid.item.")]
    return "".join(" = " + value for value in values
                   if "(" not in item.get("show") and value != "<MISSING>")


def lines(field, depth, start):
    """The lines of the items in a field, with their offsets from `start`."""
    for item in field:
        if is_item(item):
            text = item.get("show") + number(item)
            yield f"{int(item.get('pos')) - start:>5}: {'  ' * depth}{text}"
            yield from lines(item, depth + 1, start)


def shown(descriptors):
    """The lines of each descriptor."""
    with tempfile.NamedTemporaryFile(suffix=".pcap") as file:
        file.write(capture(descriptors))
        file.flush()
        said = subprocess.run(["tshark", "-r", file.name, "-T", "pdml"], stdout=subprocess.PIPE,
                              stderr=subprocess.DEVNULL, check=True).stdout
    tree = xml.etree.ElementTree.fromstring(said)
    found = [proto for proto in tree.iter("proto") if proto.get("name") == "usbhid"]
    assert len(found) == len(descriptors), "tshark doesn't look into each descriptor"
    return [list(lines(proto, 0, int(proto.get("pos")))) for proto in found]


def main():
    version = subprocess.run(["tshark", "--version"], capture_output=True, text=True, check=True)
    print(HEADER.format(version=version.stdout.split("\n")[0].split(" (Git")[0]))
    remarks, asked = [], []
    for line in FILE.read_text().split("\n"):
        if line.startswith("## "):
            remarks.append(line)
        elif line.startswith("descriptor "):
            asked.append((remarks, line, bytes.fromhex(line.split()[1])))
            remarks = []
    for (above, line, _), items in zip(asked, shown([data for _, _, data in asked])):
        print()
        for text in above + [line] + items:
            print(text)


main()
