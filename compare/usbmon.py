#!/usr/bin/env python3
"""Writes captures of Linux's usbmon, by the layout of `struct mon_bin_hdr` (Documentation/usb/usbmon),
and of Windows' USBPcap, by that of its packets' headers, in files of pcap and pcapng, without this
library.

`python3 compare/usbmon.py` writes those of crates/hid/data anew, `--check` looks whether they are
those, and `--tshark` asks the `tshark` that is installed for the descriptors and reports in them.
"""

import pathlib
import re
import struct
import subprocess
import sys

DATA = pathlib.Path(__file__).parent.parent / "crates/hid/data"
INTERRUPT, CONTROL = 1, 2


def digits(name):
    """The bytes of a descriptor of crates/hid/data."""
    lines = (DATA / name).read_text(encoding="utf-8").splitlines()
    plain = "".join(re.sub(r"(#|//).*|0x|[{},;]", "", line) for line in lines)
    return bytes.fromhex(plain)


class Mon:
    """Packets of usbmon, in an order of bytes and with one of the two headers."""

    def __init__(self, order="<", link=220, bus=1, step=250):
        self.order, self.link, self.bus, self.step = order, link, bus, step
        self.packets, self.number, self.time = [], 0, 0
        # How many bytes more there were on the wire, of each packet that is cut.
        self.cut = {}

    def event(self, letter, kind, device, endpoint, data=b"", setup=None, status=0, length=None,
              has_data=True):
        """One event of the transfer that is the last."""
        self.time += self.step
        there = data if has_data else b""
        head = struct.pack(
            self.order + "QBBBBHbbqiiII8s", self.number, ord(letter), kind, endpoint, device,
            self.bus, 0 if setup else ord("-"), 0 if there else ord("<"), 1000000000,
            self.time, status, len(data) if length is None else length, len(there),
            setup or bytes(8))
        if self.link == 220:
            head += struct.pack(self.order + "iiII", 0, 0, 0, 0)
        self.packets.append(head + there)

    def asked(self, device, setup, answer, status=0, length=None):
        """A control transfer in which a device is asked for something."""
        self.number += 1
        self.event("S", CONTROL, device, 0x80, b"", setup, -115, len(answer))
        self.event("C", CONTROL, device, 0x80, answer, None, status, length)

    def configuration(self, device, interfaces, part=None):
        """A device is asked for its configuration: (number, class, endpoint) of its interfaces."""
        body = b"".join(
            bytes([9, 4, number, 0, 1, kind, 0, 0, 0])
            + (bytes([9, 0x21, 0x11, 1, 0, 1, 0x22, 52, 0]) if kind == 3 else b"")
            + bytes([7, 5, endpoint, 3, 8, 0, 10])
            for number, kind, endpoint in interfaces)
        whole = struct.pack("<BBHBBBBB", 9, 2, 9 + len(body), len(interfaces), 1, 0, 0xa0, 50) + body
        answer = whole[:part]
        self.asked(device, struct.pack("<BBHHH", 0x80, 6, 0x0200, 0, len(answer)), answer)

    def descriptor(self, device, interface, data, **more):
        """A device is asked for the report descriptor of an interface."""
        self.asked(device, struct.pack("<BBHHH", 0x81, 6, 0x2200, interface, len(data)), data, **more)

    def report(self, device, endpoint, data, **more):
        """What an endpoint sends."""
        self.number += 1
        self.event("S", INTERRUPT, device, endpoint, bytes(8), None, -115, 8, has_data=False)
        self.event("C", INTERRUPT, device, endpoint, data, **more)

    def when(self, number):
        """When a packet came by the file, in nanoseconds: usbmon's packets have it themselves."""
        return 0

    def pcap(self, magic=0xa1b2c3d4):
        """A file of pcap."""
        parts = [struct.pack(self.order + "IHHiIII", magic, 2, 4, 0, 0, 65535, self.link)]
        for number, packet in enumerate(self.packets):
            seconds, part = divmod(self.when(number), 1000000000)
            part = part if magic == 0xa1b23c4d else part // 1000
            size, more = len(packet), self.cut.get(number + 1, 0)
            parts += [struct.pack(self.order + "IIII", seconds, part, size, size + more), packet]
        return b"".join(parts)

    def block(self, kind, body):
        """A block of pcapng."""
        body += bytes(-len(body) % 4)
        length = struct.pack(self.order + "I", len(body) + 12)
        return struct.pack(self.order + "I", kind) + length + body + length

    def section(self, resolution=None):
        """The first blocks of pcapng: the section, and its one interface, which may say that a tick is
        so small a part of a second: 10 to this power, with bit 7 two."""
        head = struct.pack(self.order + "IHHq", 0x1a2b3c4d, 1, 0, -1)
        link = struct.pack(self.order + "HHI", self.link, 0, 262144)
        if resolution is not None:
            link += struct.pack(self.order + "HH4sHHB3sHH", 2, 3, b"usb", 9, 1, resolution, b"", 0, 0)
        return self.block(0x0a0d0d0a, head) + self.block(1, link)

    def ticks(self, number, resolution):
        """When a packet came, in the two halves of its number of ticks."""
        per_second = (2 if resolution & 0x80 else 10) ** (resolution & 0x7f)
        return divmod(self.when(number) * per_second // 1000000000, 1 << 32)

    def pcapng(self, simple=(), resolution=None):
        """A file of pcapng; packets with these numbers are in simple blocks."""
        parts = [self.section(resolution)]
        for number, packet in enumerate(self.packets, 1):
            size = len(packet)
            if number in simple:
                parts.append(self.block(3, struct.pack(self.order + "I", size) + packet))
            else:
                high, low = self.ticks(number - 1, 6 if resolution is None else resolution)
                more = self.cut.get(number, 0)
                head = struct.pack(self.order + "IIIII", 0, high, low, size, size + more)
                parts.append(self.block(6, head + packet))
        # Statistics of the interface, which have no packet.
        parts.append(self.block(5, struct.pack(self.order + "III", 0, 0, 0)))
        return b"".join(parts)


class Cap(Mon):
    """Packets of USBPcap, which have the lowest byte first in every file; older ones have the answer of a
    control transfer and its end apart."""

    STALLED = 0xc0000004

    def __init__(self, order="<", bus=1, is_old=False):
        super().__init__(order, 249, bus)
        self.is_old = is_old

    def when(self, number):
        return 1600000000 * 1000000000 + (number + 1) * 250007125

    def event(self, letter, kind, device, endpoint, data=b"", setup=None, status=0, length=None,
              has_data=True):
        is_answer = letter == "C"
        there = data if has_data else b""
        if setup is not None:
            there = setup + there
        status = (self.STALLED if status else 0) if is_answer else 0
        stages = ([1, 2] if self.is_old and kind == CONTROL else [3]) if is_answer else [0]
        for stage in stages:
            part = b"" if stage == 2 else there
            told = len(part) if length is None or stage == 2 else length
            tail = bytes([stage]) if kind == CONTROL else b""
            self.packets.append(struct.pack(
                "<HQIHBHHBBI", 27 + len(tail), self.number, status, 9 if kind == INTERRUPT else 8,
                1 if is_answer else 0, self.bus, device, endpoint, kind, told) + tail + part)


def alone(mon):
    """A mouse that was plugged in before the capture began."""
    mon.report(3, 0x81, bytes([1, 5, 0xfb]))
    mon.report(3, 0x81, bytes([0, 0, 1]))
    return mon


def mouse(order="<", link=220, bus=1):
    """A mouse that is asked for all, and sends two reports."""
    return asked(Mon(order, link, bus))


def asked(mon):
    """The same by another writer of packets."""
    mon.configuration(3, [(0, 3, 0x81)], 9)
    mon.configuration(3, [(0, 3, 0x81)])
    mon.descriptor(3, 0, digits("mouse.hex"), status=-32)
    mon.descriptor(3, 0, digits("mouse.hex"))
    mon.report(3, 0x81, bytes([1, 5, 0xfb]))
    mon.report(3, 0x81, bytes([0, 0, 1]))
    mon.report(3, 0x81, b"", status=-2)
    return mon


def several():
    """A keyboard with a mouse, a hub, and a device whose configuration isn't there."""
    mon = Mon()
    mon.configuration(3, [(0, 3, 0x81), (1, 3, 0x82)])
    mon.configuration(4, [(0, 9, 0x81)])
    mon.descriptor(3, 0, digits("keyboard.hex"))
    mon.descriptor(3, 1, digits("mouse.hex"))
    mon.report(3, 0x82, bytes([2, 1, 1]))
    mon.report(4, 0x81, bytes([4]))
    mon.report(3, 0x81, bytes([2, 0, 4, 0, 0, 0, 0, 0]))
    mon.report(5, 0x81, bytes([1]))
    mon.report(5, 0x81, bytes([2]))
    return mon


def more():
    """A mouse at a time of some millionths, with what else a bus has: a transfer of blocks that is cut, a
    report that goes out, and one that failed with its data."""
    mon = Mon(step=1)
    mon.configuration(3, [(0, 3, 0x81), (1, 3, 0x01)])
    mon.descriptor(3, 0, digits("mouse.hex"))
    mon.number += 1
    mon.event("C", 3, 3, 0x82, bytes(8), length=512)
    mon.cut[len(mon.packets)] = 504
    mon.report(3, 0x01, bytes([1]))
    mon.report(3, 0x81, bytes([7, 7, 7]), status=-71)
    mon.number += 1
    mon.event("S", INTERRUPT, 3, 0x81, bytes(8), None, -115, 8, has_data=False)
    mon.event("C", INTERRUPT, 3, 0x81, bytes([1, 5, 0xfb]))
    return mon


def part():
    """A mouse of whose configuration a part came, its first interface."""
    mon = Mon()
    mon.configuration(3, [(0, 3, 0x81), (1, 3, 0x82)], 34)
    mon.descriptor(3, 0, digits("mouse.hex"))
    mon.report(3, 0x81, bytes([1, 5, 0xfb]))
    return mon


def other():
    """An answer that another device gives than the one that was asked."""
    mon = Mon()
    data = digits("mouse.hex")
    mon.number += 1
    mon.event("S", CONTROL, 3, 0x80, b"", struct.pack("<BBHHH", 0x81, 6, 0x2200, 0, len(data)), -115, len(data))
    mon.event("C", CONTROL, 4, 0x80, data)
    return mon


def flagged():
    """A mouse, before whose descriptor a keyboard's stands: asked for by a setup packet that isn't there,
    in an answer that failed, and in one without data. The endpoint stands behind what is no descriptor."""
    mon = Mon()
    for flag, place, more in ((14, -2, {}), (None, None, {"status": -71}), (15, -1, {"length": 0})):
        mon.descriptor(3, 0, digits("keyboard.hex"), **more)
        if flag:
            packet = bytearray(mon.packets[place])
            packet[flag] = ord("-" if flag == 14 else "<")
            mon.packets[place] = bytes(packet)
    body = bytes([9, 4, 0, 0, 1, 3, 0, 0, 0]) + bytes([1]) + bytes([7, 5, 0x81, 3, 8, 0, 10])
    whole = struct.pack("<BBHBBBBB", 9, 2, 9 + len(body), 1, 1, 0, 0xa0, 50) + body
    mon.asked(3, struct.pack("<BBHHH", 0x80, 6, 0x0200, 0, len(whole)), whole)
    mon.descriptor(3, 0, digits("mouse.hex"))
    mon.report(3, 0x81, bytes([1, 5, 0xfb]))
    return mon


def files():
    """The captures by their names."""
    mon = mouse()
    cut = mon.pcap()[:-1]
    yield "mouse.pcap", mon.pcap()
    yield "big.pcap", mouse(">", 189, 2).pcap(0xa1b23c4d)
    yield "several.pcapng", several().pcapng({15})
    yield "big.pcapng", mouse(">", 189, 2).pcapng()
    yield "cut.pcap", cut
    yield "cut.pcapng", mon.pcapng()[:-1]
    yield "head.pcap", mon.pcap()[:23]
    ethernet = Mon(link=1)
    ethernet.packets = [bytes(60)]
    yield "ethernet.pcap", ethernet.pcap()
    short = Mon(link=189)
    short.packets = [bytes(47)]
    yield "short.pcap", short.pcap()
    lost = mouse()
    lost.report(3, 0x81, bytes([1, 5]), length=3)
    yield "lost.pcap", lost.pcap()
    two = mouse()
    two.descriptor(3, 0, digits("keyboard.hex"))
    yield "two.pcap", two.pcap()
    unsure = Mon()
    unsure.configuration(3, [(0, 3, 0x81)])
    unsure.configuration(3, [(1, 3, 0x81)])
    unsure.descriptor(3, 0, digits("mouse.hex"))
    unsure.report(3, 0x81, bytes([1, 5, 0xfb]))
    yield "unsure.pcap", unsure.pcap()
    yield "windows.pcap", asked(Cap()).pcap()
    yield "windows_old.pcap", asked(Cap(">", 2, True)).pcap(0xa1b23c4d)
    yield "windows.pcapng", asked(Cap()).pcapng(resolution=9)
    yield "windows_two.pcapng", asked(Cap(">")).pcapng({13}, 0x94)
    yield "windows_cut.pcap", asked(Cap()).pcap()[:24 + 16 + 26]
    short = asked(Cap())
    short.packets = [short.packets[0][:26]]
    yield "windows_short.pcap", short.pcap()
    yield "alone.pcap", alone(Mon()).pcap()
    yield "windows_alone.pcapng", alone(Cap()).pcapng()
    both = alone(Mon())
    both.report(4, 0x81, bytes([4]))
    yield "several_alone.pcap", both.pcap()
    lacking = alone(Mon())
    lacking.report(3, 0x81, bytes([1, 5]), length=3)
    yield "part_alone.pcap", lacking.pcap()
    yield "more.pcap", more().pcap()
    yield "more.pcapng", more().pcapng()
    yield "sections.pcapng", mon.pcapng() + mouse(">", 189, 2).pcapng()
    yield "part.pcap", part().pcap()
    yield "other.pcap", other().pcap()
    yield "flagged.pcap", flagged().pcap()
    yield "ends.pcapng", mon.pcapng()[:-4] + bytes([28, 0, 0, 0])
    yield "none.pcapng", mon.section()[:28] + mon.block(6, bytes(20) + bytes(64))
    yield "old.pcapng", mon.section() + mon.block(2, bytes(20))


def shown(name):
    """What tshark shows of a capture: the items' bytes of descriptors, and the data of interrupts."""
    words = ["tshark", "-r", str(DATA / name), "-T", "fields", "-e", "frame.number",
             "-e", "usb.bus_id", "-e", "usb.device_address", "-e", "usb.setup.wInterface",
             "-e", "usbhid.item.bSize", "-e", "usb.capdata", "-e", "usbhid.data"]
    return subprocess.run(words, capture_output=True, check=False).stdout.decode()


def main():
    for name, content in files():
        if sys.argv[1:] == ["--tshark"]:
            print(f"== {name}\n{shown(name)}", end="")
        elif sys.argv[1:] == ["--check"]:
            if (DATA / name).read_bytes() != content:
                sys.exit(f"usbmon: crates/hid/data/{name} has other bytes")
        else:
            (DATA / name).write_bytes(content)


if __name__ == "__main__":
    main()
