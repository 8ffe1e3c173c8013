#!/usr/bin/env python3
"""Says which event codes Linux gives the usages of a descriptor, by a model of hid-core's parser and of
hid-input (Linux 6.12: drivers/hid/hid-core.c, drivers/hid/hid-input.c, for hid-generic without quirks),
which knows nothing of this library's code; the codes of keys alone it has from
crates/hidreport_linux/data/events.txt, which checks/tree/event_facts.sh compares with the kernel's own.

    linux_events.py HID [WORDS ..]   compares it with `HID fields --json --linux` over all descriptors
                                     that checks/hid/descriptors.sh and compare/devices.txt have
    linux_events.py --model HEX      says the model's answers
"""
import collections
import itertools
import json
import multiprocessing
import os
import subprocess
import sys
import tempfile

TOP = os.path.dirname(os.path.dirname(os.path.abspath(__file__)))
EVENTS = os.path.join(TOP, "crates/hidreport_linux/data/events.txt")
# So many events are compared at least.
LEAST = 20_000
INPUT, OUTPUT, FEATURE = "input", "output", "feature"
LIMITS = {"EV_KEY": 0x2FF, "EV_REL": 0xF, "EV_ABS": 0x3F, "EV_MSC": 7, "EV_LED": 0xF}
KINDS = {"KEY": "EV_KEY", "REL": "EV_REL", "ABS": "EV_ABS", "MSC": "EV_MSC", "LED": "EV_LED"}


def tables():
    names, keys, codes = {}, {}, {}
    for line in open(EVENTS):
        words = line.split()
        if not words or words[0] == "#":
            continue
        if words[0] == "usage":
            if words[3][:3] in ("KEY", "BTN"):
                keys[int(words[1] + words[2], 16)] = codes[words[3]][1]
        else:
            codes[words[2]] = (KINDS[words[0]], int(words[1], 16))
            names[codes[words[2]]] = words[2]
    return names, keys, codes


NAMES, KEYS, CODES = tables()


# What the kernel's own tests expect of the descriptors of these names in compare/devices.txt
# (tools/testing/selftests/hid/tests: test_keyboard.py, test_mouse.py, test_gamepad.py).
KEYS_OF_TESTS = {0x070004: "KEY_A", 0x070006: "KEY_C", 0x07002C: "KEY_SPACE", 0x07001E: "KEY_1",
                 0x07001F: "KEY_2", 0x070020: "KEY_3", 0x070021: "KEY_4", 0x070022: "KEY_5",
                 0x070023: "KEY_6", 0x070024: "KEY_7", 0x070025: "KEY_8", 0x070026: "KEY_9",
                 0x070027: "KEY_0", 0x070014: "KEY_Q", 0x0700E0: "KEY_LEFTCTRL",
                 0x0700E1: "KEY_LEFTSHIFT"}
MOUSE = {0x090001: "BTN_LEFT", 0x090002: "BTN_RIGHT", 0x090003: "BTN_MIDDLE", 0x010030: "REL_X",
         0x010031: "REL_Y"}
WHEEL = {**MOUSE, 0x010038: "REL_WHEEL_HI_RES REL_WHEEL"}
WHEELS = {**WHEEL, 0x0C0238: "REL_HWHEEL_HI_RES REL_HWHEEL"}
STICKS = {0x010030: "ABS_X", 0x010031: "ABS_Y", 0x010032: "ABS_Z", 0x010035: "ABS_RZ",
          0x010039: "ABS_HAT0X ABS_HAT0Y"}
PADS = dict(enumerate("BTN_SOUTH BTN_EAST BTN_C BTN_NORTH BTN_WEST BTN_Z BTN_TL BTN_TR BTN_TL2 BTN_TR2 "
                      "BTN_SELECT BTN_START BTN_MODE BTN_THUMBL BTN_THUMBR".split(), 0x090001))
JOYSTICKS = dict(enumerate("BTN_TRIGGER BTN_THUMB BTN_THUMB2 BTN_TOP BTN_TOP2 BTN_PINKIE BTN_BASE "
                           "BTN_BASE2 BTN_BASE3 BTN_BASE4 BTN_BASE5 BTN_BASE6".split(), 0x090001))
FLIGHT = {0x010030: "ABS_X", 0x010031: "ABS_Y", 0x0200BA: "ABS_RUDDER", 0x0200BB: "ABS_THROTTLE",
          0x010039: "ABS_HAT0X ABS_HAT0Y"}
KERNEL_TESTS = {
    "SaitekGamepad": {**JOYSTICKS, **FLIGHT}, "RaptorMach2Joystick": {**JOYSTICKS, **STICKS},
    "PlainKeyboard": KEYS_OF_TESTS, "ArrayKeyboard": KEYS_OF_TESTS, "LEDKeyboard": KEYS_OF_TESTS,
    "ButtonMouse": MOUSE, "WheelMouse": WHEEL, "TwoWheelMouse": WHEELS,
    "MIDongleMIWirelessMouse": WHEELS, "ResolutionMultiplierMouse": WHEELS,
    "ResolutionMultiplierHWheelMouse": WHEELS, "AsusGamepad": {**STICKS, **PADS},
}


class Refused(Exception):
    pass


def signed(data):
    return int.from_bytes(data, "little", signed=True) if data else 0


def wrap(number, bits=32):
    """The low bits of a number, with a sign."""
    half = 2**(bits - 1)
    return (number + half) % (2 * half) - half


Collection = collections.namedtuple("Collection", "kind usage parent")


class Main:
    """hid-core's field: what one main item says."""

    def __init__(self, **parts):
        self.__dict__.update(parts)
        self.hat = False
        self.events = {}


class Parser:
    """hid-core's parser: the reports of each direction, in the order of their first main items."""

    def __init__(self, raw):
        self.globals = dict(page=0, lmin=0, lmax=0, pmin=0, pmax=0, unit=0, exponent=0, size=0,
                            count=0, id=0)
        self.pushed, self.open, self.collections = [], [], []
        self.reports = {INPUT: {}, OUTPUT: {}, FEATURE: {}}
        self.mains, self.driver, self.no_touch = [], "", False
        self.clear()
        self.read(raw)

    def clear(self):
        self.usages, self.minimum, self.branch, self.depth = [], 0, 0, 0

    def read(self, raw):
        at = 0
        if not raw:
            raise Refused("no items")
        while at < len(raw):
            head = raw[at]
            if head >= 0xF0:
                raise Refused("a long item")
            size = (0, 1, 2, 4)[head & 3]
            data = raw[at + 1:at + 1 + size]
            if len(data) < size:
                raise Refused("cut short")
            kind, tag = head >> 2 & 3, head >> 4
            (self.main, self.take_global, self.take_local, lambda *_: None)[kind](tag, data)
            at += 1 + size
        if self.open or self.depth:
            raise Refused("not closed")

    def take_global(self, tag, data):
        number, g = int.from_bytes(data, "little"), self.globals
        if tag == 0:
            g["page"] = number
        elif tag == 1:
            g["lmin"] = signed(data)
        elif tag == 2:
            g["lmax"] = signed(data) if g["lmin"] < 0 else wrap(number)
        elif tag == 3:
            g["pmin"] = signed(data)
        elif tag == 4:
            g["pmax"] = signed(data) if g["pmin"] < 0 else wrap(number)
        elif tag == 5:
            raw = signed(data)
            g["exponent"] = raw - 16 if 8 <= raw <= 15 else raw
        elif tag == 6:
            g["unit"] = number
        elif tag == 7:
            g["size"] = number
            if number > 256:
                raise Refused("a report size")
        elif tag == 8:
            g["id"] = number
            if not 0 < number < 256:
                raise Refused("a report id")
        elif tag == 9:
            g["count"] = number
            if number > 12288:
                raise Refused("a report count")
        elif tag == 10:
            if len(self.pushed) == 4:
                raise Refused("too many pushes")
            self.pushed.append(dict(g))
        elif tag == 11:
            if not self.pushed:
                raise Refused("a pop")
            self.globals = self.pushed.pop()
        else:
            raise Refused("a global item")

    def add_usage(self, number, size):
        if len(self.usages) >= 12288:
            raise Refused("too many usages")
        if size <= 2:
            number = number & 0xFFFF | (self.globals["page"] & 0xFFFF) << 16
        self.usages.append([number, size])

    def take_local(self, tag, data):
        number = int.from_bytes(data, "little")
        if tag == 10:
            if number:
                if self.depth:
                    raise Refused("sets within sets")
                self.depth += 1
                self.branch += 1
            else:
                if not self.depth:
                    raise Refused("a set that isn't open")
                self.depth -= 1
        elif self.branch > 1 or tag > 2:
            return
        elif tag == 0:
            self.add_usage(number, len(data))
        elif tag == 1:
            self.minimum = number
        else:
            if (number - self.minimum + len(self.usages)) % 2**32 >= 12288:
                number = (12288 - len(self.usages) + self.minimum - 1) % 2**32
                if number == 0:
                    raise Refused("too many usages")
            if number == 2**32 - 1:
                # It counts on from 0 until there are too many.
                raise Refused("too many usages")
            for one in range(self.minimum, number + 1):
                self.add_usage(one, len(data))

    def concatenate(self):
        page = self.globals["page"]
        for usage in reversed(self.usages):
            if usage[1] > 2:
                continue
            if usage[0] >> 16 == page:
                break
            usage[0] = usage[0] & 0xFFFF | (page & 0xFFFF) << 16

    def main(self, tag, data):
        self.concatenate()
        number = int.from_bytes(data, "little")
        if tag == 10:
            kind = number & 0xFF
            self.scan_collection(kind)
            self.collections.append(Collection(kind, self.usages[0][0] if self.usages else 0,
                                               self.open[-1] if self.open else None))
            self.open.append(len(self.collections) - 1)
        elif tag == 12:
            if not self.open:
                raise Refused("an end of no collection")
            self.open.pop()
        elif tag in (8, 9, 11):
            self.add_field({8: INPUT, 9: OUTPUT, 11: FEATURE}[tag], number)
        self.clear()

    def scan_collection(self, kind):
        """What hid-core's scan makes of a collection: the group that is set last stays."""
        page = self.globals["page"] << 16 & 0xFFFFFFFF
        if page == 0x200000 and kind < 2:
            self.driver = "hid-sensor-hub"
        # hid-vivaldi gives inputs the codes of hid-generic, of which nothing is said.
        if page == 0xFFD10000 and any(usage == 0xFFD10001 for usage, _ in self.usages):
            self.driver = ""

    def around(self, kind):
        for one in reversed(self.open):
            if self.collections[one].kind == kind:
                return self.collections[one].usage
        return 0

    def add_field(self, direction, flags):
        g, application = self.globals, self.around(1)
        report = self.reports[direction].setdefault(
            g["id"], dict(application=application, size=0, fields=[]))
        low, high = g["lmin"], g["lmax"]
        if low < 0 and high < low or low >= 0 and high % 2**32 < low:
            raise Refused("bounds")
        offset = report["size"]
        report["size"] += g["size"] * g["count"]
        if report["size"] > (16384 - 1) * 8:
            raise Refused("a long report")
        main = Main(direction=direction, flags=flags, offset=offset, id=g["id"], size=g["size"],
                    count=g["count"], lmin=low, lmax=high, pmin=g["pmin"], pmax=g["pmax"],
                    unit=g["unit"], exponent=g["exponent"], application=application,
                    physical=self.around(0), logical=self.around(2),
                    inner=self.collections[self.open[-1]] if self.open else
                    self.collections[0] if self.collections else Collection(0, 0, None),
                    own=[u[0] for u in self.usages], kept=False)
        self.mains.append(main)
        if direction == INPUT and not flags & 1 and 0x0D0051 in main.own:
            self.driver = "hid-multitouch"
        if not self.usages or len(report["fields"]) == 256:
            return
        main.kept = True
        report["fields"].append(main)


class Unmapped(Exception):
    pass


def want(main, usage):
    """The code that a usage asks for, and whether it takes it from others; or nothing."""
    page, number = usage >> 16, usage & 0xFFFF
    relative, low = bool(main.flags & 4), number & 0xFF

    def named(name, shares=False):
        return CODES[name] + (shares,)

    def key(code, shares=True):
        return ("EV_KEY", code, shares)

    def unknown():
        if main.size == 1:
            return named("LED_MISC") if main.direction == OUTPUT else key(0x100, False)
        return named("REL_MISC" if relative else "ABS_MISC")

    def listed(usage):
        if usage in KEYS:
            return key(KEYS[usage])
        raise Unmapped

    def pen():
        return 0x0D0002 in (main.application, main.physical) or main.application == 0x0D0001 or \
            0x0D0020 in (main.logical, main.physical)

    if page in (0, 0xFF, 0xFF00, 0xFF09, 0xFF43, 0xFFBC):
        raise Unmapped
    if page == 7:
        if number > 255:
            return named("KEY_UNKNOWN")
        if number < 4:
            raise Unmapped
        return key(KEYS.get(usage, 240))
    if page == 9:
        button = number - 1 if number else 0xFFFF
        application, physical = main.application, main.physical
        sticks = {0x10004: 0x120, 0x10005: 0x130}
        if application in (0x10001, 0x10002):
            return key(0x110 + button, False)
        if application in sticks:
            return key(button + (sticks[application] if button < 16 else 0x2C0 - 16), False)
        if application == 0xC0001 and (main.inner.kind, main.inner.usage) == (4, 0xC0003):
            return key(button + (0x290 if button < 30 else 0x2C0 - 30), False)
        if physical in (0x10001, 0x10002):
            return key(0x110 + button, False)
        return key(sticks.get(physical, 0x100) + button, False)
    if page == 2:
        axes = {0xBA: "RUDDER", 0xBB: "THROTTLE", 0xC4: "GAS", 0xC5: "BRAKE", 0xC8: "WHEEL"}
        if number in axes:
            return named("ABS_" + axes[number])
        raise Unmapped
    if page == 1:
        row = low >> 4
        if row == 8:
            return listed(0x10000 | low) if low & 15 else unknown()
        if row == 9:
            if 0x90 <= number <= 0x93:
                if main.hat:
                    raise Unmapped
                return named("ABS_HAT0X")
            return named("KEY_DO_NOT_DISTURB", True) if number == 0x9B else unknown()
        if row == 10:
            if low in (0xA9, 0xAA):
                return named("KEY_MICMUTE" if low == 0xA9 else "KEY_ACCESSIBILITY", True)
            raise Unmapped
        if row == 11:
            if low == 0xB5:
                return named("KEY_SWITCHVIDEOMODE", True)
            raise Unmapped
        if main.application == 0x10080:
            raise Unmapped
        if number in (0x30, 0x31, 0x33, 0x34, 0x35):
            return ("EV_REL", number & 15, False) if relative else ("EV_ABS", number & 15, True)
        if number == 0x32:
            if relative:
                return named("REL_Z")
            return named("ABS_DISTANCE" if pen() else "ABS_Z", True)
        if number == 0x38:
            return named("REL_WHEEL_HI_RES" if relative else "ABS_WHEEL")
        if number in (0x36, 0x37):
            return ("EV_REL" if relative else "EV_ABS", number & 15, False)
        if number == 0x39:
            return named("ABS_HAT0X")
        if number in (0x3D, 0x3E):
            return named("BTN_START" if number == 0x3D else "BTN_SELECT", True)
        if number == 0xC6 and main.application == 0x1000C:
            main.flags |= 4
            return named("KEY_RFKILL", True)
        return unknown()
    if page == 8:
        lamps = {1: "NUML", 2: "CAPSL", 3: "SCROLLL", 4: "COMPOSE", 5: "KANA", 0x27: "SLEEP",
                 0x4C: "SUSPEND", 9: "MUTE", 0x4B: "MISC", 0x19: "MAIL", 0x4D: "CHARGING"}
        if number in lamps:
            return named("LED_" + lamps[number])
        raise Unmapped
    if page == 0x0D:
        switches = {0x33: "BTN_TOUCH", 0x42: "BTN_TOUCH", 0x43: "BTN_TOUCH", 0x44: "BTN_STYLUS",
                    0x45: "BTN_TOUCH", 0x46: "BTN_STYLUS2", 0x5A: "BTN_STYLUS2",
                    0x3C: "BTN_TOOL_RUBBER", 0x30: "ABS_PRESSURE", 0x3D: "ABS_TILT_X",
                    0x3E: "ABS_TILT_Y"}
        if low in (0, 0x3B):
            raise Unmapped
        if low in switches:
            return named(switches[low], True)
        if low == 0x32:
            if main.physical == 0:
                is_finger = main.application in (0x0D0004, 0x0D0005)
                return named("BTN_TOOL_FINGER" if is_finger else "BTN_TOOL_PEN", True)
            tools = {0x0D0021: "BTN_TOOL_MOUSE", 0x0D0022: "BTN_TOOL_FINGER"}
            return named(tools.get(main.physical, "BTN_TOOL_PEN"))
        if low in (0x5B, 0x6E):
            return named("MSC_SERIAL")
        return unknown()
    if page == 0x0C:
        if number == 0:
            raise Unmapped
        if number == 0xE0:
            return named("ABS_VOLUME", True)
        if number == 0x238:
            return named("REL_HWHEEL_HI_RES")
        return key(KEYS.get(usage, 240))
    if page in (0x0B, 0x0F, 0x90, 0xFF01, 0xFF7F):
        return listed(usage)
    if usage in (0x060020, 0x850044, 0x850065):
        raise Unmapped
    return unknown()


def resolution(main, code):
    span, stands = wrap(main.lmax - main.lmin), wrap(main.pmax - main.pmin)
    exponent = main.exponent
    if span <= 0 or stands <= 0:
        return 0
    lengths = ("X Y Z MT_POSITION_X MT_POSITION_Y MT_TOOL_X MT_TOOL_Y MT_TOUCH_MAJOR "
               "MT_TOUCH_MINOR").split()
    angles = "RX RY RZ WHEEL TILT_X TILT_Y".split()
    if code in [CODES["ABS_" + name][1] for name in lengths]:
        if main.unit == 0x11:
            exponent += 1
        elif main.unit == 0x13:
            before, stands = stands, wrap(stands * 254)
            if stands < before:
                return 0
            exponent -= 1
        else:
            return 0
    elif code in [CODES["ABS_" + name][1] for name in angles]:
        if main.unit == 0x14:
            before, span = span, wrap(span * 573)
            if span < before:
                return 0
            exponent += 1
        elif main.unit != 0x12:
            return 0
    else:
        return 0
    while exponent < 0:
        before, span, exponent = span, wrap(span * 10), exponent + 1
        if span < before:
            return 0
    while exponent > 0:
        before, stands, exponent = stands, wrap(stands * 10), exponent - 1
        if stands < before:
            return 0
    half = wrap(span + stands // 2)
    return abs(half) // stands * (1 if half >= 0 else -1)


class Device:
    """An input device: its codes, and the numbers of its axes, which the last usage sets."""

    def __init__(self, application):
        self.application, self.bits, self.axes = application, set(), {}


class Event:
    """What a usage has: its code, the axis of its device, and the codes beside it."""

    def __init__(self, kind, code, device, beside, is_pressure):
        self.kind, self.code, self.device, self.beside = kind, code, device, beside
        self.is_pressure = is_pressure

    def row(self, parser):
        """The same behind all usages: a pressure has BTN_TOUCH while the quirk for it stands."""
        axis = self.device.axes.get(self.code) if self.kind == "EV_ABS" else None
        beside = self.beside + (["BTN_TOUCH"] if self.is_pressure and parser.no_touch else [])
        return self.kind, self.code, axis, beside


def configure(parser, device, main, usage):
    """One usage: its event, if it has one."""
    if main.flags & 1 or main.count < 1 or main.direction == OUTPUT and usage >> 16 != 8:
        return None
    bits = device.bits
    try:
        kind, code, shares = want(main, usage)
    except Unmapped:
        return None
    page, number, beside = usage >> 16, usage & 0xFFFF, []
    direction = page == 1 and 0x90 <= number <= 0x93
    hat = usage == 0x10039 and wrap(main.lmin, 16) < wrap(main.lmax, 16)
    pressure = page == 0x0D and number & 0xFF == 0x30
    if (kind, code) == CODES["REL_WHEEL_HI_RES"]:
        beside.append("REL_WHEEL")
    if (kind, code) == CODES["REL_HWHEEL_HI_RES"]:
        beside.append("REL_HWHEEL")
    if pressure and CODES["BTN_TOUCH"] not in bits:
        parser.no_touch = True
        bits.add(CODES["BTN_TOUCH"])
    if page == 0x0D and number & 0xFF in (0x33, 0x42, 0x43):
        parser.no_touch = False
    if page == 0x0D and number & 0xFF == 0x45:
        beside.append("BTN_TOOL_RUBBER")
    bits.update(CODES[name] for name in beside)
    if code > LIMITS[kind]:
        return None
    if shares:
        bits.discard((kind, code))
    if (kind, code) in bits:
        return None
    bits.add((kind, code))
    if kind == "EV_ABS":
        low, high = main.lmin, main.lmax
        span = wrap(high - low) if main.application in (0x10004, 0x10005) else 0
        device.axes[code] = [low, high, span >> 8, span >> 4, resolution(main, code)]
        if hat or direction:
            device.axes[code] = device.axes[code + 1] = [-1, 1, 0, 0, device.axes[code][4]]
            bits.add(("EV_ABS", code + 1))
            beside.append("ABS_HAT0Y")
        if direction:
            main.hat = True
        if code == 0x20 and main.flags & 4:
            bits |= {CODES["KEY_VOLUMEUP"], CODES["KEY_VOLUMEDOWN"]}
            beside += ["KEY_VOLUMEDOWN", "KEY_VOLUMEUP"]
    return Event(kind, code, device, beside, pressure)


def is_input(usage):
    return 0x10000 <= usage <= 0x10008 or 0xD0001 <= usage <= 0xD0006 or \
        usage in (0x10080, 0xC0001, 0x1000C)


def connect(parser):
    """Goes over all reports as hid-input does when a device comes."""
    if not any(c.kind < 2 and is_input(c.usage) for c in parser.collections):
        return
    by_application = sum(c.kind == 1 for c in parser.collections) > 1
    devices, device = [], None
    for direction in (INPUT, OUTPUT):
        for report in parser.reports[direction].values():
            if not report["fields"]:
                continue
            application = report["application"]
            if by_application:
                device = next((d for d in devices if d.application == application or
                               application in (0x10080, 0xC0001) and d.application == 0x10006),
                              None)
            if device is None:
                device = Device(application)
                devices.append(device)
            for main in report["fields"]:
                usages = main.own + main.own[-1:] * (main.count - len(main.own))
                for index, usage in enumerate(usages):
                    main.events[index] = configure(parser, device, main, usage)


def answers(raw):
    """For each value of each main item with data its code and its axis: as `hid` says them."""
    parser = Parser(raw)
    connect(parser)
    rows = []
    for direction in (INPUT, OUTPUT, FEATURE):
        for number, report in parser.reports[direction].items():
            for main in parser.mains:
                if (main.direction, main.id) == (direction, number) and main.size * main.count:
                    rows += rows_of(parser, main, bool(number))
    return parser, rows


def rows_of(parser, main, has_id):
    """Rows of (direction, id, first bit, usage, event); usages without a field have no first bit."""
    events = {index: event and event.row(parser) for index, event in main.events.items()}
    first = main.offset + (8 if has_id else 0)
    if main.flags & 1 or not main.own:
        return []
    if main.flags & 2:
        usages = main.own + main.own[-1:] * (main.count - len(main.own))
        return [(main.direction, main.id, first + main.size * k, usages[k], events.get(k))
                for k in range(main.count)] + [
                    (main.direction, main.id, None, usages[k], events.get(k))
                    for k in range(main.count, len(usages))]
    return [(main.direction, main.id, first, usage, events.get(k))
            for k, usage in enumerate(main.own)]


def said_of(program, raw, words):
    """The fields that `hid` says, and its standard error."""
    with tempfile.NamedTemporaryFile() as file:
        file.write(raw)
        file.flush()
        run = subprocess.run([program, *words, "fields", "--form", "bytes", "--json", "--linux",
                              file.name], capture_output=True, timeout=60)
    said = run.stderr.decode()
    if run.returncode:
        return None, said
    return [json.loads(line) for line in run.stdout.decode().splitlines()], said


def asked(program, raw, words):
    """What `hid` answers, in the same rows."""
    fields, said = said_of(program, raw, words)
    if fields is None:
        return None, said
    rows = []
    for field in fields:
        place = (field["direction"], field["report"] or 0, field.get("start"))
        for answer in field["linux"] or []:
            event = None
            if answer.get("none", "").startswith("past the first 12288 usages"):
                continue
            if "code" in answer:
                axis = answer.get("axis")
                axis = axis and [axis[k] for k in ("minimum", "maximum", "fuzz", "flat",
                                                   "resolution")]
                event = (answer["event_type"], answer["code"], axis, answer.get("beside", []))
                name = NAMES.get(event[:2])
                assert answer.get("name") == name, (answer, name)
            if field["kind"] != "padding":
                for usage in range(answer["first"], answer["last"] + 1):
                    rows.append(place + (usage, event))
    return rows, said


def descriptors():
    """All descriptors of the tree, each once."""
    listed = subprocess.run(["bash", os.path.join(TOP, "checks/hid/descriptors.sh")],
                            capture_output=True, check=True).stdout.decode()
    found = [line.split()[0] for line in listed.splitlines()]
    for name in "devices", "linux_made":
        for line in open(os.path.join(TOP, f"compare/{name}.txt")):
            if line.strip() and not line.startswith("#"):
                found.append(line.split(":")[-1].replace(" ", "").strip())
    return [bytes.fromhex(digits) for digits in dict.fromkeys(found)]


def kernel_tests(program):
    """What differs from what the kernel's tests expect, of those of its usages that a field has."""
    faults, rows = [], 0
    for line in open(os.path.join(TOP, "compare/devices.txt")):
        name, _, digits = line.partition(":")
        if name not in KERNEL_TESTS:
            continue
        raw, wanted = bytes.fromhex(digits.split(":")[-1].replace(" ", "")), KERNEL_TESTS[name]
        fields, _ = said_of(program, raw, [])
        for answer in [answer for field in fields for answer in field["linux"]]:
            if answer["first"] in wanted:
                rows += 1
                got = " ".join([answer.get("name") or "-", *answer.get("beside", [])])
                if got != wanted[answer["first"]]:
                    faults.append(f"{name}: {answer}: not {wanted[answer['first']]}")
    if rows < 100:
        faults.append(f"only {rows} rows of the kernel's tests were asked")
    return faults


def compare_one(question):
    """What kind of answer there is to a descriptor, how many events, and what is wrong."""
    program, words, raw = question
    rows, said = asked(program, raw, words)
    count = sum(row[4] is not None for row in rows or [])
    try:
        parser, wanted = answers(raw)
    except Refused as refused:
        is_said = rows is None or "codes aren't known" in said
        fault = "" if is_said and not count else f"Linux refuses it: {refused}"
        return "refused by Linux", 0, fault
    if rows is None:
        fault = f"{said}: Linux doesn't" if "Linux refuses it" in said else ""
        return "refused by hid", 0, fault
    if "codes aren't known" in said:
        return "not known", 0, f"{count} events" if count else ""
    driver = parser.driver
    if ("takes such a device" in said) != bool(driver) or driver not in said:
        return "compared", count, f"{said}, and not {driver}"
    if driver:
        return "driven otherwise", 0, ""
    for own, theirs in itertools.zip_longest(rows, wanted):
        if own != theirs:
            return "compared", count, f"hid {own}, the model {theirs}"
    return "compared", count, ""


def compare(program, words):
    counts = collections.Counter()
    for fault in kernel_tests(program):
        counts["faults"] += 1
        print(fault)
    questions = [(program, words, raw) for raw in descriptors()]
    with multiprocessing.Pool(2) as pool:
        for (_, _, raw), answer in zip(questions, pool.imap(compare_one, questions, 8)):
            kind, events, fault = answer
            counts[kind] += 1
            counts["events"] += events
            if fault:
                counts["faults"] += 1
                print(f"{raw.hex()}: {fault}")
    print(", ".join(f"{name}: {count}" for name, count in sorted(counts.items())))
    if counts["events"] < LEAST:
        print("too few events were compared")
    return counts["faults"] != 0 or counts["events"] < LEAST


def main(words):
    if words[:1] == ["--model"]:
        for row in answers(bytes.fromhex("".join(words[1:])))[1]:
            print(row)
        return 0
    return compare(words[0], words[1:])


if __name__ == "__main__":
    sys.exit(main(sys.argv[1:]))
