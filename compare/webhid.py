#!/usr/bin/env python3
"""Compares `HID convert --to webhid` with a model of WebHID's `HIDDevice.collections` (the W3C community
group's draft "WebHID API", read as Chromium's services/device/public/cpp/hid does), which knows nothing
of this library's code, over all descriptors that checks/hid/descriptors.sh and compare/devices.txt
have: what is read has the model's answer, what is refused none. An answer that is read back as a
descriptor has to give itself again, to the byte, but for one that is refused: without a collection, or
with data without a usage. Then each value of an answer, spoilt, and each byte of what is read back have
to be noticed.

    webhid.py HID [WORDS ..]   compares, with these words before `convert`
    webhid.py --model HEX      says the model's answer
"""
import json
import multiprocessing.pool
import os
import subprocess
import sys

TOP = os.path.dirname(os.path.dirname(os.path.abspath(__file__)))
# So many items of reports are compared at least.
LEAST = 10_000
SYSTEMS = {0: "none", 1: "si-linear", 2: "si-rotation", 3: "english-linear", 4: "english-rotation",
           15: "vendor-defined"}
FACTORS = ["Length", "Mass", "Time", "Temperature", "Current", "LuminousIntensity"]
LISTS = {0x80: "inputReports", 0x90: "outputReports", 0xb0: "featureReports"}
# Names of globals by their tags; those of `SIGNED` have a sign.
GLOBALS = {0x04: "page", 0x14: "logicalMinimum", 0x24: "logicalMaximum", 0x34: "physicalMinimum",
           0x44: "physicalMaximum", 0x54: "exponent", 0x64: "unit", 0x74: "reportSize", 0x84: "id",
           0x94: "reportCount"}
SIGNED = {0x14, 0x24, 0x34, 0x44}
END = 0xc0


def items_of(data):
    """Each short item's header without its size, its data and the number of these bytes."""
    at = 0
    while at < len(data):
        header = data[at]
        if header == 0xfe:
            at += 3 + data[at + 1]
            continue
        size = (0, 1, 2, 4)[header & 3]
        yield header & 0xfc, data[at + 1:at + 1 + size]
        at += 1 + size


def signed(number, bits):
    return number - (1 << bits) if bits and number >> (bits - 1) & 1 else number


def power(number):
    """A power of ten: a nibble with a sign, of greater numbers the low byte with a sign."""
    return signed(number, 4) if number < 16 else signed(number & 0xff, 8)


def item_of(tag, flags, known, usages, bounds):
    """A main item as a HIDReportItem. An Input has no flag 7."""
    unit = known["unit"]
    item = {"isConstant": bool(flags & 1), "isArray": not flags & 2, "isAbsolute": not flags & 4,
            "wrap": bool(flags & 8), "isLinear": not flags & 0x10,
            "hasPreferredState": not flags & 0x20, "hasNull": bool(flags & 0x40),
            "isVolatile": bool(flags & 0x80) and tag != 0x80, "isBufferedBytes": bool(flags & 0x100),
            "isRange": len(bounds) == 2, "unitExponent": power(known["exponent"]),
            "unitSystem": SYSTEMS.get(unit & 15, "reserved")}
    if item["isRange"]:
        item.update(usageMinimum=bounds[0x18], usageMaximum=bounds[0x28])
    if usages or not item["isRange"]:
        item["usages"] = list(usages)
    for place, name in enumerate(FACTORS, 1):
        item[f"unitFactor{name}Exponent"] = signed(unit >> 4 * place & 15, 4)
    for name in ("reportSize", "reportCount", "logicalMinimum", "logicalMaximum", "physicalMinimum",
                 "physicalMaximum"):
        item[name] = known[name]
    return item


def model(data):
    """What `HIDDevice.collections` is for a descriptor."""
    top, around, pushed = [], [], []
    known, usages, bounds = dict.fromkeys(GLOBALS.values(), 0), [], {}
    for tag, digits in items_of(data):
        number = int.from_bytes(digits, "little")
        if tag == 0xa0:
            first = usages[0] if usages else bounds[0x18] if len(bounds) == 2 else 0
            own = {"usagePage": first >> 16, "usage": first & 0xffff, "type": number & 0xff,
                   "children": [], **{name: {} for name in LISTS.values()}}
            (around[-1]["children"] if around else top).append(own)
            around.append(own)
        elif tag == 0xc0:
            del around[-1:]
        elif tag in LISTS:
            item = item_of(tag, number, known, usages, bounds)
            for own in around:
                own[LISTS[tag]].setdefault(known["id"], []).append(item)
        elif tag == 0xa4:
            pushed.append(dict(known))
        elif tag == 0xb4:
            known = pushed.pop()
        elif tag in GLOBALS:
            bits = 8 * len(digits) if tag in SIGNED else 0
            known[GLOBALS[tag]] = signed(number, bits)
        elif tag in (0x08, 0x18, 0x28):
            usage = number if number > 0xffff else (known["page"] & 0xffff) << 16 | number
            if tag == 0x08:
                usages.append(usage)
            else:
                bounds[tag] = usage
        if tag & 0x0c == 0:
            usages, bounds = [], {}
    return [listed(own) for own in top]


def listed(collection):
    """A collection with its reports as lists, in the order of their ids."""
    for name in LISTS.values():
        collection[name] = [{"reportId": key, "items": items}
                            for key, items in sorted(collection[name].items())]
    for own in collection["children"]:
        listed(own)
    return collection


def descriptors():
    """All descriptors of the tree, each once."""
    said = subprocess.run(["bash", os.path.join(TOP, "checks/hid/descriptors.sh")],
                          capture_output=True, check=True).stdout.decode()
    found = [line.split()[0] for line in said.splitlines()]
    for line in open(os.path.join(TOP, "compare/devices.txt")):
        if line.strip() and not line.startswith("#"):
            found.append(line.split(":")[-1].replace(" ", "").strip())
    return [bytes.fromhex(digits) for digits in dict.fromkeys(found)]


def run(words, data):
    said = subprocess.run([*words, "--form", "hex", "-"], input=data.hex().encode(),
                          capture_output=True)
    return said.returncode, said.stdout.decode()


def read_back(words, text):
    """The descriptor of a text of collections, or why it is refused."""
    said = subprocess.run([*words, "convert", "--form", "webhid", "-"], input=text.encode(),
                          capture_output=True)
    if said.returncode:
        return None, said.stderr.decode()
    return bytes.fromhex(said.stdout.decode()), ""


def lacks_usages(collections):
    """Whether an item of data has no usage."""
    return any(not item["isConstant"] and not item["isRange"] and not item["usages"]
               for own in collections for name in LISTS.values()
               for report in own[name] for item in report["items"])


def stays(words, text):
    """What becomes of collections that are read back: `same` again, `none` or `bare` if they are refused
    without a collection or with data without a usage, else `other`."""
    data, why = read_back(words, text)
    if data is None:
        return "none" if not json.loads(text) and why.endswith(": has no collection\n") else "other"
    status, said = run([*words, "convert", "--to", "webhid"], data)
    if status and not said and lacks_usages(json.loads(text)):
        return "bare"
    return "same" if said == text else "other"


def asked(words, data):
    """Whether a descriptor is answered as the model does, and the answer with what becomes of it read
    back; none of one that is refused."""
    refused = any(json.loads(line).get("odd", "").startswith("refused: ")
                  for line in run([*words, "check", "--json"], data)[1].splitlines())
    status, said = run([*words, "convert", "--to", "webhid"], data)
    if refused or status:
        return refused and status == 1 and not said, None, "refused"
    answer, again = json.loads(said), stays(words, said)
    return answer == model(data) and again != "other", answer, again


def noticed(words, data):
    """How many spoilt texts of a descriptor's collections give themselves again or are refused, and how
    many bytes of the descriptor read back, spoilt, give others, but for ends of collections, which end
    by themselves; whether all do."""
    text = run([*words, "convert", "--to", "webhid"], data)[1]
    own, _ = read_back(words, text)
    texts, given = list(spoilt(json.loads(text))), 0
    for other in texts:
        back, _ = read_back(words, json.dumps(other))
        given += back is None or model(back) == other
    others = [own[:at] + bytes([own[at] ^ 1]) + own[at + 1:] for at in range(len(own))
              if own[at] != END]
    seen = sum(run([*words, "convert", "--to", "webhid"], other)[1] != text for other in others)
    return given, seen, given == len(texts) and seen == len(others)


def items_in(collections):
    """How many items of reports there are, those of each collection."""
    return sum(len(report["items"]) for own in collections for name in LISTS.values()
               for report in own[name]) + sum(items_in(own["children"]) for own in collections)


def spoilt(value):
    """A value with each part of it changed in turn: one that differs from it each time."""
    if isinstance(value, dict):
        for key, own in value.items():
            for other in spoilt(own):
                yield {**value, key: other}
        return
    if isinstance(value, list):
        if value:
            yield value[1:]
        for place, own in enumerate(value):
            for other in spoilt(own):
                yield [*value[:place], other, *value[place + 1:]]
        return
    yield not value if isinstance(value, bool) else value + (1 if isinstance(value, int) else "x")


def main(words):
    if words[:1] == ["--model"]:
        print(json.dumps(model(bytes.fromhex(words[1])), indent=1))
        return 0
    if not words:
        print(__doc__)
        return 2
    words = [os.path.abspath(words[0]), *words[1:]]
    all_of_them = descriptors()
    with multiprocessing.pool.ThreadPool() as pool:
        answers = pool.map(lambda data: asked(words, data), all_of_them)
    differing = [data.hex() for data, (agrees, *_) in zip(all_of_them, answers) if not agrees]
    for digits in differing[:20]:
        print(f"webhid: answered otherwise than the model does: {digits[:200]}")
    count = sum(items_in(answer) for _, answer, _ in answers if answer is not None)
    mouse = bytes.fromhex("05010902a1010901a10085010509190129031500250195037501810255fd6613d1"
                          "050109300931158125761681ff8106c0c0")
    wanted, changed = asked(words, mouse)[1], 0
    for other in spoilt(wanted):
        changed += 1
        if other == model(mouse):
            differing.append("")
            print("webhid: a spoilt answer isn't noticed")
    given, seen, are_all = noticed(words, mouse)
    if not are_all:
        differing.append("")
        print(f"webhid: of spoilt texts {given} are as they should be, of spoilt bytes {seen} noticed")
    if differing or count < LEAST or changed < 100:
        print(f"webhid: {len(differing)} descriptors differ, of {len(all_of_them)}; {count} items")
        return 1
    read = sum(answer is not None for _, answer, _ in answers)
    print(f"webhid: {read} descriptors with {count} items of reports as the model has them, "
          f"{len(answers) - read} refused; {changed} spoilt answers are noticed")
    became = [again for _, _, again in answers]
    print(f"webhid: {became.count('same')} answers that are read back give themselves again, "
          f"{became.count('none')} without a collection and {became.count('bare')} with data without a "
          f"usage are refused; {given} spoilt texts and {seen} spoilt bytes are noticed")
    return 0


if __name__ == "__main__":
    sys.exit(main(sys.argv[1:]))
