#!/usr/bin/env python3
"""windows_usages.py FOLDER HID: compares the usages that `hid fields` finds, by both rules, with
those that Windows found of the same devices: hidapi keeps what Windows makes of a descriptor beside
the descriptor as the device has it (FOLDER is its windows/test/data, in the source packages of
hidapi and libsdl3). HID is the program. Its status is 0 where none differs."""
import glob
import json
import os
import re
import subprocess
import sys

KINDS = ["input", "output", "feature"]


def descriptor_in(path):
    """The descriptor's bytes: a line of C for each item, or bytes behind the words of the item."""
    lines = [line.strip() for line in open(path, encoding="latin1")]
    in_c = [line.split("//")[0] for line in lines if line.startswith("0x")]
    if in_c:
        return bytes(int(digits, 16) for digits in re.findall("0x(..)", "".join(in_c)))
    tails = [line.rsplit(")", 1)[-1] if ")" in line else line.split()[-1]
             for line in lines if ")" in line or line.startswith(("End", "Push", "Pop"))]
    return b"".join(bytes.fromhex(tail) for tail in tails
                    if re.fullmatch("([0-9A-Fa-f]{2} ?)+", tail.strip()))


def found_by_windows(path):
    """Each part that Windows lists, with its direction: names of numbers."""
    text, parts, found = open(path, encoding="latin1").read(), {}, []
    for index, name, number in re.findall(r"pp_data->cap\[(\d+)\]->(\S+) *= (\S+)", text):
        parts.setdefault(int(index), {})[name] = int(number, 0)
    for at, kind in enumerate(KINDS):
        first, count = (int(re.search(rf"caps_info\[{at}\]->{name} *= (\d+)", text).group(1))
                        for name in ("FirstCap", "NumberOfCaps"))
        found += [(kind, parts[index]) for index in range(first, first + count) if index in parts]
    return [(kind, part) for kind, part in found if not part["IsPadding"] and not part["IsAlias"]]


def fields_of(program, descriptor, rule):
    said = subprocess.run([program, "fields", "--json", "--as", rule, "--form", "hex", "-"],
                          input=descriptor.hex().encode(), capture_output=True, check=True).stdout
    return [json.loads(line) for line in said.decode().splitlines()]


def asked(kind, part):
    """The first bit, the width and the usages of each field of a part: of an array all of them."""
    report = part["ReportID"] or None
    first = (part["BytePosition"] - (0 if report else 1)) * 8 + part["BitPosition"]
    names = ("Range.UsageMin", "Range.UsageMax") if part["IsRange"] else ("NotRange.Usage",) * 2
    least, most = (part["UsagePage"] << 16 | part[name] for name in names)
    if not part["BitField"] & 2:
        return [(kind, report, first, None, (least, most))]
    size = part["BitSize"]
    return [(kind, report, first + size * k, first + size * (k + 1), min(least + k, most))
            for k in range(part["ReportCount"])]


def is_found(fields, question):
    kind, report, start, end, usage = question
    for field in fields:
        if (field["direction"], field["report"], field["start"]) != (kind, report, start):
            continue
        if end is not None:
            return field["end"] == end and field.get("usage") == usage
        listed = [each["usage"] if isinstance(each, dict) else each
                  for each in field.get("usages") or field.get("usage_range") or []]
        return all(each in listed for each in usage)
    return False


def main():
    folder, program = sys.argv[1:]
    differing = 0
    for rule in ("standard", "linux"):
        count = devices = 0
        for path in sorted(glob.glob(os.path.join(folder, "*.pp_data"))):
            beside = path[:-len(".pp_data")] + "_real.rpt_desc"
            if not os.path.exists(beside):
                continue
            fields = fields_of(program, descriptor_in(beside), rule)
            questions = [each for found in found_by_windows(path) for each in asked(*found)]
            others = [each for each in questions if not is_found(fields, each)]
            for other in others:
                print(os.path.basename(path), rule, *other)
            count, devices = count + len(questions), devices + 1
            differing += len(others)
        print(f"{rule}: {count} usages of {devices} devices")
    print(f"{differing} differ")
    sys.exit(differing != 0 or count == 0)


if __name__ == "__main__":
    main()
