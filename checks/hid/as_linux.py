#!/usr/bin/env python3
"""`hid` takes and reads descriptors as Linux's hid-core does: compare/linux_readings.txt has what its own
functions answered to some two thousand.

    as_linux.py HID [ANSWERS]: asks `hid check --for linux` and `hid fields` of each, or of those in another
    file, as `compare/linux_readings.py SOURCES made` prints it.

Of a descriptor that hid-core refuses the item's offset is the same. One that it takes is read, and each
field that has usages is the same: its direction, report, bits, kind, bounds and usages. Where `hid` says that Linux
may read it otherwise, or where no limit is enough for its usages, that counts apart. Of each kind of number one answer is spoilt, which is noticed.
"""

import json
import multiprocessing
import pathlib
import re
import subprocess
import sys
from collections import Counter

TOP = pathlib.Path(__file__).resolve().parent.parent.parent
READINGS = TOP / "compare/linux_readings.txt"
KEPT = 12_288
program = None


def bytes_of(word):
    """The bytes of a row: `XX*N` are the bytes XX N times, `+` joins parts, and `-` is none."""
    whole = b""
    if word == "-":
        return whole
    for part in word.split("+"):
        digits, _, times = part.partition("*")
        whole += bytes.fromhex(digits) * int(times or 1)
    return whole


def usages_of(words):
    """The usages of a field: USAGE, FIRST..LAST or USAGE*TIMES, each with @COLLECTION and xN."""
    listed = []
    for word in words:
        word = re.sub(r"[@x][-0-9]+", "", word)
        first, _, last = word.partition("..")
        usage, _, times = first.partition("*")
        if last:
            listed += range(int(first, 16), int(last, 16) + 1)
        else:
            listed += [int(usage, 16)] * int(times or 1)
    return listed


def parts_of(words):
    """The numbers of a field's row, and its usages."""
    offset, size, count = map(int, words[1:4])
    named = []
    for word in words[7:]:
        if not re.match("[0-9a-f]{8}", word):
            break
        named.append(word)
    return {
        "offset": offset,
        "size": size,
        "count": count,
        "flags": int(words[4], 16),
        "bounds": (int(words[5]), int(words[6])),
        "usages": usages_of(named),
    }


def repeated(field, times):
    """Fields like one, each behind the one before."""
    for _ in range(times):
        field = {**field, "offset": field["offset"] + field["size"] * field["count"]}
        yield field


def fields_of(parts):
    """The fields that hid-core has: (direction, report, number in it, field)."""
    report, last, number = None, None, 0
    for part in parts:
        words = part.split()
        if words[0] in ("input", "output", "feature"):
            report, number = (words[0], int(words[1])), 0
        elif words[0] in ("f", "="):
            own = [parts_of(words)] if words[0] == "f" else repeated(last, int((words[1:] or [1])[0]))
            for last in own:
                yield *report, number, last
                number += 1


def wanted_of(parts):
    """The rows of all fields with usages: direction, report, start, end, kind, bounds, usages."""
    rows = []
    for direction, report, _number, field in fields_of(parts):
        size, count, usages = field["size"], field["count"], field["usages"]
        start = field["offset"] + (8 if report else 0)
        if field["flags"] & 1 or size == 0 or count == 0:
            continue
        if field["flags"] & 2:
            rows += [
                (direction, report, start + size * k, start + size * (k + 1), "variable", field["bounds"], usages[k : k + 1])
                for k in range(count)
            ]
        else:
            rows.append((direction, report, start, start + size * count, "array", field["bounds"], usages))
    return sorted(rows, key=lambda row: row[:4])


def ask(words, given, limit="4000000"):
    """What `hid` says, what else it says, and its status."""
    ran = subprocess.run(
        [program, *words, "--form", "bytes", "--json", "--limit", limit, "-"],
        input=given, capture_output=True, check=False, close_fds=False,
    )
    objects = [json.loads(line) for line in ran.stdout.decode().splitlines()]
    return objects, ran.stderr.decode(), ran.returncode


def own_usages(field):
    """The usages that `hid` says of a field."""
    if "usage_range" in field:
        first, last = field["usage_range"]
        return list(range(first, last + 1))
    return field.get("usages") or [field["usage"]]


def said_of(objects):
    """The same rows of what `hid` says."""
    rows = []
    for it in objects:
        if it["kind"] != "padding":
            bounds = (it["logical_minimum"] or 0, it["logical_maximum"] or 0)
            place = (it["direction"], it["report"] or 0, it["start"], it["end"], it["kind"])
            rows.append((*place, bounds, own_usages(it)))
    return sorted(rows, key=lambda row: row[:4])


def usages_agree(own, theirs):
    """An array's last usage stands again in hid-core for each element past them; past those that it
    keeps it has none."""
    own = own[:KEPT]
    return own == theirs[: len(own)] and all(it == own[-1] for it in theirs[len(own) :])


def differs(own, theirs):
    """What kind of number isn't the same; none where all are."""
    for kind, index in (("report", 1), ("start", 2), ("end", 3), ("kind", 4), ("bounds", 5)):
        if own[0] != theirs[0] or own[index] != theirs[index]:
            return kind
    return None if usages_agree(own[6], theirs[6]) else "usages"


def spoilt(row, index):
    """A row with another number in one place."""
    row = list(row)
    row[index] = {
        1: row[1] + 1, 2: row[2] + 1, 3: row[3] + 1, 4: "other", 5: (row[5][0] - 1, row[5][1]),
        6: [it + 1 for it in row[6]],
    }[index]
    return tuple(row)


def compare_fields(about, given, parts, limit="4000000"):
    """What is wrong, and how it counts."""
    objects, said, status = ask(["fields"], given, limit)
    if status == 1 and said.rstrip().endswith("isn't enough either"):
        return "past each limit", []
    if status != 0:
        return "fields", [f"{about}: hid ends with {status}, hid-core takes it: {said.strip()}"]
    if "may read it otherwise" in said:
        return "told", []
    is_cut = any("too many fields" in part or "exceeding usage max" in part for part in parts)
    if is_cut != ("leaves out" in said):
        return "left out", [f"{about}: hid says {said.strip()}"]
    if any("too many fields" in part for part in parts):
        return "left out", []
    own, theirs = said_of(objects), wanted_of(parts)
    if len(own) != len(theirs):
        return "fields", [f"{about}: {len(own)} fields, hid-core has {len(theirs)}: {said.strip()}"]
    for one, other in zip(own, theirs):
        kind = differs(one, other)
        if kind:
            return "fields", [f"{about}: {kind}: hid {str(one)[:200]}, hid-core {str(other)[:200]}"]
        if any(differs(spoilt(one, index), other) is None for index in range(1, 7)):
            return "fields", [f"{about}: what is spoilt is not noticed"]
    return "fields", []


def compare(line):
    word, kind, *rest = line.rstrip("\n").split(" ", 2)
    given, rest = bytes_of(word), rest[0]
    objects, _said, _status = ask(["check", "--for", "linux"], given)
    verdict = next((it for it in objects if "is_taken" in it), {"is_taken": None})
    if kind == "refused":
        offset = int(rest.split()[1])
        told = [it["offset"] for it in objects if it.get("odd", "").startswith("Linux refuses it")]
        if verdict["is_taken"] is not False or told != [offset]:
            return "refused", [f"{word}: refused at {told}, by hid-core at {offset}: {rest}"]
        return "refused", []
    if verdict["is_taken"] is not True:
        return kind, [f"{word}: taken {verdict}, hid-core takes it"]
    if kind == "stopped":
        is_told = any("overflows" in it.get("odd", "") for it in objects)
        return kind, [] if is_told else [f"{word}: hid-core divides what overflows"]
    return compare_fields(word, given, rest.partition("; ")[2].split("; ") if "; " in rest else [])


# Rows that are wrong, each in its way: an offset, a refusal, none, an overflow, what is left out.
SPOILT = (
    "b4 refused 0 1 generic stack underflow",
    "8100 refused 0 0 generic fetching failed",
    "81 taken generic",
    "8100 stopped 1 2 generic",
    "8100 taken generic; said 0 1 too many fields in report; input 0 00000000 0",
)


def main():
    global program
    program = str(pathlib.Path(sys.argv[1]).resolve())
    answers = pathlib.Path(sys.argv[2]) if len(sys.argv) > 2 else READINGS
    lines = [it for it in answers.read_text().splitlines() if it and not it.startswith("#")]
    for line in SPOILT:
        if not compare(line)[1]:
            sys.exit(f"as_linux: what is spoilt is not noticed: {line}")
    # Of what the limit refuses no field is shown, and none is wanted.
    if not compare_fields("refused", bytes.fromhex("05010930750895018102"), [], "0")[1]:
        sys.exit("as_linux: a refusal is not noticed")
    counts, faults = Counter(), []
    with multiprocessing.Pool() as pool:
        for kind, found in pool.imap(compare, lines, 16):
            counts[kind] += 1
            faults += found
    for fault in faults[:60]:
        print(f"as_linux: {fault[:600]}")
    said = ", ".join(f"{kind} {count}" for kind, count in sorted(counts.items()))
    if faults:
        sys.exit(f"as_linux: {len(faults)} of {len(lines)} descriptors otherwise than hid-core: {said}")
    print(f"as_linux: {len(lines)} descriptors as hid-core reads them: {said}")


if __name__ == "__main__":
    main()
