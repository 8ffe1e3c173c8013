#!/usr/bin/env python3
"""Asks `hid` and the library the same questions, over all descriptors in the tree, and prints each
number that differs. The library's answers are those that the program `hidreport_cases` gives to
questions without an answer (docs/TESTING.md). Random numbers are the same in each run.

    questions.py [--spoil KIND] HID CASES

HID and CASES are the two programs (checks/library/tests.sh --keep FILE builds the second). Of each
kind of number one answer of `hid` is also spoilt, which has to be noticed; `--spoil KIND` spoils all
of them.
"""

import json
import multiprocessing
import os
import random
import re
import subprocess
import sys
import tempfile
import time
from collections import Counter
from fractions import Fraction

TOP = os.path.dirname(os.path.dirname(os.path.dirname(os.path.abspath(__file__))))
DIRECTIONS = ("input", "output", "feature")
# So many questions are asked at least.
LEAST = 100_000
# The longest descriptor, and the longest report, of which all is asked.
LONGEST = 2_048
LONGEST_REPORT = 128
# Each byte is changed in so many descriptors, and of so many every other form is tried.
CHANGED_BYTES = 4_000
CONVERTED = 300

programs = {}
scratch = None
spoilt_kind = None


class Answers:
    """What was compared: how often, and what differed."""

    def __init__(self):
        self.asked = Counter()
        self.faults = []
        self.unnoticed = set()

    def compare(self, kind, about, hid, library):
        """Compares what `hid` says with what the library says of something."""
        first = not self.asked[kind]
        self.asked[kind] += 1
        if first and spoil(hid) == library:
            self.unnoticed.add(kind)
        if kind == spoilt_kind:
            hid = spoil(hid)
        if hid != library:
            self.faults.append(f"{kind}: {about}: hid says {hid!r}, the library {library!r}")

    def add(self, other):
        self.asked += other.asked
        self.faults += other.faults
        self.unnoticed |= other.unnoticed


def spoil(said):
    """Something else than was said, of the same type."""
    if said is None:
        return 1
    if isinstance(said, bool):
        return not said
    if isinstance(said, (int, Fraction)):
        return said + 1
    if isinstance(said, str):
        return said + "0"
    return list(said) + [0]


# What is asked.


def descriptors():
    """The descriptors of the cases, of bench/descriptors and of `hid`, each once, as digits."""
    found = []
    folder = f"{TOP}/tests/hidreport_cases/data"
    asked = re.compile(r"(?:parse|parse-globals|parse-hosts|host-usages|shape|rebuild|list|repair [^/]*/) ([0-9a-f ]+)$")
    for name in sorted(os.listdir(folder)):
        with open(f"{folder}/{name}", encoding="utf-8") as lines:
            for line in lines:
                if match := asked.match(line.rstrip()):
                    found.append(match[1].replace(" ", ""))
    for folder in (f"{TOP}/bench/descriptors", f"{TOP}/crates/hid/data"):
        for name in sorted(os.listdir(folder)):
            if name.endswith(".txt") == folder.endswith("descriptors") and "hex" not in name[:3]:
                with open(f"{folder}/{name}", "rb") as lines:
                    text = lines.read().decode("utf-8", "replace")
                digits = re.sub(r"(#|//).*|\s", "", text)
                if re.fullmatch("[0-9a-f]+", digits):
                    found.append(digits)
    whole = [it for it in found if len(it) % 2 == 0 and len(it) <= 2 * LONGEST]
    return list(dict.fromkeys(whole))


# The library.


# At most 2 GB in one piece: what is listed without a limit may be more than there is memory. CASES is
# built without a proof, with AddressSanitizer, beside which nothing else bounds what a program takes.
LITTLE_MEMORY = "allocator_may_return_null=1:max_allocation_size_mb=2048:quarantine_size_mb=16"


def ask_file(job):
    """The library's answers to the questions of one file."""
    number, questions = job
    name = f"q{number}"
    with open(f"{scratch}/{name}", "w", encoding="utf-8") as file:
        file.write("\n".join(questions) + "\n")
    asked = subprocess.run(
        [programs["cases"], name],
        cwd=scratch,
        capture_output=True,
        check=False,
        env={**os.environ, "ASAN_OPTIONS": LITTLE_MEMORY},
    )
    os.remove(f"{scratch}/{name}")
    if b"OutOfMemory" in asked.stderr:
        # The library has no limit here: what it would list is more than there is memory.
        return [None] * len(questions)
    said = asked.stdout.decode("utf-8")
    answers = [""] * len(questions)
    for part in re.split(rf"^{name}:", said, flags=re.M)[1:]:
        line, _, rest = part.partition(": ")
        answers[int(line) - 1] = rest.partition("\ngot:\n")[2].partition("\n\n")[0]
    return answers


def ask_apart(job):
    """The same where no question needs one before it: where memory ends each is asked alone."""
    number, questions = job
    answers = ask_file(job)
    if answers[0] is not None or len(questions) == 1:
        return answers
    return [ask_file((f"{number}_{n}", [it]))[0] for n, it in enumerate(questions)]


def ask_library(pool, blocks, together=400, ask=ask_file):
    """The answers to blocks of questions, each of which is asked behind those before it; so many
    are asked of one program."""
    jobs, lines = [], []
    for block in blocks:
        lines += block
        if len(lines) >= together:
            jobs.append((len(jobs), lines))
            lines = []
    if lines:
        jobs.append((len(jobs), lines))
    answers = [it for part in pool.map(ask, jobs) for it in part]
    at = 0
    for block in blocks:
        yield answers[at : at + len(block)]
        at += len(block)


TAIL = (
    r"(?P<sign>signed|unsigned) (?P<low>-?\d+)\.\.(?P<high>-?\d+)"
    r"(?: from (?P<from>-?\d+))?(?: to (?P<to>-?\d+))?(?: unit (?P<unit>[0-9a-f]{8}))?"
    r"(?: exponent (?P<exponent>-?\d+))? (?P<flags>[a-zA-Z]+) #(?P<id>\d+)(?P<around>.*)$"
)
VARIABLE = re.compile(r"  variable (?P<start>\d+)\.\.(?P<end>\d+) (?P<usage>[0-9a-f]{8}) " + TAIL)
ARRAY = re.compile(
    r"  array (?P<start>\d+)\.\.(?P<end>\d+) count (?P<count>\d+) \((?P<usages>[0-9a-f ]*)\)"
    r"(?P<range> range)?(?: [0-9a-f]{8}\.\.[0-9a-f]{8})? " + TAIL
)
CONSTANT = re.compile(
    r"  constant (?P<start>\d+)\.\.(?P<end>\d+) \((?P<usages>[0-9a-f ]*)\) #(?P<id>\d+)"
    r"(?P<around>.*)$"
)
REPORT = re.compile(r"(input|output|feature)(?: id (\d+))? (\d+) bits (\d+) bytes$")
AROUND = re.compile(r" in #(\d+) ([A-Za-z]+(?: [0-9a-f]{2})?)\(([0-9a-f ]*)\)")


def number(text, base=10):
    return None if text is None else int(text, base)


def numbers(text):
    return [int(it, 16) for it in text.split()]


def kind_of(name):
    """A kind of collection, whoever spells it."""
    return re.sub("[^a-z0-9]", "", name.lower().replace("0x", ""))


def field_of(line):
    """A field, of its line."""
    for kind, pattern in (("variable", VARIABLE), ("array", ARRAY), ("padding", CONSTANT)):
        if match := pattern.match(line):
            part = match.groupdict()
            break
    else:
        raise ValueError(f"no field: {line}")
    field = {"kind": kind, "field": int(part["id"])}
    field.update(start=int(part["start"]), end=int(part["end"]))
    field["collections"] = [
        (int(id), kind_of(name), numbers(usages))
        for id, name, usages in AROUND.findall(part["around"])
    ]
    field["known"] = [int(part["usage"], 16)] if kind == "variable" else numbers(part["usages"])
    if kind == "padding":
        return field
    flags = part["flags"]
    field.update(
        signed=part["sign"] == "signed",
        logical_minimum=int(part["low"]),
        logical_maximum=int(part["high"]),
        physical_minimum=number(part["from"]),
        physical_maximum=number(part["to"]),
        unit=number(part["unit"], 16),
        unit_exponent=number(part["exponent"]),
        flags={
            "relative": "R" in flags,
            "wraps": "W" in flags,
            "nonlinear": "N" in flags,
            "no_preferred_state": "P" in flags,
            "null_state": "Z" in flags,
            "volatile": True if "V" in flags else False if "v" in flags else None,
            "buffered_bytes": "B" in flags,
        },
    )
    if kind == "variable":
        usage = field["known"][0]
        field.update(usage=usage, usage_page=usage >> 16, usage_id=usage & 0xFFFF)
    else:
        field["count"] = int(part["count"])
        field["is_range"] = part["range"] is not None
    return field


def reports_of(answer):
    """The reports of an answer, with their fields; none where the descriptor is refused."""
    reports = []
    for line in answer.splitlines():
        if match := REPORT.match(line):
            direction, id, bits, size = match.groups()
            reports.append(
                {
                    "direction": direction,
                    "id": number(id),
                    "bits": int(bits),
                    "size": int(size),
                    "fields": [],
                }
            )
        elif line.startswith("  "):
            reports[-1]["fields"].append(field_of(line))
        elif line.startswith("refused"):
            return None
    return reports


# `hid`.


def ask_hid(words, given=b""):
    """The status and the output of `hid`, and what it says on standard error."""
    got = subprocess.run(
        [programs["hid"], "--as", "standard", *words], input=given, capture_output=True, check=False, close_fds=False
    )
    return got.returncode, got.stdout, got.stderr.decode("utf-8", "replace")


def objects(output):
    return [json.loads(line) for line in output.decode("utf-8").splitlines()]


def file_of(name, digits):
    path = f"{scratch}/{name}"
    with open(path, "w", encoding="utf-8") as file:
        file.write(digits + "\n")
    return path


def refused_by_limit(said):
    return "--limit" in said or "budget" in said or "more than the limit" in said


def ask_fields(answers, digits, file, answer):
    """Every public part of every field."""
    status, output, said = ask_hid(["fields", "--json", "--form", "hex", file])
    if refused_by_limit(said):
        return
    reports = reports_of(answer)
    answers.compare("status of fields", digits, status, 0 if reports is not None else 1)
    if reports is None:
        place = re.match(r"refused at (\d+)", answer)
        told = re.search(r"offset (\d+)", said)
        place, told = (it and int(it[1]) for it in (place, told))
        answers.compare("offset of a refusal", digits, told, place)
        return
    wanted = [(report, field) for report in reports for field in report["fields"]]
    got = objects(output)
    answers.compare("number of fields", digits, len(got), len(wanted))
    if len(got) != len(wanted):
        return
    for told, (report, field) in zip(got, wanted):
        compare_field(answers, f"{digits} field {field['field']}", told, report, field)


def compare_field(answers, about, told, report, field):
    compare = answers.compare
    compare("direction", about, told["direction"], report["direction"])
    compare("report", about, told["report"], report["id"])
    if told["field"] is not None:
        compare("field", about, told["field"], field["field"])
    for part in ("start", "end", "kind"):
        compare(part, about, told[part], field[part])
    around = field["collections"]
    compare("collections", about, len(told["collections"]), len(around))
    for own, (id, kind, usages) in zip(told["collections"], around):
        compare("collection id", about, own["id"], id)
        compare("collection kind", about, kind_of(own["kind"]), kind)
        compare("collection usages", about, own["usages"], usages)
    if field["kind"] == "padding":
        return
    for bound in ("logical", "physical"):
        for end in ("minimum", "maximum"):
            compare(f"{bound}_{end}", about, told[f"{bound}_{end}"], field[f"{bound}_{end}"])
    for part in ("unit", "unit_exponent"):
        compare(part, about, told[part], field[part])
    for flag, holds in field["flags"].items():
        compare(flag, about, told["flags"][flag], holds)
    if field["kind"] == "variable":
        for part in ("usage", "usage_page", "usage_id"):
            compare(part, about, told[part], field[part])
        return
    compare("count", about, told["count"], field["count"])
    if field["is_range"]:
        ends = [field["known"][0], field["known"][-1]]
        compare("usage_range", about, told["usage_range"], ends)
    else:
        compare("usages", about, told["usages"], field["known"])


ITEM = re.compile(r"(\d+) ([0-9a-f]+) size \d+ header [0-9a-f]{2} tag \d+ (?:short|long).*: (.*)$")
# Items whose number has a sign, or is no number of their data, by their names.
SIGNED = ("LogicalMinimum", "LogicalMaximum", "PhysicalMinimum", "PhysicalMaximum", "UnitExponent")


def ask_items(answers, digits, file, listed):
    """Where each item stands, its bytes and its number."""
    status, output, said = ask_hid(["decode", "--json", "--form", "hex", file])
    if refused_by_limit(said):
        return
    got = objects(output)
    items = [it for it in got if "item" in it]
    wanted = [match.groups() for line in listed.splitlines() if (match := ITEM.match(line))]
    if listed.startswith("refused"):
        fault = next((it for it in got if "fault" in it), {"offset": None})
        place = number((re.match(r"refused at (\d+)", listed) or [None, None])[1])
        answers.compare("offset of a fault", digits, fault["offset"], place)
        answers.compare("status of decode", digits, status, 1)
        return
    answers.compare("number of items", digits, len(items), len(wanted))
    for told, (offset, spelled, name) in zip(items, wanted):
        about = f"{digits} at {offset}"
        answers.compare("offset", about, told["offset"], int(offset))
        answers.compare("bytes", about, told["bytes"].replace(" ", ""), spelled)
        word, _, rest = name.partition(" ")
        if word in SIGNED and rest:
            answers.compare("number", about, told["value"], int(rest.split()[0]))


def readings(report, reports, answer):
    """What the library read of each field of a report: a number, none, or a list of them."""
    line = next(it for it in answer.splitlines() if it.startswith(report["direction"]))
    words = line.partition(":")[2].split()
    values = []
    for other in reports:
        if other["direction"] != report["direction"]:
            continue
        for field in other["fields"]:
            if field["kind"] == "array":
                while not words[0].endswith("]"):
                    words.pop(0)
                words.pop(0)
                read, words = words[: field["count"]], words[field["count"] + 1 :]
            else:
                read = words.pop(0)
            if other is report:
                values.append((field, read))
    return values


def is_number(word):
    return re.fullmatch(r"-?\d+", word) is not None


def ask_values(answers, digits, file, reports, report, given, said):
    """The value of each field of a report, its bits, and what it stands for."""
    words = ["values", "--json", "--form", "hex", "--report-form", "hex"]
    words += ["--direction", report["direction"], file, "-"]
    status, output, errors = ask_hid(words, given.encode())
    if refused_by_limit(errors):
        return
    about = f"{digits} report {given}"
    answers.compare("status of values", about, status, 0)
    got = objects(output) if status == 0 else []
    wanted = [it for it in readings(report, reports, said[0]) if it[0]["kind"] != "padding"]
    answers.compare("number of values", about, len(got), len(wanted))
    if len(got) != len(wanted):
        return
    for told, (field, read) in zip(got, wanted):
        place = f"{about} field {field['field']}"
        answers.compare("report of a value", place, told["report"], report["id"])
        answers.compare("start of a value", place, told["start"], field["start"])
        answers.compare("end of a value", place, told["end"], field["end"])
        if field["kind"] == "array":
            compare_elements(answers, place, told, field, read, said)
            continue
        value = int(read) if is_number(read) else None
        answers.compare("value", place, told["value"], value)
        answers.compare("usage of a value", place, told["usage"], field["usage"])
        if told["physical"] is not None:
            compare_physical(answers, place, told["physical"], field, value)


def compare_elements(answers, place, told, field, read, said):
    """The elements of an array, by what `extract_one` and `usage_of` answer."""
    answers.compare("count of a value", place, told["count"], field["count"])
    wanted = [int(it) for it in read if is_number(it)]
    elements = told["elements"]
    answers.compare("number of elements", place, len(elements), len(wanted))
    meant = said[1].get(field["field"], [])
    width = (field["end"] - field["start"]) // max(field["count"], 1)
    for index, (element, value) in enumerate(zip(elements, wanted)):
        start = field["start"] + index * width
        answers.compare("element", place, element["element"], index)
        answers.compare("start of an element", place, element["start"], start)
        answers.compare("end of an element", place, element["end"], start + width)
        answers.compare("value of an element", place, element["value"], value)
        if index < len(meant):
            usage = number(meant[index], 16) if meant[index] != "none" else None
            # A usage with the id 0 is none that is meant.
            usage = None if usage is not None and usage & 0xFFFF == 0 else usage
            answers.compare("usage of an element", place, element["usage"], usage)


def compare_physical(answers, place, told, field, value):
    """What a value stands for (Section 6.2.2.7), worked here on whole numbers."""
    low, high = field["logical_minimum"], field["logical_maximum"]
    first, last = field["physical_minimum"], field["physical_maximum"]
    if not first and not last:
        first, last = low, high
    scaled = first + Fraction((value - low) * (last - first), high - low)
    exponent = field["unit_exponent"] or 0
    scaled *= Fraction(10) ** exponent
    got = Fraction(told["numerator"], told["denominator"])
    answers.compare("physical value", place, got, scaled)
    answers.compare("unit of a value", place, told["unit"], field["unit"])


def bounds_of(field):
    """The numbers of a field that its bits hold and its bounds allow; none where there is none."""
    width = field["end"] - field["start"]
    if not 0 < width <= 32:
        return None
    reach = 1 << (width - 1 if field["signed"] else width)
    low = max(field["logical_minimum"], -reach if field["signed"] else 0)
    high = min(field["logical_maximum"], reach - 1)
    return (low, high) if low <= high else None


def ask_set(answers, digits, file, report, chance):
    """What `set` writes, `values` reads again."""
    words, wanted = [], {}
    for at, field in enumerate(report["fields"]):
        bounds = bounds_of(field) if field["kind"] == "variable" else None
        if bounds is None or len(words) >= 24:
            continue
        usage = field["usage"]
        before = sum(usage in it["known"] for it in report["fields"][:at])
        value = chance.randint(*bounds)
        words.append(f"{usage:08x}#{before + 1}={value}")
        wanted[field["start"]] = value
    if not words:
        return
    to = ["--form", "hex", "--direction", report["direction"], file]
    id = "-" if report["id"] is None else str(report["id"])
    status, output, said = ask_hid(["set", *to, id, *words])
    if refused_by_limit(said):
        return
    answers.compare("status of set", f"{digits} {words}", status, 0)
    status, output, said = ask_hid(
        ["values", "--json", "--report-form", "hex", *to, "-"], output
    )
    got = {it["start"]: it.get("value") for it in objects(output)} if status == 0 else {}
    for start, value in wanted.items():
        answers.compare("value that was set", f"{digits} {words}", got.get(start), value)


def ask_compile(answers, digits, file):
    """What is decoded is compiled to the same bytes, also where the descriptor is refused."""
    _status, text, said = ask_hid(["decode", "--form", "hex", file])
    if refused_by_limit(said):
        return
    status, output, said = ask_hid(["compile", "-"], text)
    answers.compare("status of compile", digits, status, 0)
    answers.compare("compiled bytes", digits, "".join(output.decode().split()), digits)


def ask_convert(answers, digits, file):
    """What is converted to a form comes back from it."""
    for to in ("hex", "c", "rust", "bytes", "recording"):
        status, output, _said = ask_hid(["convert", "--form", "hex", "--to", to, file])
        answers.compare(f"status of convert to {to}", digits, status, 0)
        form = ["--form", "bytes"] if to == "bytes" else []
        status, output, _said = ask_hid(["convert", *form, "-"], output)
        answers.compare(f"back from {to}", digits, "".join(output.decode().split()), digits)


def ask_diff(answers, digits, file):
    """A descriptor doesn't differ from itself."""
    status, output, said = ask_hid(["diff", "--form", "hex", file, file])
    if not refused_by_limit(said):
        answers.compare("status of diff with itself", digits, status, 0)
        answers.compare("diff with itself", digits, output.decode(), "")


def ask_changed(job):
    """A descriptor with one byte changed: something is said exactly where it is read otherwise."""
    digits, changed, answer, other = job
    answers = Answers()
    file = file_of(f"own_{os.getpid()}", digits)
    status, output, said = ask_hid(["diff", "--form", "hex", file, "-"], changed.encode())
    if refused_by_limit(said):
        return answers
    about = f"{digits} beside {changed}"
    if other is None:
        answers.compare("status of diff with a great one", about, status, 1)
        return answers
    if other.startswith("refused"):
        answers.compare("status of diff with a refused one", about, status, 1)
        return answers
    answers.compare("status of diff", about, status, 0 if answer == other else 1)
    answers.compare("whether diff says something", about, output != b"", answer != other)
    return answers


def ask_descriptor(job):
    """All questions about a descriptor, but those with a byte changed."""
    number, digits, parsed, listed, read, converts = job
    answers = Answers()
    chance = random.Random(digits)
    file = file_of(f"d{number}", digits)
    ask_fields(answers, digits, file, parsed)
    ask_items(answers, digits, file, listed)
    ask_compile(answers, digits, file)
    if converts:
        ask_convert(answers, digits, file)
    reports = reports_of(parsed)
    if reports is not None:
        if converts:
            ask_diff(answers, digits, file)
        for at, given, said in read:
            ask_values(answers, digits, file, reports, reports[at], given, said)
        for report in reports:
            if can_be_found(reports, report):
                ask_set(answers, digits, file, report, chance)
    os.remove(file)
    return answers


# All of it.


def can_be_found(reports, report):
    """Whether bytes can be of a report: where the first of a direction has no id they are its own."""
    first = next(it for it in reports if it["direction"] == report["direction"])
    return 0 < report["size"] <= LONGEST_REPORT and (report is first or first["id"] is not None)


def chosen_reports(digits, reports):
    """A report of random bytes for each that is announced, with its questions."""
    chance = random.Random(digits + " reports")
    for at, report in enumerate(reports):
        if not can_be_found(reports, report):
            continue
        given = bytearray(chance.randbytes(report["size"]))
        if report["id"] is not None:
            given[0] = report["id"]
        arrays = [
            field["field"]
            for field in report["fields"]
            if field["kind"] == "array" and field["count"] <= 64
        ]
        yield at, given.hex(), arrays


def with_exponents(pool, answers):
    """The answers with each unit exponent as the number that the library gives for its data."""
    written = re.compile(r"( exponent |: UnitExponent )(-?\d+)")
    known = sorted({match[1] for it in answers for match in written.findall(it)})
    said = ask_library(pool, [[f"exponent {it}"] for it in known])
    meant = {it: answer[0] for it, answer in zip(known, said)}
    return [written.sub(lambda match: match[1] + meant[match[2]], it) for it in answers]


def with_readings(pool, all_digits, parsed):
    """For each descriptor, what the library reads in a report of each kind."""
    blocks, plans = [], []
    for digits, answer in zip(all_digits, parsed):
        reports = reports_of(answer) or []
        fits = sum(field.get("count", 1) for it in reports for field in it["fields"]) < 2_000
        plan = list(chosen_reports(digits, reports)) if fits else []
        block = [f"parse-within 2000000 {digits}"]
        for _at, given, arrays in plan:
            block.append(f"read {given}")
            block += [f"usage-of {field} / {given}" for field in arrays]
        plans.append(plan)
        blocks.append(block)
    for plan, said in zip(plans, ask_library(pool, blocks)):
        said = said[1:]
        read = []
        for at, given, arrays in plan:
            values = {field: said[1 + n].split() for n, field in enumerate(arrays)}
            read.append((at, given, (said[0], values)))
            said = said[1 + len(arrays) :]
        yield read


def changed_ones(all_digits, parsed):
    """Descriptors that are read, with one byte changed."""
    chance = random.Random("changed")
    read = [
        (digits, answer)
        for digits, answer in zip(all_digits, parsed)
        if not answer.startswith(("refused", "no reports")) and len(digits) <= 1024
    ]
    chance.shuffle(read)
    count = 0
    for digits, answer in read:
        for at in range(0, len(digits), 2):
            byte = int(digits[at : at + 2], 16) ^ chance.randint(1, 255)
            yield digits, digits[:at] + f"{byte:02x}" + digits[at + 2 :], answer
            count += 1
        if count > CHANGED_BYTES:
            return


def main():
    global scratch, spoilt_kind
    begun = time.monotonic()
    words = sys.argv[1:]
    if words[:1] == ["--spoil"]:
        spoilt_kind, words = words[1], words[2:]
    if len(words) != 2:
        sys.exit("usage: questions.py [--spoil KIND] HID CASES")
    hid, cases = words
    for program in (hid, cases):
        if not os.access(program, os.X_OK):
            sys.exit(f"hid_questions: no program {program}")
    programs.update(hid=os.path.abspath(hid), cases=os.path.abspath(cases))
    all_digits = descriptors()
    with tempfile.TemporaryDirectory() as folder:
        scratch = folder
        with multiprocessing.Pool(os.cpu_count()) as pool:
            answers = ask_all(pool, all_digits)
    asked = sum(answers.asked.values())
    for fault in answers.faults[:50]:
        print(f"hid_questions: {fault[:400]}")
    for kind in sorted(answers.unnoticed):
        print(f"hid_questions: a spoilt answer of the kind '{kind}' isn't noticed")
    if answers.faults or answers.unnoticed:
        sys.exit(f"hid_questions: {len(answers.faults)} of {asked} answers differ")
    if asked < LEAST:
        sys.exit(f"hid_questions: only {asked} questions were asked")
    print(
        f"hid_questions: {asked} questions of {len(answers.asked)} kinds about {len(all_digits)} "
        "descriptors, answered alike"
    )
    print(f"hid_questions: in {time.monotonic() - begun:.0f} s")


def ask_all(pool, all_digits):
    answers = Answers()
    blocks = [[f"parse-within 2000000 {it}", f"list {it}"] for it in all_digits]
    first = list(ask_library(pool, blocks))
    parsed = [it[0] for it in first]
    fields = with_exponents(pool, parsed)
    items = with_exponents(pool, [it[1] for it in first])
    read = with_readings(pool, all_digits, fields)
    step = max(len(all_digits) // CONVERTED, 1)
    rows = zip(all_digits, fields, items, read)
    jobs = [(n, *row, n % step == 0) for n, row in enumerate(rows)]
    for part in pool.imap_unordered(ask_descriptor, jobs, 8):
        answers.add(part)
    changed = list(changed_ones(all_digits, parsed))
    others = ask_library(pool, [[f"parse-within 2000000 {it[1]}"] for it in changed], 16, ask_apart)
    jobs = [(*it, other[0]) for it, other in zip(changed, others)]
    for part in pool.imap_unordered(ask_changed, jobs, 32):
        answers.add(part)
    return answers


if __name__ == "__main__":
    main()
