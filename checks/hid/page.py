#!/usr/bin/env python3
"""Looks at the pages that `hid page` writes, without a browser: over the descriptors in
crates/hid/data and a hundred of compare/devices.txt their JSON is what the other commands of `hid`
say; the bits that items make are worked out here once more; and a page is one script of its own,
whatever a device calls itself.

    page.py HID
"""

import base64
import hashlib
import html.parser
import json
import os
import re
import subprocess
import sys
import tempfile

TOP = os.path.dirname(os.path.dirname(os.path.dirname(os.path.abspath(__file__))))
DATA = os.path.join(TOP, "crates", "hid", "data")
# How many descriptors of compare/devices.txt are looked at.
DEVICES = 100
# What begins a main item that makes fields, by the bits of its first byte that aren't its size.
MAKES = {0x80: "input", 0x90: "output", 0xB0: "feature"}
# The name of a device that tries to be more.
HOSTILE = "</script><img src=x onerror=alert(1)>]]>--><!-- \"'&amp; \u202e\u2028 {{data}} \\u003c"
# The only address that stands in a page: the name of SVG, which nothing fetches.
NAMESPACE = "http://www.w3.org/2000/svg"

program = None
# What the program said last on standard error.
said = ""
faults = []
compared = 0


def same(about, wanted, got):
    """Compares what is wanted with what a page has."""
    global compared
    compared += 1
    if wanted != got:
        faults.append(f"{about}: wanted {str(wanted)[:200]!r}, got {str(got)[:200]!r}")


def run(*words, status=(0,)):
    """What the program writes."""
    global said
    done = subprocess.run([program, *words], capture_output=True, check=False)
    said = done.stderr.decode()
    if done.returncode not in status:
        faults.append(f"{' '.join(words)}: status {done.returncode}: {done.stderr[-200:]}")
    return done.stdout.decode()


def lines_of(text):
    """The values of lines of JSON."""
    return [json.loads(line) for line in text.splitlines()]


class Page(html.parser.HTMLParser):
    """A page: its tags with their attributes, and the texts of its elements."""

    def __init__(self, text):
        super().__init__(convert_charrefs=True)
        self.text = text
        self.tags = []
        self.texts = []
        self.is_open = False
        self.feed(text)
        self.close()
        self.blocks = {}
        for (tag, words), inner in zip(self.tags, self.texts):
            if tag == "script" and words.get("type") == "application/json":
                self.blocks[words["id"]] = json.loads(inner)

    def handle_starttag(self, tag, attrs):
        self.tags.append((tag, dict(attrs)))
        self.texts.append("")
        self.is_open = True

    def handle_endtag(self, tag):
        self.is_open = False

    def handle_data(self, data):
        if self.is_open:
            self.texts[-1] += data

    def inner(self, tag):
        """The texts of the elements with a tag."""
        return [inner for (own, _), inner in zip(self.tags, self.texts) if own == tag]


def hash_of(text):
    """A text's hash, as a policy has it."""
    digest = hashlib.sha256(text.encode()).digest()
    return f"'sha256-{base64.b64encode(digest).decode()}'"


def look_at_shell(about, page):
    """One script and one style, which the policy names; no other way to run or to fetch."""
    runs = [inner for (tag, words), inner in zip(page.tags, page.texts)
            if tag == "script" and words.get("type") != "application/json"]
    same(f"{about}: scripts", 1, len(runs))
    styles = page.inner("style")
    same(f"{about}: styles", 1, len(styles))
    policies = [words["content"] for tag, words in page.tags
                if words.get("http-equiv") == "Content-Security-Policy"]
    same(f"{about}: policies", 1, len(policies))
    rules = dict(rule.strip().split(" ", 1) for rule in policies[0].split(";"))
    same(f"{about}: policy", {
        "default-src": "'none'", "script-src": hash_of(runs[0]), "style-src": hash_of(styles[0]),
        "base-uri": "'none'", "form-action": "'none'",
        "require-trusted-types-for": "'script'", "trusted-types": "'none'"}, rules)
    for tag, words in page.tags:
        bad = [word for word in words if word.startswith("on")
               or word in ("style", "src", "href", "action", "srcset", "data")]
        same(f"{about}: attributes of {tag}", [], bad)
    known = {"html", "head", "meta", "title", "style", "body", "header", "p", "h1", "noscript", "pre",
             "main", "footer", "code", "script"}
    same(f"{about}: other tags", set(), {tag for tag, _ in page.tags} - known)
    same(f"{about}: blocks", ["device", "items", "made", "lines", "fields", "samples", "notes"],
         list(page.blocks))
    same(f"{about}: addresses", set(),
         set(re.findall(r"[a-z]+://[^\s'\"]*", runs[0] + styles[0])) - {NAMESPACE})
    same(f"{about}: letters of the data", None,
         re.search("[<>&\u2028\u2029]", "".join(
             inner for (tag, words), inner in zip(page.tags, page.texts)
             if words.get("type") == "application/json")))


def squeezed(text):
    """A text without its spaces."""
    return re.sub(r"\s", "", text)


def name_in(field):
    """What a field is called among others: by its usage; an array by its page, padding by a dash."""
    page, _, name = field["name"].partition(" / ")
    return {"padding": "-", "variable": name, "array": page.rpartition(": ")[2]}[field["kind"]]


def look_at_lines(about, page, words):
    """The lines of reports and fields are those of `hid fields --all`."""
    text, count = "", 0
    fields = page.blocks["fields"]
    for line in page.blocks["lines"]:
        if "title" in line:
            plural = "" if line["bytes"] == 1 else "s"
            text += f"{line['title']}: {line['bits']} bits, {line['bytes']} byte{plural}\n"
        elif "collection" in line:
            mark = f"{line['depth'] + 1}>" if line["depth"] + 1 > 16 else ""
            text += f"{mark}{line['collection']}\n"
        else:
            field = fields[count]
            text += f"{line['start']}..{line['end']} {field['name']}, {line['how']}\n"
            same(f"{about}: bits", [field["start"], field["end"]], [line["start"], line["end"]])
            same(f"{about}: name", name_in(field), line["name"])
            count += 1
    same(f"{about}: fields in lines", len(fields), count)
    same(f"{about}: lines", squeezed(run("fields", "--all", *words)), squeezed(text))


def made_by(items):
    """The bits that each item makes: its size times its count, in the report with its id; without
    an id in the first report of its direction."""
    state = {"size": 0, "count": 0, "report": None}
    pushed, ends, firsts, made = [], {}, {}, []
    for item in items:
        if "item" not in item:
            continue
        header, value = int(item["bytes"][:2], 16) & 0xFC, item["value"]
        if header in (0x74, 0x94, 0x84):
            state[{0x74: "size", 0x94: "count", 0x84: "report"}[header]] = value
        elif header == 0xA4:
            pushed.append(dict(state))
        elif header == 0xB4 and pushed:
            state = pushed.pop()
        elif header in MAKES and state["size"] * state["count"] != 0:
            direction, own = MAKES[header], state["report"]
            first = firsts.setdefault(direction, own)
            place = (direction, first if own is None else own)
            start = ends.get(place, 0 if place[1] is None else 8)
            ends[place] = start + state["size"] * state["count"]
            made.append({"offset": item["offset"], "direction": direction, "report": place[1],
                         "start": start, "end": ends[place]})
    return made


def look_at_made(about, page, told):
    """Each item makes the bits that it should, and each field lies in those of one item, which is the one that
    `hid fields` tells where none is mended."""
    made = page.blocks["made"]
    same(f"{about}: bits made", made_by(page.blocks["items"]), made)
    is_mended = any("mended" in str(note) for note in page.blocks["notes"])
    for field, other in zip(page.blocks["fields"], told):
        offsets = [it["offset"] for it in made if it["direction"] == field["direction"]
                  and it["report"] == field["report"]
                  and it["start"] <= field["start"] and field["end"] <= it["end"]]
        one = (1, len(offsets)) if is_mended else ([other["offset"]], offsets)
        same(f"{about}: makers of {field['start']}", *one)


def values_of(page):
    """The values of a page's samples, as `hid record --json` has them."""
    reports, fields = [], []
    for line in page.blocks["lines"]:
        if "title" in line:
            reports.append(fields := [])
        elif "start" in line:
            fields.append(page.blocks["fields"][sum(map(len, reports))])
    said = []
    for sample in page.blocks["samples"]:
        for field, values, words in zip(reports[sample["report"]], sample["values"],
                                        sample["words"]):
            if field["kind"] != "padding" and words != "missing":
                said.append((sample.get("time"), field["start"], values))
    return said


def look_at_samples(about, page, words):
    """The samples have the values of `hid record --json`, and the units of `hid values`."""
    recorded = []
    for value in lines_of(run("record", "--json", *words)):
        values = ([element["value"] for element in value["elements"]] if "elements" in value
                  else [] if value["value"] is None else [value["value"]])
        recorded.append((value.get("time"), value["start"], values))
    same(f"{about}: values", recorded, values_of(page))
    units = re.findall(r": (-?\d+) \(.*\) = (.*)", run("values", *words))
    same(f"{about}: units", [f"{number} = {unit}" for number, unit in units],
         [words for sample in page.blocks["samples"] for words in sample["words"] if " = " in words])


def look_at(about, *words, reports=()):
    """A page of one descriptor that is read or refused, as Linux reads it."""
    read = subprocess.run([program, "fields", *words], capture_output=True, check=False)
    is_read = read.returncode == 0
    status = 0 if is_read else 1
    page = Page(run("page", "--all", *words, *reports, status=(status,)))
    look_at_shell(about, page)
    refusal = re.search(r"Linux refuses it at offset (\d+): ([^:\n]*)", read.stderr.decode())
    if refusal:
        fault = {"offset": int(refusal[1]), "fault": f"Linux refuses it: {refusal[2]}"}
        same(f"{about}: refusal", [fault], page.blocks["device"][1:])
        same(f"{about}: fields", [], page.blocks["fields"])
        return page
    words_of_items = ("decode", "--as", "linux")
    decoded = lines_of(run(*words_of_items, "--json", *words, status=(status,)))
    same(f"{about}: items", decoded, page.blocks["items"])
    same(f"{about}: text", run(*words_of_items, "--color", "never", *words, status=(status,)),
         page.inner("pre")[0])
    same(f"{about}: fault", [line for line in decoded if "fault" in line], page.blocks["device"][1:])
    if not is_read:
        return page
    told = lines_of(run("fields", "--json", *words))
    same(f"{about}: fields", [{key: it[key] for key in it if key != "offset"} for it in told], page.blocks["fields"])
    look_at_lines(about, page, words)
    look_at_made(about, page, told)
    return page


def look_at_devices(folder):
    """The descriptors of the tree."""
    for name in sorted(os.listdir(DATA)):
        if re.search(r"\.(hex|bytes|recording)$", name) and not name.startswith("two_"):
            look_at(name, os.path.join(DATA, name))
    with open(os.path.join(TOP, "compare", "devices.txt"), encoding="utf-8") as text:
        rows = [line.split(":") for line in text if not line.startswith("#")]
    step = max(1, len(rows) // DEVICES)
    for number, row in enumerate(rows[::step]):
        file = os.path.join(folder, f"{number}.hex")
        with open(file, "w", encoding="utf-8") as out:
            out.write(row[1].strip())
        look_at(row[0], file)


def look_at_reports(folder):
    """Reports beside a descriptor, and named ones; some that are of none."""
    mouse = os.path.join(DATA, "mouse.recording")
    look_at_samples("mouse.recording", look_at("mouse.recording", mouse), (mouse, mouse))
    for name, digits in (("touchpad", "03 03 00 10 00 04 01 00\n03 01 ff 0f 10 04 00 00\n03 01 05\n"),
                         ("keyboard", "02 00 04 08 00 00 00 00\n00 00 00 00 00 00 ff 00\n")):
        stream = os.path.join(folder, f"{name}.reports")
        with open(stream, "w", encoding="utf-8") as out:
            out.write(digits)
        file = os.path.join(DATA, f"{name}.hex")
        page = look_at(name, file, reports=(stream,))
        same(f"{name}: samples", digits.count("\n"), len(page.blocks["samples"]))
        look_at_samples(name, page, (file, stream))
    with open(stream, "w", encoding="utf-8") as out:
        out.write("03\n03 01 00 10 00 04 01 00 ff\n")
    page = Page(run("page", os.path.join(DATA, "touchpad.hex"), stream))
    same("bytes of no field", ["03", "03 01 00 10 00 04 01 00"],
         [sample["bytes"] for sample in page.blocks["samples"]])
    same("short and long reports", [
        "1 report has fewer bytes than the descriptor says; what is missing isn't shown",
        "1 report has more bytes than the descriptor says; what no field has isn't shown"],
         [note["note"] for note in page.blocks["notes"]])
    with open(stream, "w", encoding="utf-8") as out:
        out.write("05 00\n06\n")
    page = Page(run("page", os.path.join(DATA, "touchpad.hex"), stream, status=(1,)))
    same("reports of none", [{"note": "2 reports aren't of this descriptor"}], page.blocks["notes"])


def look_at_words(folder):
    """What stands beside numbers: one outside of its bounds, keys of which none is held or two are; a
    report to a keyboard is the second of its descriptor, and one of 12 bits has as many."""
    stream = os.path.join(folder, "words.reports")
    for name, direction, digits, place, words in (
            ("mouse", "input", "00 80 00", 0, [""] * 4 + ["-128, outside of -127 to 127", ""]),
            ("keyboard", "input", "00 " * 8, 0, [""] * 9 + ["none"]),
            ("keyboard", "input", "00 00 04 05 00 00 00 00", 0, [""] * 9 + ["Keyboard A, Keyboard B"]),
            ("keyboard", "output", "01", 1, [""] * 6)):
        with open(stream, "w", encoding="utf-8") as out:
            out.write(digits)
        file = os.path.join(DATA, f"{name}.hex")
        page = Page(run("page", "--direction", direction, file, stream))
        same(f"words of {name}", [(place, words)],
             [(sample["report"], sample["words"]) for sample in page.blocks["samples"]])
    with open(stream, "w", encoding="utf-8") as out:
        out.write("05 01 09 30 75 0c 95 01 81 02")
    line = Page(run("page", stream)).blocks["lines"][0]
    same("the size of a report", (12, 2), (line["bits"], line["bytes"]))


def look_at_mended(folder):
    """Items that Linux mends are counted: one without its data; a reserved one, two usages before
    it, a maximum below 0, and two of data without a usage."""
    file = os.path.join(folder, "mended.hex")
    for digits, note in (
            ("05 01 09 30 75 08 95 01 80", "1 item is mended, as Linux reads it"),
            ("05 01 09 30 09 31 00 09 30 15 00 25 ff 75 08 95 01 81 02 80 81 02",
             "6 items are mended, as Linux reads it")):
        with open(file, "w", encoding="utf-8") as out:
            out.write(digits)
        same("what is mended", [{"note": note}], Page(run("page", file)).blocks["notes"])


def look_at_names(folder):
    """A device whose name tries to be markup; one without a name is called by its file."""
    file = os.path.join(folder, "</title><b>x.recording".replace("/", "\u2044"))
    with open(file, "w", encoding="utf-8") as out:
        out.write(f"D: 0\nR: 6 05 01 09 30 81 06\nN: {HOSTILE}\nI: 3 <i> &\n")
    text = run("page", file)
    page = Page(text)
    look_at_shell("hostile name", page)
    same("hostile name", HOSTILE, page.blocks["device"][0]["name"])
    same("hostile ids", "3 <i> &", page.blocks["device"][0]["ids"])
    same("the file without its folders", os.path.basename(file), page.blocks["device"][0]["file"])
    shown = HOSTILE.replace("\u202e", "\\u{202e}").replace("\u2028", "\\u{2028}")
    same("hostile heading", shown, page.inner("h1")[0])
    same("hostile title", shown + " - HID report descriptor", page.inner("title")[0])
    same("control letters", None, re.search("[\u202a-\u202e\u2028\u2029\x00-\x09\x0b-\x1f]", text))
    with open(file, "w", encoding="utf-8") as out:
        out.write("D: 0\nR: 6 05 01 09 30 81 06\n")
    same("named by its file", os.path.basename(file), Page(run("page", file)).inner("h1")[0])


def look_at_bounds(folder):
    """What a page has at most: with as much there is no note, with one more there is."""
    def notes(text, reports=()):
        file, stream = (os.path.join(folder, name) for name in ("bound.hex", "bound.reports"))
        for name, lines in ((file, text), (stream, "".join(reports))):
            with open(name, "w", encoding="utf-8") as out:
                out.write(lines)
        words = (file, stream) if reports else (file,)
        page = Page(run("page", *words))
        same("notes on standard error", [f"hid: {note['note']}" for note in page.blocks["notes"]],
             said.splitlines())
        same("--all has no note", [], Page(run("page", "--all", *words)).blocks["notes"])
        return [len(page.blocks[it]) for it in ("items", "fields", "samples")], page.blocks["notes"]

    fields = "05 01 09 30 75 01 96 {} 81 02"
    same("2000 fields", ([5, 2000, 0], []), notes(fields.format("d0 07")))
    same("2001 fields", ([5, 2000, 0], [{"note": "1 more field: --all puts it into the page"}]),
         notes(fields.format("d1 07")))
    same("4096 items", ([4096, 0, 0], []), notes("05 01 " * 4096))
    same("4097 items", ([4096, 0, 0],
                        [{"note": "2 more bytes of items: --all puts them into the page"}]),
         notes("05 01 " * 4097))
    one = "05 01 09 30 75 08 95 01 81 02"
    same("4000 reports", ([5, 1, 4000], []), notes(one, ["01\n"] * 4000))
    same("4001 reports", ([5, 1, 4000],
                          [{"note": "1 more report: --all puts it into the page"}]),
         notes(one, ["01\n"] * 4001))
    many = fields.format("d0 07")
    same("200000 values", ([5, 2000, 100], []), notes(many, ["00 " * 250 + "\n"] * 100))
    same("202000 values", ([5, 2000, 100],
                           [{"note": "1 more report: --all puts it into the page"}]),
         notes(many, ["00 " * 250 + "\n"] * 101))


def main():
    """Looks at all pages."""
    global program
    program = sys.argv[1]
    with tempfile.TemporaryDirectory() as folder:
        look_at_devices(folder)
        look_at_reports(folder)
        look_at_words(folder)
        look_at_mended(folder)
        look_at_names(folder)
        look_at_bounds(folder)
    for fault in faults[:20]:
        print(f"hid_page: {fault}")
    if faults:
        print(f"hid_page: {len(faults)} of {compared} answers differ")
        return 1
    print(f"hid_page: {compared} answers of pages as other commands and the standard have them")
    return 0


sys.exit(main())
