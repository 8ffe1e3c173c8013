#!/usr/bin/env python3
"""Shows pages of `hid page` in Chromium, and looks at what they become: the items and the fields
are there, a link to an item marks the fields that it made, a device's name is text, nothing is
refused by the page's policy. What a person does is done by a script in a copy whose policy lets it
run.

    page_browser.py HID [FOLDER]

Pictures of the pages are put into FOLDER, if one is named.
"""

import html.parser
import os
import re
import subprocess
import sys
import tempfile

TOP = os.path.dirname(os.path.dirname(os.path.dirname(os.path.abspath(__file__))))
DATA = os.path.join(TOP, "crates", "hid", "data")
BROWSER = ["chromium", "--headless", "--no-sandbox", "--disable-gpu", "--hide-scrollbars",
           "--virtual-time-budget=4000", "--enable-logging=stderr", "--v=0"]
NAME = "</script><img src=x onerror=alert(1)>]]>\"'&amp;<b>"
# What a person does; what is marked then is told.
ACTS = """
const row = (key) => document.getElementById(key);
const told = [];
const all = (marks, told) => Array.from(document.querySelectorAll(marks), told).join(' ');
const marks = (name) => all('tr.' + name, (it) => it.id);
const cells = () => all('td.is-near, td.is-self', (it) => it.dataset.key);
const press = (key) => document.activeElement.dispatchEvent(
  new KeyboardEvent('keydown', { key, bubbles: true }));
row('item-46').dispatchEvent(new MouseEvent('mouseover', { bubbles: true }));
told.push('hover ' + marks('is-near') + ', ' + cells());
row('field-0').click();
told.push('click ' + marks('is-near') + ', ' + location.hash + ', ' + marks('is-self'));
document.body.dispatchEvent(new MouseEvent('mouseover', { bubbles: true }));
told.push('kept ' + marks('is-self'));
press('Escape');
told.push('let go ' + marks('is-self') + location.hash);
row('item-0').focus();
press('ArrowDown');
press('ArrowDown');
told.push('keys ' + document.activeElement.id + ', ' + marks('is-near'));
press('End');
press('Enter');
told.push('end ' + location.hash + ', ' + marks('is-far'));
row('item-46').focus();
press('ArrowRight');
told.push('over ' + document.activeElement.id);
press('ArrowLeft');
told.push('back ' + document.activeElement.id);
const texts = (name) => all(name, (it) => it.textContent);
const values = () => texts('td.value');
told.push('first ' + values() + ', ' + all('.player button', (it) => it.disabled));
told.push('map ' + texts('table.map thead th') + ', ' + texts('td.padding .name'));
told.push('bits ' + texts('td.bits'));
const slider = document.querySelector('input[type=range]');
slider.value = '3';
slider.dispatchEvent(new Event('input'));
const said = () => document.querySelector('.said').textContent;
told.push('third ' + values() + ', ' + said());
told.push('changed ' + texts('td.is-changed'));
document.querySelector('button').click();
told.push('second ' + values() + ', ' + texts('.digits'));
told.push('mark ' + all('line.now', (it) => it.getAttribute('x1')));
document.querySelectorAll('.player button')[1].click();
told.push('next ' + said());
window.dispatchEvent(new Event('beforeprint'));
told.push('printed ' + texts('table.samples .jump'));
told.push('plots ' + texts('.range'));
told.push('curve ' + document.querySelectorAll('polyline')[3].getAttribute('points'));
document.body.append(document.createElement('hr'));
document.querySelector('hr').id = 'told';
document.querySelector('hr').dataset.told = told.join('|');
"""
# Of mouse.recording: the item at 24 makes three buttons of a bit each, that at 46 X and Y, which hold
# 5 and -5 in the first two reports, and 0 in the third; the one at 49 ends what the one at 4 begins. A plot
# is 120 wide and 26 high with an edge of 3: the second report came behind a half of the time, at 60.0, and
# X falls at the end from the top, 3, to the bottom, 23.
TOLD = [
    "hover field-4 field-5, field-4 field-5",
    "click item-24, #field-0, field-0",
    "kept field-0",
    "let go ",
    "keys item-4, field-0 field-1 field-2 field-3 field-4 field-5",
    "end #item-49, item-4",
    "over field-4",
    "back item-46",
    "first 1 0 0  5 -5, true false",
    "map Byte 7 6 5 4 3 2 1 0, padding",
    "bits 0..1 1..2 2..3 3..8 8..16 16..24",
    "third 0 0 0  0 0, 3 of 3000000.016011 sInput report00 00 00",
    "changed 0 0",
    "second 0 0 0  5 -5, 00000 0 0 0 00000101 11111011",
    "mark 60.0 60.0 60.0 60.0 60.0",
    "next 3 of 3000000.016011 sInput report00 00 00",
    "printed 1 2 3",
    "plots 0 to 1 always 0 always 0 0 to 5 -5 to 0",
    "curve 3.0,3.0 60.0,3.0 60.0,3.0 117.0,3.0 117.0,23.0 117.0,23.0",
]

program = None
faults = []


def same(about, wanted, got):
    """Compares what is wanted with what the browser has."""
    if wanted != got:
        faults.append(f"{about}: wanted {str(wanted)[:300]!r}, got {str(got)[:300]!r}")


class Shown(html.parser.HTMLParser):
    """The tags that a page becomes, and the text of the heading."""

    def __init__(self, text):
        super().__init__(convert_charrefs=True)
        self.tags = []
        self.heading = None
        self.is_heading = False
        self.feed(text)

    def handle_starttag(self, tag, attrs):
        self.tags.append((tag, {name: value or "" for name, value in attrs}))
        self.is_heading = tag == "h1"

    def handle_endtag(self, tag):
        self.is_heading = False

    def handle_data(self, data):
        if self.is_heading:
            self.heading = (self.heading or "") + data

    def marked(self, name, tag="tr"):
        """The ids of the rows that are marked, or the keys of other elements."""
        return [words.get("id") or words.get("data-key") for own, words in self.tags
                if own == tag and name in words.get("class", "").split()]


def show(about, file, *words):
    """What the browser makes of a page; it must complain of nothing."""
    done = subprocess.run([*BROWSER, *words, f"file://{file}"], capture_output=True, check=False,
                          timeout=120)
    errors = [line for line in done.stderr.decode().splitlines() if "CONSOLE" in line]
    same(f"{about}: complaints", [], errors)
    return done.stdout.decode()


def page_of(folder, name, *words):
    """The file of a page."""
    file = os.path.join(folder, f"{name}.html")
    with open(file, "wb") as out:
        subprocess.run([program, "page", *words], stdout=out, stderr=subprocess.DEVNULL, check=False)
    return file


def look_at_links(folder):
    """A link to an item marks what it made, to a field what made it."""
    keyboard = page_of(folder, "keyboard", os.path.join(DATA, "keyboard.hex"))
    shown = Shown(show("keyboard", f"{keyboard}#item-20", "--dump-dom"))
    rows = [words["id"] for tag, words in shown.tags if tag == "tr" and "id" in words]
    same("keyboard: items", 32, len([row for row in rows if row.startswith("item-")]))
    same("keyboard: fields", 16, len([row for row in rows if row.startswith("field-")]))
    # The Input at 20 makes the eight keys that are bits; in force are the items at 0 to 18.
    keys = [f"field-{number}" for number in range(8)]
    same("keyboard: fields of an item", keys, shown.marked("is-near"))
    same("keyboard: bits of an item", sorted(keys), sorted(shown.marked("is-near", "td")))
    same("keyboard: in force", [f"item-{at}" for at in (6, 8, 10, 12, 14, 16, 18)],
         shown.marked("is-far"))
    same("keyboard: itself", ["item-20"], shown.marked("is-self"))
    shown = Shown(show("keyboard", f"{keyboard}#field-9", "--dump-dom"))
    same("keyboard: item of a field", ["item-60"], shown.marked("is-near"))
    shown = Shown(show("keyboard", f"{keyboard}#item-32", "--dump-dom"))
    # The Usage Page at 32 is in force for the lamps and their padding.
    same("keyboard: fields of a global", [f"field-{number}" for number in range(10, 16)],
         shown.marked("is-near"))
    # The first Usage Page is in force for the usage before the collection, so for it alone.
    shown = Shown(show("keyboard", f"{keyboard}#item-0", "--dump-dom"))
    same("keyboard: a global of a collection", ([], ["item-4"]),
         (shown.marked("is-near"), shown.marked("is-far")))
    shown = Shown(show("keyboard", f"{keyboard}#item-1", "--dump-dom"))
    same("keyboard: no such item", [], shown.marked("is-self") + shown.marked("is-near"))


def look_at_names(folder):
    """A name that tries to be markup is text; a refused descriptor says so."""
    file = os.path.join(folder, "named.recording")
    with open(file, "w", encoding="utf-8") as out:
        out.write(f"D: 0\nR: 10 05 01 09 30 75 08 95 01 81 06\nN: {NAME}\nI: 3 \u202e<i>\n"
                  "E: 1.5 1 07\nE: 1.5 1 09\n")
    text = show("name", page_of(folder, "named", file), "--dump-dom")
    same("two reports at one time", True, 'points="60.0,23.0 60.0,23.0 60.0,3.0 117.0,3.0"' in text)
    same("letters that turn a line", True, "<dd>3 \\u{202e}&lt;i&gt;</dd>" in text)
    shown = Shown(text)
    same("name", NAME, shown.heading)
    same("name: images", [], [tag for tag, _ in shown.tags if tag in ("img", "b", "iframe")])
    with open(file, "w", encoding="utf-8") as out:
        out.write("R: 10 05 01 09 30 75 10 95 01 81 06\nE: 1.5 2 07 01\n")
    text = show("wide", page_of(folder, "wide", file), "--dump-dom")
    same("the bytes of a wide field", True, '<span class="digits">07 01</span>' in text)
    shown = show("refused", page_of(folder, "refused", os.path.join(DATA, "odd.hex")),
                 "--dump-dom")
    same("refused", True, "Refused at offset" in shown and 'class="fault"' in shown)


def look_at_acts(folder):
    """What a mouse, the keys and the slider do."""
    file = page_of(folder, "mouse", os.path.join(DATA, "mouse.recording"))
    with open(file, encoding="utf-8") as text:
        page = text.read()
    page = re.sub(r"script-src [^;]*;", "script-src 'unsafe-inline';", page)
    page = page.replace("require-trusted-types-for 'script'; trusted-types 'none'", "")
    acts = os.path.join(folder, "acts.html")
    with open(acts, "w", encoding="utf-8") as out:
        out.write(page.replace("</body>", f"<script>{ACTS}</script></body>"))
    shown = Shown(show("acts", acts, "--dump-dom"))
    told = [words["data-told"] for tag, words in shown.tags if words.get("id") == "told"]
    same("acts: done", 1, len(told))
    got = told[0].split("|") if told else []
    same("acts: how many", len(TOLD), len(got))
    for wanted, done in zip(TOLD, got):
        same("acts", wanted, done)


def take_pictures(folder):
    """Pictures, light and dark, wide and narrow."""
    os.makedirs(folder, exist_ok=True)
    for name in ("keyboard.hex", "touchpad.hex", "mouse.recording"):
        file = page_of(folder, name, os.path.join(DATA, name))
        for kind, words in (("light", ["--window-size=1280,1600"]),
                            ("dark", ["--window-size=1280,1600",
                                      "--blink-settings=preferredColorScheme=0"]),
                            ("narrow", ["--window-size=500,3000"])):
            show(name, file, *words, f"--screenshot={os.path.join(folder, name)}.{kind}.png")


def main():
    """Looks at all pages."""
    global program
    program = sys.argv[1]
    with tempfile.TemporaryDirectory() as folder:
        look_at_links(folder)
        look_at_names(folder)
        look_at_acts(folder)
    if len(sys.argv) > 2:
        take_pictures(sys.argv[2])
    for fault in faults[:20]:
        print(f"hid_page: in the browser: {fault}")
    if faults:
        return 1
    print("hid_page: a browser shows the pages, and does in them what a person asks for")
    return 0


sys.exit(main())
