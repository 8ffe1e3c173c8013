#!/usr/bin/env python3
"""Plants bugs that a careless change could make where no proof would tell, and sees that each is noticed
by the script that its row names.

    plants.py [--find] [--only WORD] [--keep FOLDER]

The rows stand in plants/*.txt, a line for each part, an empty line between two:

    name: what is wrong        file: where, from the top of the repository
    old: what stands there just once        new: what is put there
    by: the script below that notices it, or `none`; then `why:` says why none does. Of a row without this
        line it isn't known yet: all scripts that look at such plants are asked, the quickest first

Those of hid_*.txt are planted in one program, which is built once, without a proof and without
AddressSanitizer, in a copy: there each old text becomes `(if PLANTED { NEW } else { OLD })`, where PLANTED
asks whether HID_PLANT in the environment is the plant's number. Where these are no expressions `put:` has
what is put there in place of that; in a table (`table: NAME`) a copy of the table has the new text, and is
looked at where PLANTED holds. Plants in the script of pages (hid_page.txt) are put into the pages that the
program writes. All others are put into a copy of the tree.

Each script passes first without a plant. A row fails where its script passes with the plant, and one with
`by: none` where a script that looks at such plants doesn't; so does the whole where there are other numbers
of rows than these. --find tries all scripts that look at a plant whose row has no `by:`, and says which
notices it; --only takes the rows whose name or file has WORD. --keep takes the program of FOLDER, or builds
it there.
"""

import base64
import contextlib
import hashlib
import importlib.util
import os
import queue
import re
import shutil
import signal
import subprocess
import sys
import tempfile
import time
from concurrent.futures import ThreadPoolExecutor

from sources import CLANG, LINKER, make_kit, switch

HERE = os.path.dirname(os.path.abspath(__file__))
TOP = os.path.dirname(os.path.dirname(HERE))
# So many plants are there, and so many of them are noticed.
ALL = 455
NOTICED = 454
SECONDS = 900
SWITCH = switch("HID_PLANT")
KEYS = ("name", "file", "old", "new", "put", "table", "by", "why")

# The scripts that are asked about the program HID, from the top of the tree; HIDREPORT is the other one.
OF_PROGRAM = {
    "runs": "python3 checks/mutations/plants.py --runs HID",
    "devices": "bash checks/hid/devices.sh HID",
    "rules": "python3 checks/hid/rules.py HID",
    "uhid": "bash checks/hid/uhid.sh HID",
    "names": "bash checks/hid/names.sh HID",
    "options": "bash checks/hid/options.sh HID HIDREPORT",
    "samples": "bash checks/hid/samples.sh HID HIDREPORT",
    "texts": "bash checks/hid/texts.sh HID",
    "page": "bash checks/hid/page.sh HID",
    "browser": "python3 checks/hid/page_browser.py HID",
    "structs": "bash checks/hid/descriptors.sh | cut -d ' ' -f 1 | python3 checks/hid/structs.py HID",
    "as_linux": "python3 checks/hid/as_linux.py HID",
    "events": "python3 compare/linux_events.py HID",
    "webhid": "python3 compare/webhid.py HID",
    "beside": "bash checks/hid/beside.sh tshark HID && bash checks/hid/beside.sh lsusb HID",
    "hostile": "bash checks/hid/hostile.sh HID",
}
# Those that are asked about a copy of the tree, from its top.
OF_TREE = {
    "rust": "cd rust && cargo build --offline --quiet --example cases && "
            "(ulimit -v 4000000 && grep -v '^  ' ../c/cases.txt | target/debug/examples/cases) | "
            "cmp ../c/cases.txt - && cargo test --offline --quiet",
    "js": "cd js && node --test tests/",
    "webhid_js": "node checks/js/webhid.mjs js",
    "wasm": "python3 checks/hid/runs.py generated/wasm/hid.wasm.gz",
    "python": "cd python && python3 -m unittest tests/test_hidreport.py",
    "c": "rm -rf prefix && make -s install-library PREFIX=\"$PWD/prefix\" && "
         "PATH=\"$(dirname \"$(command -v cargo || echo /usr/bin/cargo)\"):/usr/bin:/bin\" "
         "bash checks/c/cases.sh \"$PWD/prefix\"",
    "programs": "make -s build/hid build/hidreport && python3 checks/hid/runs.py build/hid && "
                "sh checks/hidreport/statuses.sh \"$PWD/build/hidreport\" && "
                "bash checks/hid/devices.sh build/hid && python3 checks/launchers/terminal.py build/hid",
    "texts": "make -s build/hid && bash checks/hid/texts.sh build/hid",
    "hostile": "make -s build/hid && bash checks/hid/hostile.sh build/hid",
    "pipes": "make -s build/hid && { { sleep 0.2 && build/hid fields crates/hid/data/mouse.hex; echo $? >&3; } | :; } "
             "3>&1 | grep -qx 141",
    "make": "bash checks/generated/make.sh",
    "install": "bash checks/launchers/install.sh",
    "launcher": "bash checks/launchers/launcher.sh",
    "options": "bash checks/hid/options.sh HID HIDREPORT",
    "names": "bash checks/hid/names.sh HID",
    "tree": "bash checks/tree.sh",
}
# Which of them look at what: by the beginning of a plant's file, the first that fits.
LOOK = [
    ("crates/hid_page/page/", "browser"),
    ("crates/hid_macros/src/bpf_names", "tree"),
    ("crates/hid_commands/", "runs options texts devices samples"),
    ("crates/hid_output/", "runs page devices texts"),
    ("crates/hid_captures/", "runs texts"),
    ("crates/hid_given/", "runs texts"),
    ("crates/hid_webhid/", "runs webhid texts"),
    ("crates/hid_sources/", "runs devices texts"),
    ("crates/hid_input/", "runs devices texts"),
    ("crates/hid_words/", "runs beside texts"),
    ("crates/hid_items/", "runs texts page"),
    ("crates/hid_report/", "runs texts page"),
    ("crates/hid_objects/", "runs events page"),
    ("crates/hid_show/", "runs devices events texts"),
    ("crates/hid_values/src/choosing", "runs devices texts"),
    ("crates/hid_values/", "runs texts"),
    ("crates/hid_macros/", "runs texts"),
    ("crates/hid_targets/", "runs webhid texts"),
    ("crates/hid_write/src/uhid", "runs uhid names texts"),
    ("crates/hid_write/", "runs names texts"),
    ("crates/hid_struct/", "runs texts structs"),
    ("crates/hid_findings/", "runs rules as_linux"),
    ("crates/hid_page/", "runs page"),
    ("crates/hid", "runs"),
    ("rust/build.rs", "c"),
    ("rust/", "rust"),
    ("js/", "js webhid_js wasm"),
    ("python/", "python"),
    ("generated/heap.c", "c programs texts hostile"),
    ("generated/", "programs pipes texts"),
    ("Makefile", "install make tree"),
    ("install", "install"),
    ("tools/", "launcher"),
    ("share/", "options names tree"),
]


class Plant:
    """A row: a bug, and where it is planted."""

    def __init__(self, table, parts):
        self.is_of_page = table == "hid_page.txt"
        self.is_of_program = table.startswith("hid_") and not self.is_of_page
        self.is_of_tree = not table.startswith("hid_")
        self.name, self.file, self.old, self.new = (parts.get(key, "") for key in KEYS[:4])
        self.put, self.table = parts.get("put"), parts.get("table")
        self.by, self.why = parts.get("by"), parts.get("why")
        self.number = 0

    def lookers(self):
        """The scripts that look at it."""
        return next(scripts.split() for begin, scripts in LOOK if self.file.startswith(begin))

    def faults(self):
        """What is wrong with the row."""
        path = f"{TOP}/{self.file}"
        times = text_of(path).count(self.old) if self.old and os.path.isfile(path) else 0
        if times != 1:
            yield f"its old text stands {times} times in {self.file}"
        if self.old == self.new:
            yield "it changes nothing"
        if (self.by == "none") != bool(self.why):
            yield "`why:` says why none notices it, and stands nowhere else"
        if self.by not in (None, "none", *self.lookers()):
            yield f"{self.by} doesn't look at {self.file}"

    def in_switch(self):
        """What stands in the place of the old text in the program with all plants."""
        text = self.put or f"(if PLANTED {{ {self.new} }} else {{ {self.old} }})"
        return self.asked(text)

    def asked(self, text):
        return text.replace("PLANTED", f"hid_planted::stands_at({self.number})")


def output_of(*words):
    """What a command says, which has to end well, from the top of the tree."""
    return subprocess.run(words, cwd=TOP, capture_output=True, text=True, check=True).stdout


def text_of(path):
    with open(path, encoding="utf-8", newline="\n") as it:
        return it.read()


def write(path, text):
    if os.path.exists(path):
        os.unlink(path)
    with open(path, "w", encoding="utf-8", newline="\n") as it:
        it.write(text)


def rows():
    """All plants, in the order of their tables; numbers begin with those of the program."""
    plants = []
    for table in sorted(os.listdir(f"{HERE}/plants")):
        for block in re.split(r"\n\n+", text_of(f"{HERE}/plants/{table}")):
            lines = [it.partition(": ") for it in block.strip("\n").split("\n") if it and it[0] != "#"]
            parts = {key: value for key, _, value in lines}
            if not lines:
                continue
            if len(parts) != len(lines) or set(parts) - set(KEYS) or not {"name", "file", "old", "new"} <= set(parts):
                sys.exit(f"plants: {table}: no row: {block[:200]}")
            plants.append(Plant(table, parts))
    for number, plant in enumerate(sorted(plants, key=lambda it: not it.is_of_program), 1):
        plant.number = number
    return plants


def with_table(text, original, plant):
    """A source in which a copy of a table has the new text, and is looked at in the table's place."""
    name = plant.table
    found = re.search(rf"^(?:pub )?static {name}: .*?\];\n", original, re.S | re.M)
    own = f"{name}_{plant.number}"
    copied = found[0].replace(plant.old, plant.new).replace(f"static {name}:", f"static {own}:")
    if plant.old not in found[0]:
        sys.exit(f"plants: {plant.name}: {name} hasn't its old text")
    taken = plant.asked(f"(if PLANTED {{ &{own} }} else {{ &{name} }})")
    lines = []
    for line in text.replace(found[0], f"{found[0]}{copied}").split("\n"):
        if not re.match(r"\s*//|use |pub use |(pub )?static ", line):
            line = re.sub(rf"&?\b{name}\b(?!_)", taken, line)
        lines.append(line)
    return "\n".join(lines)


def with_plants(file, plants):
    """A source with all plants that it has, behind the switch."""
    original = text_of(f"{TOP}/{file}")
    spans = sorted((original.index(it.old), it) for it in plants if it.table is None)
    text, last = "", 0
    for at, plant in spans:
        if at < last:
            sys.exit(f"plants: {plant.name}: another plant stands in its old text")
        text += original[last:at] + plant.in_switch()
        last = at + len(plant.old)
    text += original[last:]
    for plant in plants:
        if plant.table is not None:
            text = with_table(text, original, plant)
    return text


def copy_crates(tree, plants):
    """The crates of `hid` in a tree of their own, with all plants behind the switch."""
    os.makedirs(f"{tree}/crates")
    subprocess.run(["git", "init", "-q", tree], check=True)
    shutil.copy(f"{TOP}/HANDLES", tree)
    crates = output_of("sh", "tools/program.sh", "crates", "hid").split()
    listed = [line for line in text_of(f"{TOP}/crates.txt").split("\n") if line.split(":")[0] in crates]
    listed = [f"{line} hid_planted" if re.match(r"hid(_|:)", line) else line for line in listed]
    write(f"{tree}/crates.txt", "\n".join(["hid_planted:", *listed, ""]))
    for crate in crates:
        for part in ("src", "specs", "proofs"):
            if os.path.isdir(f"{TOP}/crates/{crate}/{part}"):
                shutil.copytree(f"{TOP}/crates/{crate}/{part}", f"{tree}/crates/{crate}/{part}")
    for part in ("src", "c"):
        os.makedirs(f"{tree}/crates/hid_planted/{part}")
    rust, c = SWITCH
    write(f"{tree}/crates/hid_planted/src/lib.rt", rust)
    write(f"{tree}/crates/hid_planted/c/planted.c", c)
    files = {}
    for plant in plants:
        if plant.is_of_program:
            files.setdefault(plant.file, []).append(plant)
    for file, own in files.items():
        write(f"{tree}/{file}", with_plants(file, own))


def sum_of(plants):
    """A sum over all that the program is made of."""
    code = output_of("sh", "tools/program.sh", "code", "hid")
    made = [(it.number, it.file, it.old, it.in_switch(), it.table) for it in plants if it.is_of_program]
    return hashlib.sha256(repr((code, made, SWITCH, CLANG, LINKER)).encode()).hexdigest()


def build(folder, plants):
    """The program with all plants, where it isn't there."""
    os.makedirs(folder, exist_ok=True)
    tree, program = f"{folder}/crates_of_hid", f"{folder}/hid"
    wanted = sum_of(plants)
    if os.access(program, os.X_OK) and os.path.exists(f"{folder}/sum") and text_of(f"{folder}/sum") == wanted:
        return program
    shutil.rmtree(tree, ignore_errors=True)
    copy_crates(tree, plants)
    compile_program(folder, tree, program)
    write(f"{folder}/sum", wanted)
    return program


def compile_program(folder, tree, program):
    """The program of a tree with a switch, without a proof."""
    kit = f"{folder}/kit"
    if os.path.exists(program):
        os.unlink(program)
    for old in (kit, f"{folder}/try"):
        shutil.rmtree(old, ignore_errors=True)
    make_kit(kit, program)
    os.makedirs(f"{folder}/try/cases")
    write(f"{folder}/try/cases/1", "")
    write(f"{folder}/try/cases/1.args", "--version\n")
    words = [f"{kit}/bin/rt", "try", "--steps", "1", "--seconds", "60", "--cases", f"{folder}/try/cases"]
    env = {**os.environ, "RT_ALLOW_C": "1", "TMPDIR": f"{folder}/try"}
    how = {"stdin": subprocess.DEVNULL, "capture_output": True, "text": True, "check": False}
    ran = subprocess.run(words, cwd=f"{tree}/crates/hid", env=env, **how)
    write(f"{folder}/said", ran.stdout + ran.stderr)
    if not os.access(program, os.X_OK):
        sys.exit(f"plants: the program isn't built: {ran.stdout[-2000:]}{ran.stderr[-2000:]}")


def first_run_otherwise(program):
    """The first stored run that goes otherwise."""
    spec = importlib.util.spec_from_file_location("runs", f"{TOP}/checks/hid/runs.py")
    runs = importlib.util.module_from_spec(spec)
    spec.loader.exec_module(runs)
    stored = runs.stored()
    runs.split(stored)
    return next((it.place for it in stored if runs.other_than_wanted(program, it) is not None), None)


def planted_page(number, program, words):
    """A page of the program with a plant in its script, whose hash its policy has."""
    plant = next(it for it in rows() if it.number == number)
    ran = subprocess.run([program, *words], stdout=subprocess.PIPE, check=False)
    page = ran.stdout
    hash_of = lambda it: base64.b64encode(hashlib.sha256(it).digest())
    script = re.search(rb"<script>(.*?)</script>", page, re.S)[1]
    made = script.replace(plant.old.encode(), plant.new.encode())
    if made == script:
        sys.exit(f"plants: {plant.name}: no page has its old text")
    page = page.replace(script, made).replace(hash_of(script), hash_of(made))
    sys.stdout.buffer.write(page)
    sys.stdout.flush()
    return ran.returncode


class Lane:
    """A copy of the tree, for plants that are put into files, and what makes the programs of it."""

    def __init__(self, folder):
        self.folder = folder
        self.is_made = False

    def make(self):
        """All files that git knows, or would, with the libraries and programs that `make` builds."""
        if self.is_made:
            return
        for name in filter(None, output_of("git", "ls-files", "-z", "-co", "--exclude-standard").split("\0")):
            os.makedirs(os.path.dirname(f"{self.folder}/{name}"), exist_ok=True)
            shutil.copy2(f"{TOP}/{name}", f"{self.folder}/{name}", follow_symlinks=False)
        # That a plant's old text isn't there any more is no way to notice it.
        for name in os.listdir(f"{self.folder}/checks/mutations/plants"):
            write(f"{self.folder}/checks/mutations/plants/{name}", "")
        for words in (["git", "init", "-q"], ["git", "add", "-A"], ["make", "-s", "all"]):
            subprocess.run(words, cwd=self.folder, capture_output=True, check=True)
        self.is_made = True

    @contextlib.contextmanager
    def planted(self, plant):
        """With a plant in a file, which is taken out again."""
        path = f"{self.folder}/{plant.file}"
        whole, mode = text_of(path), os.stat(path).st_mode
        try:
            write(path, whole.replace(plant.old, plant.new))
            os.chmod(path, mode)
            yield
        finally:
            write(path, whole)
            os.chmod(path, mode)
        if plant.file.startswith(("generated/", "Makefile")):
            subprocess.run(["make", "-s", "all"], cwd=self.folder, capture_output=True, check=True)


class Asker:
    """Runs the scripts, of which two go side by side."""

    def __init__(self, scratch, program):
        self.scratch, self.program = scratch, program
        self.lanes = queue.Queue()
        for number in (1, 2):
            self.lanes.put(Lane(f"{scratch}/lane{number}"))

    def make_hidreport(self):
        """The other program, of generated/."""
        lane = self.lanes.get()
        lane.make()
        shutil.copy2(f"{lane.folder}/build/hidreport", f"{self.scratch}/hidreport")
        self.lanes.put(lane)

    def run(self, command, folder, program, more):
        """Whether a script passes, and what it says."""
        command = re.sub(r"\bHIDREPORT\b", f"{self.scratch}/hidreport", command)
        command = re.sub(r"\bHID\b", program, command)
        env = {**os.environ, "LC_ALL": "C", "PYTHONDONTWRITEBYTECODE": "1", "HID_PLANT": "0", **more}
        words = ["bash", "-c", f"set -o pipefail; {command}"]
        with tempfile.TemporaryFile() as said:
            tool = subprocess.Popen(words, cwd=folder, env=env, stdout=said, stderr=said, stdin=subprocess.DEVNULL,
                                    start_new_session=True)
            try:
                status = tool.wait(SECONDS)
            except subprocess.TimeoutExpired:
                status = "none in time"
            finally:
                with contextlib.suppress(ProcessLookupError):
                    os.killpg(tool.pid, signal.SIGKILL)
                tool.wait()
            said.seek(0)
            return status == 0, said.read().decode(errors="replace").strip()

    def proxy(self, plant):
        """A program whose pages have the plant."""
        folder = f"{self.scratch}/pages/{plant.number}"
        os.makedirs(folder, exist_ok=True)
        script = f"{HERE}/plants.py"
        write(f"{folder}/hid", f"#!/bin/sh\n[ \"$1\" = page ] || exec '{self.program}' \"$@\"\n"
                               f"exec python3 '{script}' --page {plant.number} '{self.program}' \"$@\"\n")
        os.chmod(f"{folder}/hid", 0o755)
        return f"{folder}/hid"

    def ask(self, script, is_of_tree, plant=None):
        """Whether a script passes, with a plant or without."""
        if is_of_tree:
            return self.ask_tree(script, plant)
        if plant and plant.is_of_page:
            return self.run(OF_PROGRAM[script], TOP, self.proxy(plant), {})
        number = str(plant.number if plant else 0)
        return self.run(OF_PROGRAM[script], TOP, self.program, {"HID_PLANT": number})

    def ask_tree(self, script, plant):
        lane = self.lanes.get()
        try:
            lane.make()
            more = {"HIDREPORT_LIB_DIR": f"{lane.folder}/build"}
            more["HIDREPORT_CASES"] = f"{lane.folder}/tests/hidreport_cases/data"
            if plant is None:
                return self.run(OF_TREE[script], lane.folder, self.program, more)
            with lane.planted(plant):
                return self.run(OF_TREE[script], lane.folder, self.program, more)
        finally:
            self.lanes.put(lane)

    def check_unplanted(self, scripts, pool):
        """Whether each script passes without a plant."""
        def one(it):
            began = time.monotonic()
            passes, said = self.ask(*it)
            if not passes:
                print(f"plants: {it[0]} fails without a plant: {said[-1500:]}")
            print(f"    {it[0]}: {time.monotonic() - began:.0f} s without a plant", flush=True)
            return passes

        return all(list(pool.map(one, sorted(scripts))))


def scripts_of(plant, finds):
    """The scripts that are asked about a plant."""
    if finds or plant.by is None:
        return plant.lookers()
    return plant.lookers()[:1] if plant.by == "none" else [plant.by]


def noticed_by(asker, plant, finds):
    """The script that notices a plant, or none, and what it says."""
    for script in scripts_of(plant, finds):
        passes, said = asker.ask(script, plant.is_of_tree, plant)
        if not passes:
            return script, said
    return None, ""


def main():
    words = sys.argv[1:]
    if words[:1] == ["--runs"]:
        place = first_run_otherwise(os.path.abspath(words[1]))
        sys.exit(place and f"plants: goes otherwise: {place}")
    if words[:1] == ["--page"]:
        sys.exit(planted_page(int(words[1]), words[2], words[3:]))
    finds = "--find" in words
    words = [it for it in words if it != "--find"]
    options = dict(zip(words[::2], words[1::2]))
    if len(words) % 2 or set(options) - {"--only", "--keep"}:
        sys.exit("usage: plants.py [--find] [--only WORD] [--keep FOLDER]")
    begun = time.monotonic()
    plants = rows()
    faults = [f"{it.name}: {fault}" for it in plants for fault in it.faults()]
    if len({it.name for it in plants}) != len(plants):
        faults.append("two plants have the same name")
    if faults:
        sys.exit("\n".join(f"plants: {it}" for it in faults))
    only = options.get("--only", "")
    chosen = [it for it in plants if (only in it.name or only in it.file) and not (finds and it.by)]
    with tempfile.TemporaryDirectory() as scratch:
        program = build(os.path.abspath(options.get("--keep", f"{scratch}/built")), plants)
        print(f"plants: the program is there behind {time.monotonic() - begun:.0f} s", flush=True)
        asker = Asker(scratch, program)
        pool = ThreadPoolExecutor(2)
        scripts = {(script, it.is_of_tree) for it in chosen for script in scripts_of(it, finds)}
        if scripts & {("options", False), ("options", True), ("samples", False)}:
            asker.make_hidreport()
        if not asker.check_unplanted(scripts, pool):
            sys.exit("plants: nothing is tried where a script fails without a plant")

        def one(plant):
            script, said = noticed_by(asker, plant, finds)
            if finds:
                last = [line for line in said.split("\n") if line.strip()][-1:]
                print(f"{plant.name}: {script or 'none'}: {' '.join(last)[:160]}", flush=True)
            elif plant.by not in (script or "none", None):
                faults.append(f"{plant.name}: {plant.by} doesn't notice it" if script is None
                              else f"{plant.name}: {script} notices it, and its row says none does")
            return script

        by = list(pool.map(one, chosen))
    told = {script: by.count(script) for script in sorted({it for it in by if it})}
    noticed = len(by) - by.count(None)
    for plant in chosen:
        if plant.by == "none":
            print(f"    {plant.name} isn't noticed: {plant.why}")
    if not only and (len(plants) != ALL or noticed < NOTICED):
        faults.append(f"{len(plants)} plants are there, and {noticed} are noticed, not {ALL} and {NOTICED}")
    for fault in faults:
        print(f"plants: {fault}")
    counts = ", ".join(f"{count} by {script}" for script, count in told.items())
    print(f"plants: {noticed} of {len(by)} are noticed: {counts}")
    print(f"plants: in {time.monotonic() - begun:.0f} s")
    sys.exit(1 if faults else 0)


if __name__ == "__main__":
    main()
