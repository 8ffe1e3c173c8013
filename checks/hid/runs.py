#!/usr/bin/env python3
"""The runs of `hid` that crates/hid/data/*.txt store (docs/TESTING.md): of each its standard output, its
standard error and its status are those that stand below it.

    runs.py [--only PART] [--every N] PROGRAM ..

Each program makes all runs, or with --only those alone whose file, line and words, as `mouse.txt:12: hid
fields mouse.hex`, have PART in them, and with --every of these each N-th. There have to be as many as
checks/said.txt says; and a wanted line that is another, and a run that is gone, are tried each time, and
have to be noticed. A program whose name ends in .wasm.gz is run by Node, in one process (serve.mjs).
Without a program one is built that isn't proved (common/unproved.sh).
"""

import base64
import difflib
import json
import os
import re
import subprocess
import sys
import tempfile

TOP = os.path.dirname(os.path.dirname(os.path.dirname(os.path.abspath(__file__))))
DATA = f"{TOP}/crates/hid/data"
SECONDS = 60


class Run:
    """A stored run: where it stands, its words as a shell has them, its input, and what is wanted."""

    def __init__(self, file, line, words):
        self.place = f"{file}:{line}: {words}"
        self.words, self.given, self.wanted = words, "", ""


def stored():
    """All runs, in the order of their files."""
    runs = []
    for file in sorted(it for it in os.listdir(DATA) if it.endswith(".txt")):
        with open(f"{DATA}/{file}", encoding="utf-8", newline="\n") as lines:
            for at, line in enumerate(lines.read().split("\n"), 1):
                if line.startswith("$ "):
                    runs.append(Run(file, at, line[2:]))
                elif line == "<" or line.startswith("< "):
                    runs[-1].given += line[2:] + "\n"
                elif re.match(r"[|!]( |$)|= ", line):
                    runs[-1].wanted += line + "\n"
                elif line and not line.startswith("#"):
                    sys.exit(f"hid_runs: {file}:{at}: no part of a run")
    return runs


def split(runs):
    """The words of each run, as a shell parts them."""
    script = "".join(f"words=({it.words}); printf '%s\\0' \"${{#words[@]}}\" \"${{words[@]}}\"\n" for it in runs)
    said = subprocess.run(["bash"], input=script.encode(), capture_output=True, check=True).stdout
    parts = said.split(b"\0")
    for run in runs:
        count = int(parts[0])
        run.parted, parts = parts[1 : count + 1], parts[count + 1 :]


def marked(mark, data):
    """Lines behind a mark; bytes that are no text as digits in one."""
    try:
        text = data.decode("utf-8")
    except UnicodeDecodeError:
        return mark + "".join(f" {byte:02x}" for byte in data) + "\n"
    lines = text.split("\n")
    last = lines.pop()
    said = "".join(f"{mark} {line}\n" if line else f"{mark}\n" for line in lines)
    return said + (f"{mark} {last}" if last else "")


def shown(output, errors, status):
    """What a program wrote and its status, as a run is stored."""
    said = marked("|", output) + marked("!", errors)
    return said + (f"= {status}\n" if status else "")


class Served:
    """The program as WebAssembly, all of whose runs one process of Node makes."""

    def __init__(self, module):
        words = ["node", f"{TOP}/checks/hid/serve.mjs", module]
        self.node = subprocess.Popen(
            words, cwd=DATA, stdin=subprocess.PIPE, stdout=subprocess.PIPE, text=True
        )

    def got_of(self, run):
        words = [base64.b64encode(word).decode() for word in run.parted]
        asked = {"words": words, "given": base64.b64encode(run.given.encode()).decode()}
        self.node.stdin.write(json.dumps(asked) + "\n")
        self.node.stdin.flush()
        answer = json.loads(self.node.stdout.readline())
        output, errors = (base64.b64decode(answer[it]) for it in ("output", "errors"))
        return shown(output, errors, answer["status"])


def got_of(program, run):
    """What a program makes of a run, in the folder of the data. It calls itself hid."""
    if isinstance(program, Served):
        return program.got_of(run)
    try:
        ran = subprocess.run(
            [b"hid", *run.parted],
            executable=program,
            cwd=DATA,
            input=run.given.encode(),
            capture_output=True,
            timeout=SECONDS,
            check=False,
        )
    except subprocess.TimeoutExpired:
        return f"= more than {SECONDS} s\n"
    status = ran.returncode if ran.returncode >= 0 else 128 - ran.returncode
    return shown(ran.stdout, ran.stderr, status)


def other_than_wanted(program, run):
    """What a program makes of a run, where that is something else than is wanted."""
    got = got_of(program, run)
    return None if got == run.wanted else got


def differing(program, runs):
    """How many runs go otherwise, each of which is shown."""
    count = 0
    for run in runs:
        got = other_than_wanted(program, run)
        if got is None:
            continue
        count += 1
        print(f"hid_runs: {run.place}")
        wanted, got = run.wanted.splitlines(), got.splitlines()
        for line in difflib.ndiff(wanted, got):
            if line[0] in "-+":
                print("wanted:" if line[0] == "-" else "got:", line[2:])
    return count


def check_noticed(program, run):
    """Another line of the output, another of the errors, and another status are noticed."""
    wanted = run.wanted
    for more in ("| another\n", "! another\n", "= 9\n"):
        run.wanted = wanted + more
        if other_than_wanted(program, run) is None:
            sys.exit("hid_runs: a spoilt run is not noticed")
    run.wanted = wanted


def count_said():
    """How many runs there have to be."""
    with open(f"{TOP}/checks/said.txt", encoding="utf-8") as lines:
        return int(re.search(r"^hid_runs: (\d+) runs as stored", lines.read(), re.M)[1])


def main():
    words = sys.argv[1:]
    part, step = None, 1
    if words[:1] == ["--only"]:
        part, words = words[1], words[2:]
    if words[:1] == ["--every"]:
        step, words = int(words[1]), words[2:]
    runs = stored()
    if len(runs) != count_said():
        sys.exit(f"hid_runs: {len(runs)} runs are stored, and checks/said.txt has {count_said()}")
    chosen = [it for it in runs if part is None or part in it.place][::step]
    if not chosen:
        sys.exit(f"hid_runs: no run has {part!r} in its place or its words")
    split(chosen)
    with tempfile.TemporaryDirectory() as scratch:
        if not words:
            words = [f"{scratch}/unproved"]
            build = [f"{TOP}/checks/common/unproved.sh", "hid", words[0]]
            if subprocess.run(["bash", *build], check=False).returncode:
                sys.exit("hid_runs: no program was built")
        words = [os.path.abspath(it) for it in words]
        words = [Served(it) if it.endswith(".wasm.gz") else it for it in words]
        check_noticed(words[0], chosen[0])
        count = sum(differing(it, chosen) for it in words)
    if count:
        sys.exit(f"hid_runs: {count} runs go otherwise")
    print(f"hid_runs: {len(chosen)} runs as stored, by each of {len(words)} programs")


if __name__ == "__main__":
    main()
