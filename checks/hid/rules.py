#!/usr/bin/env python3
"""The rules of `hid check`, as `hid check --json --explain all` says them.

    rules.py HID: asks of each rule that its example has it, and that the descriptor beside it, which is
    the same but for what the rule says, has no finding at all; that the items that it says to write are
    items for `hid compile`; and that numbers and names are in their forms, each once. The list of
    docs/RULES.md is what `hid check --explain all` prints.

A spoilt example, list and item are tried each time, and have to be noticed.
"""

import json
import pathlib
import re
import subprocess
import sys

TOP = pathlib.Path(__file__).resolve().parent.parent.parent
ITEM = re.compile(r"[A-Z][A-Za-z]+(?: [A-Z][A-Za-z]+)* \([^)]*\)")
PAGES = {"Usage (Mouse)": "Generic Desktop", "Usage (Contact Count Maximum)": "Digitizers"}


def ask(words, given=""):
    """The output and the status of a run."""
    done = subprocess.run([sys.argv[1], *words], input=given, capture_output=True, text=True, check=False)
    return done.stdout, done.returncode


def rules_of(rule, digits):
    """The numbers of the rules that a descriptor breaks, as its rule is asked for."""
    words = ["check", "--json", "--form", "hex", "-"]
    if rule["host"]:
        words += ["--for", rule["host"]]
    objects = [json.loads(line) for line in ask(words, digits)[0].splitlines()]
    return [it["rule"] for it in objects if "rule" in it]


def compiles(item):
    """Whether a text is an item, on its page where it names a usage."""
    page = PAGES.get(item)
    text = f"Usage Page ({page})\n{item}\n" if page else f"{item}\n"
    return ask(["compile", "-"], text)[1] == 0


def items_of(rule):
    """The items that a rule says to write."""
    return ITEM.findall(re.sub(r"\b(Write|Open) ", "", rule["instead"]))


def faults_of(rule):
    """What is wrong with a rule."""
    if rule["rule"] not in rules_of(rule, rule["example"]):
        yield "its example hasn't it"
    if rules_of(rule, rule["without"]):
        yield f"the other example has {rules_of(rule, rule['without'])}"
    for item in items_of(rule):
        if not compiles(item):
            yield f"{item} is no item"
    if not re.fullmatch(r"[a-z]+(-[a-z0-9]+)*", rule["name"]):
        yield "its name has another form"
    if rule["severity"] not in ("error", "warning", "note"):
        yield "its severity is none"
    if not all(rule[part] for part in ("wrong", "why", "instead", "source")):
        yield "a part is empty"


def listed():
    """The list of docs/RULES.md."""
    text = (TOP / "docs/RULES.md").read_text()
    return text.split("$ ./hid check --explain all\n")[1].split("```")[0]


def main():
    """Asks all, and tells what is wrong."""
    rules = [json.loads(line) for line in ask(["check", "--json", "--explain", "all"])[0].splitlines()]
    faults = [f"{rule['rule']}: {fault}" for rule in rules for fault in faults_of(rule)]
    numbers = [rule["rule"] for rule in rules]
    if numbers != sorted(set(numbers)) or len(set(rule["name"] for rule in rules)) != len(rules):
        faults.append("numbers or names aren't each once, in their order")
    lines = ask(["check", "--explain", "all"])[0]
    if listed() != lines:
        faults.append("docs/RULES.md has another list than hid check --explain all")
    for rule in rules:
        for word in (rule["rule"].lower(), rule["name"].upper()):
            if not ask(["check", "--explain", word])[0].startswith(f"{rule['severity']} {rule['rule']} "):
                faults.append(f"--explain {word} doesn't show {rule['rule']}")
    spoilt = dict(rules[0], example=rules[0]["without"], without=rules[0]["example"], instead="Logical (1)")
    if len(list(faults_of(spoilt))) != 3 or listed() == lines.replace("HID001", "HID002"):
        faults.append("what is spoilt isn't noticed")
    for fault in faults:
        print(f"hid_rules: {fault}", file=sys.stderr)
    if faults or not rules:
        sys.exit(1)
    items = sum(len(items_of(rule)) for rule in rules)
    print(f"hid_rules: {len(rules)} rules, each with an example that has it and one that hasn't; {items} items")


main()
