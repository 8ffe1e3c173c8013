"""What the specifications say as laws, and the parts of each: read from the crates' specs/ and src/.

A law is a definition that says something: a record with a field that does, or a definition that ends
in `Type 0` and says something in one of its cases. Its parts are what it says besides its premises:
the fields, what is joined by `×`, both ways of `↔`, and a case that nothing meets (`⊥`). A law counts
where a clause of a public function cites it, or a law that does.
"""

import glob
import os
import re

OPEN, CLOSE = "([{", ")]}"
RELATIONS = ("≡", "≢", "≤", "<", "≤ℤ", "<ℤ", "⊎", "↔")
EMPTY = "Unit {0}"
# What is no statement though it begins with a capital.
DATA = {"ℕ", "ℤ", "List", "Option", "Result", "Vec", "Bool", "Unit", "Type"}
# What the parser holds is said for private clauses alone.
PRIVATE = ".specs.Parser."
# Where an item of a source begins, and a member of an `impl` or a trait.
ITEM = r"\n(?=(?:pub|fn|impl|trait|struct|enum|const|static|use|mod|unsafe|ghost|type)\b|//|#)"
MEMBER = r"\n(?=    (?:(?:pub|fn|unsafe|const|ghost|type)\b|//|#))"
# A line that imports: a module, and names of it or another name for it.
USE = r"^(?:ghost )?(?:pub )?use (Rattle\.[\w.]+?)(?:\.\{([^}]*)\}| as\s+(\S+?))?;?$"


def cuts(text, mark):
    """Where a mark stands outside of all brackets."""
    depth, found = 0, []
    for place, sign in enumerate(text):
        if sign in OPEN:
            depth += 1
        elif sign in CLOSE:
            depth -= 1
        elif depth == 0 and text.startswith(mark, place):
            found.append(place)
    return found


def trimmed(text, start, end):
    while start < end and text[start].isspace():
        start += 1
    while end > start and text[end - 1].isspace():
        end -= 1
    return start, end


def split(text, start, end, mark):
    """The pieces between the marks outside of brackets, as places."""
    at = [start + place for place in cuts(text[start:end], mark)]
    begins = [start] + [place + len(mark) for place in at]
    return [trimmed(text, *pair) for pair in zip(begins, at + [end])]


def is_enclosed(text):
    """One pair of brackets holds all of it."""
    return text[:1] == "(" and text[-1:] == ")" and not any(
        text[:place].count("(") == text[:place].count(")") for place in range(1, len(text))
    )


def leaves(text, start, end):
    """The places of what a type says besides its premises, each with how it is emptied."""
    start, end = trimmed(text, start, end)
    pieces = split(text, start, end, "→")
    if len(pieces) > 1:
        return leaves(text, *pieces[-1])
    pieces = split(text, start, end, "×")
    if len(pieces) > 1:
        return [leaf for piece in pieces for leaf in leaves(text, *piece)]
    if is_enclosed(text[start:end]):
        if re.match(r"\(\s*[\w ]+ : ", text[start:end]):
            return []
        return leaves(text, start + 1, end - 1)
    if len(pieces := split(text, start, end, "↔")) == 2:
        one, other = (text[slice(*piece)] for piece in pieces)
        return [(start, end, f"({one}) → ({other})"), (start, end, f"({other}) → ({one})")]
    return [(start, end, EMPTY)]


def head(text):
    """The first word of a type, without brackets around it."""
    text = text.strip()
    while is_enclosed(text):
        text = text[1:-1].strip()
    match = re.match(r"[\w.]+|⊥", text)
    return match[0] if match else ""


def words(text):
    return set(re.findall(r"[A-Za-z_][\w]*", text))


def imports(text):
    """What a file names of others: each name here, with the module and the name there."""
    found = {}
    for match in re.finditer(USE, text, re.M):
        path, names, alias = match.groups()
        if names is None:
            last = path.rsplit(".", 1)[1]
            found[alias or last] = (path, None)
            continue
        for name in names.split(","):
            there, _, here = name.strip().partition(" as ")
            found[here or there] = (path, there)
    return found


class Definition:
    """One definition of a file in specs/."""

    def __init__(self, module, kind, name, text):
        self.module, self.kind, self.name, self.text = module, kind, name, text
        self.parts = []  # (label, start, end, what it is when it is emptied)

    def __repr__(self):
        return f"{self.module.path}.{self.name}"

    def find_parts(self):
        if self.kind == "record":
            indent = re.search(r"\bwhere\n( +)", self.text)[1]
            fields = list(re.finditer(rf"^{indent}(?:pub )?(\w+) :", self.text, re.M))
            ends = [field.start() for field in fields[1:]] + [len(self.text)]
            for field, end in zip(fields, ends):
                self.add_parts(field[1], field.end(), end)
            return
        first = re.search(rf"^{self.name}\b", self.text, re.M)
        if not first or not re.search(r"(→|:)\s+Type 0$", self.text[: first.start()].strip()):
            return
        cases = [case.start() for case in re.finditer(rf"^{self.name}\b", self.text, re.M)]
        for start, end in zip(cases, cases[1:] + [len(self.text)]):
            middle = start + min(cuts(self.text[start:end], " =") or [end - start])
            label = " ".join(self.text[start:middle].split()[1:])
            self.add_parts(label, middle + 2, end)

    def add_parts(self, label, start, end):
        for leaf in leaves(self.text, start, end):
            if not self.text[leaf[0] : leaf[1]].startswith(EMPTY):
                self.parts.append((label, *leaf))

    def said(self, part):
        return " ".join(self.text[part[1] : part[2]].split())

    def emptied(self, part):
        """The definition with this part empty; as it is without one."""
        if part is None:
            return self.text
        return self.text[: part[1]] + part[3] + self.text[part[2] :]


class Module:
    """A file of specs/."""

    def __init__(self, crate, file, root):
        self.crate = crate
        name = os.path.relpath(file, root)[: -len(".antt")].replace("/", ".")
        self.path = f"Rattle.{crate}.specs.{name}"
        with open(file, encoding="utf-8") as it:
            self.text = it.read()
        self.names = imports(self.text)
        self.uses = re.findall(r"^use .*$", self.text, re.M)
        self.own = {}
        for block in re.split(r"\n\s*\n", self.text):
            block = re.sub(r"^(--.*\n)+", "", block.strip("\n") + "\n")
            match = re.match(r"(?:(?:abbrev|unfoldable) )?(?:pub )?(record |data )?(\w+)", block)
            if match and not block.startswith(("use ", "pub use ", "pub mod ")):
                kind = (match[1] or "").strip()
                self.own[match[2]] = Definition(self, kind, match[2], block)
        self.makers = {
            maker
            for it in self.own.values()
            if it.kind == "data"
            for maker in re.findall(r"^  (\w+) :", it.text, re.M)
        }


class Laws:
    """All laws of some crates."""

    def __init__(self, top, crates):
        self.top, self.crates = top, crates
        self.modules, self.same = {}, {}
        for crate in crates:
            root = f"{top}/crates/{crate}/specs"
            for file in sorted(glob.glob(f"{root}/**/*.antt", recursive=True)):
                if os.path.basename(file) == "Lib.antt":
                    self.read_exports(crate, file)
                else:
                    module = Module(crate, file, root)
                    self.modules[module.path] = module
        definitions = [it for module in self.modules.values() for it in module.own.values()]
        for it in definitions:
            it.find_parts()
        self.laws = self.find_laws(definitions)
        for law in self.laws:
            law.parts = [part for part in law.parts if self.says(law, part)]

    def read_exports(self, crate, file):
        with open(file, encoding="utf-8") as it:
            for here, (path, _) in imports(it.read()).items():
                self.same[f"Rattle.{crate}.specs.{here}"] = path

    def origin(self, path, name):
        """Where a name is said, that a module has of another."""
        while path in self.same:
            path = self.same[path]
        module = self.modules.get(path)
        if module and name not in module.own and name in module.names:
            return self.origin(*module.names[name])
        return path, name

    def named(self, names, name, module=None):
        """The definition that a name is of, by what a file imports."""
        if module and name in module.own:
            return module.own[name]
        path, there = self.origin(*names.get(name, (None, None)))
        return self.modules[path].own.get(there) if path in self.modules else None

    def says(self, law, part):
        """A part says something, and is no mere value."""
        text = law.text[part[1] : part[2]]
        if any(cuts(text, f" {mark} ") for mark in RELATIONS) or part[3] != EMPTY:
            return True
        first = head(text)
        meant = self.named(law.module.names, first, law.module)
        if meant:
            return meant in self.laws
        if ".declared." in law.module.names.get(first, ("", None))[0] + ".":
            return False
        return first == "⊥" or (first not in DATA and first[:1].isupper())

    def find_laws(self, definitions):
        self.laws = set()
        while True:
            found = {it for it in definitions if any(self.says(it, part) for part in it.parts)}
            if found == self.laws:
                return found
            self.laws = found

    def in_text(self, text, names, module=None):
        found = {self.named(names, word, module) for word in words(text)}
        return {it for it in found if it}

    def below(self, law):
        """What a law says by other laws, premises apart; and all definitions that it names."""
        positive = set()
        for part in law.parts:
            if part[3] == EMPTY:
                positive |= self.in_text(law.text[part[1] : part[2]], law.module.names, law.module)
        return positive & self.laws

    def cone(self, law):
        """The law and all laws that say it, too."""
        found = {law}
        while True:
            more = {it for it in self.laws - found if self.below(it) & found}
            if not more:
                return found
            found |= more

    def cited(self):
        """The laws that public clauses cite, themselves or by what they cite."""
        found = set()
        for crate in self.crates:
            for text, clauses in public_clauses(f"{self.top}/crates/{crate}/src"):
                found |= self.in_text(clauses, imports(text))
        while True:
            more = set()
            for it in found:
                more |= self.in_text(it.text, it.module.names, it.module)
            if more <= found:
                return {it for it in found & self.laws if PRIVATE not in it.module.path}
            found |= more


def exported(folder):
    """The names that a crate hands out."""
    with open(f"{folder}/lib.rt", encoding="utf-8") as it:
        text = it.read()
    found = set()
    for match in re.finditer(r"pub use ([^;]*);", text):
        found |= words(match[1])
    return found


def public_clauses(folder):
    """Of each source of a crate its text, and the clauses of what the crate hands out."""
    handed = exported(folder)
    for file in sorted(glob.glob(f"{folder}/**/*.rt", recursive=True)):
        with open(file, encoding="utf-8") as it:
            text = it.read()
        clauses, of, open_to_all = [], None, False
        for line in re.split(ITEM, text):
            opening = re.match(r"(?:pub )?(?:unsafe )?(impl|trait)\b([^{]*)", line)
            if opening:
                of = words(opening[2])
                open_to_all = bool(of & handed)
                is_trait = opening[1] == "trait" or " for " in opening[2]
                for member in re.split(MEMBER, line):
                    public = is_trait or re.match(r"\s*pub ", member) or "ghost" in member[:12]
                    if open_to_all and public:
                        clauses.append(said_of(member))
                continue
            function = re.search(r"^pub (?:const )?fn (\w+)", line, re.M)
            if function and function[1] in handed:
                clauses.append(said_of(line))
        yield text, "\n".join(clauses)


def said_of(item):
    """What an item's clauses and ghost members say."""
    found = []
    for match in re.finditer(r"\b(?:ensures|requires|ghost)\b[^{;]*\{", item):
        depth, place = 1, match.end()
        while depth and place < len(item):
            depth += {"{": 1, "}": -1}.get(item[place], 0)
            place += 1
        found.append(item[match.end() : place])
    return "\n".join(found)
