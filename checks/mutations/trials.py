"""A law with a part emptied, or with none, and the rows that are asked of it, as files of a copy of
hidreport_definitions."""

import os
import re

from laws import imports, words

# What each file of lemmas imports.
ALWAYS = {
    "rules": ("Rattle.std.proofs.Common", "rules"),
    "refl": ("Rattle.std.proofs.Common", "refl"),
    "◌≡◌": ("Rattle.std.proofs.Common", "◌≡◌"),
    "ℕ": ("Rattle.std.proofs.Common", "ℕ"),
}


class Copy:
    """A copy of the rows' crate, with files of lemmas in place of its functions."""

    def __init__(self, crate, folder):
        self.crate, self.folder, self.files = crate, folder, {"specs": [], "proofs": []}
        self.name = os.path.basename(crate)
        for part in ("src", "specs", "proofs"):
            os.mkdir(f"{folder}/{part}")
        with open(f"{folder}/src/lib.rt", "w", encoding="utf-8") as it:
            it.write("//! Emptied laws.\n#![tactic(auto)]\n\n/// Nothing.\npub fn nothing() {}\n")
        for file in sorted(os.listdir(f"{crate}/specs")):
            if file != "Lib.antt":
                self.add("specs", file[: -len(".antt")], self.text("specs", file))

    def text(self, part, file):
        with open(f"{self.crate}/{part}/{file}", encoding="utf-8") as it:
            return it.read()

    def add(self, part, name, text):
        if name not in self.files[part]:
            self.files[part].append(name)
            with open(f"{self.folder}/{part}/{name}.antt", "w", encoding="utf-8") as it:
                it.write(text)

    def close(self):
        for part, names in self.files.items():
            with open(f"{self.folder}/{part}/Lib.antt", "w", encoding="utf-8") as it:
                it.writelines(f"pub mod {name}\n" for name in names)


class Trial:
    """A law of which a part is emptied, or none."""

    def __init__(self, mark, laws, law, part):
        self.mark, self.laws, self.law, self.part = mark, laws, law, part
        self.cone = laws.cone(law)
        self.is_spoilt = False  # its part stays as it is
        self.asked = {}  # of each function the file of lemmas, and its rows

    def path(self, crate, definition):
        file = definition.module.path.rsplit(".", 1)[1]
        return f"Rattle.{crate}.specs.{self.mark}_{file}"

    def lines(self, crate, names):
        """Lines that import names, the laws that are written anew from where they are now."""
        found = []
        for here, (path, there) in names.items():
            meant = self.laws.named(names, here) if there else None
            if meant in self.cone:
                path = self.path(crate, meant)
            elif there and ".specs." in path:
                path, there = self.laws.origin(path, there)
            alias = f" as {here}" if here != (there or path.rsplit(".", 1)[1]) else ""
            found.append(f"use {path}.{{{there}{alias}}}" if there else f"use {path}{alias}")
        return "\n".join(found)

    def write_laws(self, copy):
        """The laws of each file that say the emptied one, anew."""
        for module in {it.module for it in self.cone}:
            anew = [it for it in module.own.values() if it in self.cone]
            said = words(" ".join(it.text for it in anew))
            names = {
                name: meant
                for name, meant in module.names.items()
                if name in said or not re.fullmatch(r"[A-Za-z_]\w*", name)
            }
            for name in [*module.own, *module.makers]:
                if name in said and module.own.get(name) not in self.cone:
                    names[name] = (module.path, name)
            part = None if self.is_spoilt else self.part
            texts = [it.emptied(part if it is self.law else None) for it in anew]
            file = self.path(copy.name, anew[0]).rsplit(".", 1)[1]
            copy.add("specs", file, self.lines(copy.name, names) + "\n\n" + "\n".join(texts))

    def write_rows(self, copy, functions, behind):
        for number, function in enumerate(functions):
            if rows := [row for row in function.rows if self.is_asked(row)]:
                file = f"{self.mark}_Rows{number}"
                self.asked[function] = (file, rows)
                copy.add("proofs", file, self.lemmas(copy, function, rows) + behind(self, rows))

    def is_asked(self, row):
        """The law is one of the row's premises, and no part of what it says by itself."""
        names = row.function.names
        return any(self.laws.named(names, it) in self.cone for it in row.premises) and not (
            self.laws.in_text(row.said, names) & self.cone
        )

    def lemmas(self, copy, function, rows):
        names = {**ALWAYS, **function.names}
        for here, (path, there) in imports(function.uses).items():
            if not path.endswith(".Goals"):
                names[here] = (self.lemma_path(copy, path), there)
        texts = [self.lines(copy.name, names), "\n".join(function.helpers)]
        for number, row in enumerate(rows):
            texts.append(f"row-{number} : {row.text}\n{row.below}row-{number} = {row.term}")
        return "\n\n".join(texts) + "\n\n"

    def lemma_path(self, copy, path):
        """Where lemmas of the crate are, which are taken along: of the laws written anew, if of any."""
        prefix = f"Rattle.{copy.name}.proofs."
        if not path.startswith(prefix):
            return path
        name = path[len(prefix) :]
        text = copy.text("proofs", f"{name}.antt")
        names = imports(text)
        of_the_law = any(
            there and self.laws.named(names, here) in self.cone for here, (_, there) in names.items()
        )
        for here, (below, there) in names.items():
            names[here] = (self.lemma_path(copy, below), there)
        if not of_the_law:
            copy.add("proofs", name, text)
            return path
        rest = re.sub(r"^use .*\n", "", text, flags=re.M)
        copy.add("proofs", f"{self.mark}_{name}", self.lines(copy.name, names) + "\n\n" + rest)
        return f"{prefix}{self.mark}_{name}"
