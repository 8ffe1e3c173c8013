"""The rows of hidreport_definitions: each clause of its functions, with its proof as a lemma's."""

import glob
import os
import re

from laws import cuts, head, imports, is_enclosed, split

# How a clause is proved that has no answer.
SEARCHED = ("", "search rules")


class Row:
    """A clause, by which laws it begins, what it says by itself, and its proof: what stands below its
    type, and the term."""

    def __init__(self, function, name, text, answer):
        self.function, self.name, self.text = function, name, text
        self.below, self.term = answer
        pieces = [text[slice(*piece)] for piece in split(text, 0, len(text), "→")]
        self.premises = [head(bare(it)) for piece in pieces[:-1] for it in groups(piece)]
        self.said = pieces[-1]


class Function:
    """A function whose clauses are rows, with what its file and its proof bring along."""

    def __init__(self, crate, module, text, names):
        self.name, self.names = re.match(r"pub fn (\w+)", text)[1], names
        self.uses, self.helpers, answers = "", [], {}
        file = f"{crate}/proofs/{module}/{self.name}/Answers.antt"
        if os.path.exists(file):
            with open(file, encoding="utf-8") as it:
                self.read_answers(it.read(), answers)
        clauses = clauses_of(text)
        self.rows = [
            Row(self, clause, said, answer_of(answers, clause, len(clauses)))
            for clause, said in clauses
        ]

    def read_answers(self, text, answers):
        """The answers of a proof, by their names, and what else it says."""
        use = re.compile(r"^use .*\n(?:[ ]+\S.*\n)*", re.M)
        self.uses = "".join(re.sub(r"\n\s+", " ", it.strip()) + "\n" for it in use.findall(text))
        below, is_answer = "", False
        for block in re.split(r"\n(?=[^\s})\]])", "\n" + use.sub("", text)):
            block = block.strip("\n")
            if match := re.match(r"(returns[\w-]*) c =", block):
                answers[match[1]] = (below, block[match.end() :].strip())
            elif block.startswith("pub returns"):
                below, is_answer = "", True
            elif is_answer and block.startswith("unfolding"):
                below += block + "\n"
            elif block and not block.startswith("--"):
                is_answer = False
                self.helpers.append(block)


def groups(piece):
    """The binders of a piece, one by one, where it is some."""
    piece = piece.strip()
    for end in (at + 1 for at, sign in enumerate(piece) if sign == ")"):
        if is_enclosed(piece[:end]) and piece[end:].strip()[:1] == "(":
            return [piece[:end], *groups(piece[end:])]
    return [piece]


def bare(text):
    """A premise without the name that it gives its proof."""
    text = text.strip()
    while is_enclosed(text):
        text = text[1:-1].strip()
        if at := cuts(text, " : "):
            text = text[at[0] + 3 :].strip()
    return text


def clauses_of(text):
    """The clauses of a function, each with its name."""
    found = []
    for match in re.finditer(r"\bensures\b\s*(\w*)\s*\{", text):
        depth, place = 1, match.end()
        while depth:
            depth += {"{": 1, "}": -1}.get(text[place], 0)
            place += 1
        found.append((match[1], text[match.end() : place - 1].strip()))
    return found


def answer_of(answers, clause, count):
    """The proof of a clause: its own answer, a field of the one for all, or what is searched."""
    if f"returns-clause-{clause}" in answers:
        return answers[f"returns-clause-{clause}"]
    below, whole = answers.get("returns", SEARCHED)
    if count == 1 or "returns" not in answers:
        return below, whole
    fields = whole[whole.index("{") + 1 : whole.rindex("}")]
    for start, end in split(fields, 0, len(fields), ";"):
        name, _, term = fields[start:end].partition("=")
        if name.strip() == clause:
            return below, term.strip()
    return SEARCHED


def functions_of(crate):
    """All functions of the crate in a folder."""
    found = []
    for file in sorted(glob.glob(f"{crate}/src/*.rt")):
        with open(file, encoding="utf-8") as it:
            text = it.read()
        module = os.path.basename(file)[: -len(".rt")]
        for piece in re.split(r"\n(?=pub fn )", text)[1:]:
            found.append(Function(crate, module, piece, imports(text)))
    return found
