"""Programs of a language of `hid struct --to` that ask what it writes (structs.py).

A program has the sources of many descriptors. Each line that it is given has the number of a struct among
all and the digits of a report; it answers with the values and the digits that they are written as, or
`refused`. Its last line is how many values past the room of members are refused; one that isn't is named.
"""
import re
import shutil
import subprocess

WIDEST = 64


class Member:
    """A member of a struct: its name, its type, how many values a list has, the width and the sign of one."""

    def __init__(self, kind, name, count, value):
        self.kind, self.name, self.width, self.is_signed = kind, name, value.width, value.is_signed
        self.is_named = re.fullmatch(rf'{value.name}(_\d+)?', name)
        self.is_bytes = value.width > WIDEST
        self.count = None if self.is_bytes or not count else int(count)

    def is_alone(self):
        """Whether it is a number, and no list or bytes."""
        return self.count is None and not self.is_bytes

    def past(self):
        """The numbers below and above what its bits hold."""
        reach = 1 << self.width - self.is_signed
        return -reach - 1 if self.is_signed else -1, reach

    def is_full(self):
        """Whether each number of its type fits, of the languages that have types."""
        return self.width in (8, 16, 32, 64) or self.is_bytes and self.width % 8 == 0


class Struct:
    """A struct or class, the place of its source, and its report."""

    def __init__(self, unit, name, members, report):
        self.unit, self.name, self.members, self.report = unit, name, members, report

    def zeros(self):
        """The bytes whose values are all 0."""
        return bytes([self.report.id or 0]) + bytes(self.report.size - 1)


class Language:
    """What a language's programs are made of; of one that is compiled each layout is built."""
    is_compiled = True

    def __init__(self):
        self.is_tried = shutil.which(self.tool) is not None

    def parts(self, text):
        """What stands before all reports, and the rest."""
        place = re.search(self.title, text, re.M).start()
        return text[:place], text[place:]

    def structs(self, unit, text, reports):
        """The structs of a source; none where it has others than the reports, or members of other names."""
        found = []
        forms = list(re.finditer(self.struct, text, re.M | re.S))
        if len(forms) != len(reports):
            return None
        for form, report in zip(forms, reports):
            members, place = [], 0
            for it in re.finditer(self.member, form['members'], re.M):
                if place >= len(report.values):
                    return None
                members.append(Member(it['kind'], it['name'], it['count'], report.values[place]))
                if not members[-1].is_named:
                    return None
                place += members[-1].count or 1
            if len({it.name for it in members}) < len(members):
                return None
            found.append(Struct(unit, form['name'], members, report))
        return found

    def ask(self, texts, structs, lines, folder):
        """What a program says, and how it ends where that isn't well; none where it isn't built."""
        words = self.build(texts, structs, folder)
        if not words:
            return None
        ran = subprocess.run(words, input=''.join(f'{it}\n' for it in lines), text=True, capture_output=True,
                             check=False)
        ended = [f'ends with {ran.returncode}: {ran.stderr[-300:]}'] if ran.returncode or ran.stderr else []
        return ran.stdout.splitlines() + ended

    def past_values(self, member):
        """A place in a member, and the values past its room."""
        if member.is_bytes:
            values = [1 << member.width % 8] if member.width % 8 else []
            return f'{member.name}[{member.width // 8}]', values
        below, above = member.past()
        values = [] if member.is_full() else [above] + [below] * member.is_signed
        return member.name if member.count is None else f'{member.name}[{member.count - 1}]', values

    def refusals(self, member):
        """How many values past a member's room are tried."""
        return len(self.past_values(member)[1])


def compiled(words):
    """Whether a compiler has nothing to say."""
    ran = subprocess.run(words, capture_output=True, text=True, check=False)
    if ran.returncode or ran.stderr:
        print(f'hid_structs: {words[0]}: {ran.stderr[:1000]}')
    return not ran.returncode and not ran.stderr
