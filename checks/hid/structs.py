#!/usr/bin/env python3
"""What `hid struct` writes reads and writes reports as `hid values` reads them.

structs.py PROGRAM: the descriptors are on standard input, the digits of one in each line. Each is read
by the standard's letter. Of each report 20 are asked (2 of a great one): bytes at random, all 0 and all 1.
Each of the four languages reads them, and the values are those of `hid values --json`, and those of the
bits that `hid fields --json` tells; written again, they are the bytes with padding of 0. Too few bytes,
another id, too little room and values past a field's room are refused, and nothing is written then. Then
what is written is spoilt here, and has to be noticed. All sources of a language are one program
(struct_language.py), in C and Rust those with all layouts; a language without its compiler is left out.
"""
import functools
import json
import multiprocessing
import os
import random
import re
import subprocess
import sys
import tempfile

from struct_c import C
from struct_rust import Rust
from struct_untyped import JavaScript, Python

TOP = os.path.dirname(os.path.dirname(os.path.dirname(os.path.abspath(__file__))))
PYTHON = Python()
LANGUAGES = [C(), Rust(), PYTHON, JavaScript()]
ASKED = 20
GREAT = 1024
WIDEST = 64
WIDEST_TOLD = 32


def made():
    """Descriptors with fields of all widths, at odd bits, of both signs, alone, side by side, as arrays."""
    for low in '1500', '1581':
        fields = ''.join(f'75{width:02x}0930950181020931950281021901290a95028100'
                         for width in (1, 5, 8, 11, 33, 61, 64, 70))
        yield f'85070501{low}257f750395010900810275050930950381020931{fields}'
    widths = [*range(1, 75), 127, 128, 129]
    for low in '1500', '1581':
        for count in 1, 2:
            fields = ''.join(f'75{width:02x}09{width:02x}95{count:02x}8102' for width in widths)
            yield f'0501{low}257f750309a09501810275050930950381020931{fields}'
            arrays = ''.join(f'75{width:02x}1901290a95{count:02x}9100' for width in widths)
            yield f'8507050909{count:02x}{low}257f750395019102{arrays}'


MADE = list(made())
SPOILT = 2

program = None


class Value:
    """A value of a report: its first bit, its width, whether it may be below 0, the name of its member."""

    def __init__(self, start, width, is_signed, name):
        self.start, self.width, self.is_signed, self.name = start, width, is_signed, name

    def of(self, number):
        """What a report says, as a number or, of more than 64 bits, as digits."""
        value = number >> self.start & (1 << self.width) - 1
        if self.width > WIDEST:
            return value.to_bytes((self.width + 7) // 8, 'little').hex()
        return value - (1 << self.width) if self.is_signed and value >> self.width - 1 else value


class Report:
    """A report that has values, and the bytes that are asked."""

    def __init__(self, direction, number):
        self.direction, self.id, self.values = direction, number, []

    def add(self, field):
        """Takes the values of a field as JSON tells it."""
        count = field.get('count', 1)
        width = (field['end'] - field['start']) // count
        if width > WIDEST:
            count, width = 1, field['end'] - field['start']
        page, _, name = field['name'].partition(' / ')
        name = identifier(page if field['kind'] == 'array' else name)
        self.values += [Value(field['start'] + at * width, width, field['logical_minimum'] < 0, name)
                        for at in range(count)]

    def ask(self, size, chance):
        """Chooses the bytes."""
        self.size = size
        count = ASKED if size <= GREAT else 2
        self.asked = [bytes(size), b'\xff' * size] + [chance.randbytes(size) for _ in range(count - 2)]
        if self.id is not None:
            self.asked = [bytes([self.id]) + it[1:] for it in self.asked]

    def bits(self):
        """Where the values lie."""
        return tuple((it.start, it.width, it.is_signed) for it in self.values)

    def answer(self, data):
        """What a program has to say of bytes: the values, and the bytes that it writes again."""
        number = int.from_bytes(data, 'little')
        bits = 0 if self.id is None else 0xff
        for value in self.values:
            bits |= (1 << value.width) - 1 << value.start
        values = ' '.join(str(it.of(number)) for it in self.values)
        return f"{values} = {(number & bits).to_bytes(self.size, 'little').hex()}"

    @functools.cached_property
    def questions(self):
        """The digits of bytes, and what a program has to say of them."""
        data = self.asked[-1]
        asked = [(it.hex(), self.answer(it)) for it in self.asked]
        asked += [(f'{data.hex()}0102', self.answer(data)), (data[:-1].hex(), 'refused')]
        if self.id is not None:
            asked.append((bytes([data[0] ^ 1]).hex() + data[1:].hex(), 'refused'))
        return asked


class Unit:
    """A descriptor: what is written of it in each language, and its reports."""

    def __init__(self, digits, texts, reports):
        self.digits, self.texts, self.reports = digits, texts, reports


def identifier(name):
    """A name of the tables as small letters, digits and `_`."""
    words = re.sub(r'(?<=[a-z])(?=[A-Z])|[^A-Za-z0-9]+', '_', name).strip('_').lower()
    return words if re.match('[a-z]', words) else f'usage_{words}'


def check_names():
    """How many names the tables have, none of which is a word of a language."""
    with open(f'{TOP}/crates/hidreport_usages/data/usages.txt', encoding='utf-8') as lines:
        names = [re.sub(r'^ *[0-9A-F]+ | \[[^]]*\]$', '', it.rstrip('\n')) for it in lines if it[0] != '#']
    for language in LANGUAGES:
        taken = {identifier(it) for it in names} & set(language.words.split())
        if taken:
            sys.exit(f'hid_structs: {language.word}: words of it are names: {taken}')
    if any('*/' in it or '/*' in it for it in names) or len(names) < 2500:
        sys.exit('hid_structs: a name ends a remark, or the tables have few')


def hid(words, given):
    """What the program writes; none where it refuses."""
    words = [program, '--as', 'standard', '--limit', '4096', *words]
    ran = subprocess.run(words, input=given.encode(), capture_output=True, check=False)
    if ran.returncode > 1:
        sys.exit(f'hid_structs: {words} ends with {ran.returncode}')
    return ran.stdout.decode() if ran.returncode == 0 else None


def reports_of(digits, text):
    """The reports with values, whose sizes the text for Python has, and the directions in which one report
    has no id and others have."""
    reports, ids = {}, {}
    for line in hid(['fields', '--json', '--form', 'hex', '-'], digits).splitlines():
        field = json.loads(line)
        key = field['direction'], field['report']
        ids.setdefault(key[0], set()).add(key[1])
        if field['kind'] != 'padding':
            reports.setdefault(key, Report(*key)).add(field)
    chance = random.Random(digits)
    sizes = re.findall(r'^class (Input|Output|Feature)Report(\d*):.*?^    SIZE = (\d+)$', text, re.M | re.S)
    for direction, number, size in sizes:
        reports[direction.lower(), int(number) if number else None].ask(int(size), chance)
    return list(reports.values()), {it for it, own in ids.items() if None in own and len(own) > 1}


def told(digits, reports, mixed):
    """What is wrong where `hid values` says of the bytes something else than their bits, and how many
    values it says. Left out are directions that have a report without an id besides others, as which it
    reads their bytes."""
    count = 0
    for direction in sorted({it.direction for it in reports} - mixed):
        asked = [(it, data) for it in reports if it.direction == direction for data in it.asked]
        given = recording([bytes.fromhex(digits)], 'R: ') + recording([data for _, data in asked], 'E: {}.0 ')
        words = ['values', '--json', '--times', '--direction', direction, '--form', 'recorder', '-']
        said = {}
        for line in (hid(words, given) or '').splitlines():
            it = json.loads(line)
            said.setdefault(int(it['time'].split('.')[0]), []).append(it)
        for number, (report, data) in enumerate(asked):
            values = int.from_bytes(data, 'little')
            wanted = {it.start: it.of(values) for it in report.values if it.width <= WIDEST_TOLD}
            got = dict(flat(said.get(number, [])))
            if got != wanted:
                return f'{digits}: {direction} {data.hex()}: {got} is told, not {wanted}', count
            count += len(got)
    return '', count


def recording(lists, mark):
    """Lists of bytes as lines of hid-recorder."""
    return ''.join(f"{mark.format(at)}{len(it)} {it.hex(' ')}\n" for at, it in enumerate(lists))


def flat(objects):
    """The first bits of the values of objects that are numbers, and these."""
    for it in objects:
        for part in it.get('elements', [it]):
            if part['value'] is not None:
                yield part['start'], part['value']


def written(digits, language):
    """The source of a descriptor in a language; none where it is refused."""
    return hid(['struct', '--to', language.word, '--form', 'hex', '-'], digits)


def unit_of(digits, text):
    """The unit of a descriptor whose text for Python this is; what is wrong; how many values are told."""
    texts = [text if it == PYTHON else written(digits, it) for it in LANGUAGES]
    reports, mixed = reports_of(digits, text)
    fault, count = told(digits, reports, mixed)
    return Unit(digits, texts, reports), fault, count


def questions(units):
    """What is asked of each language, with the answers: of a report's number the bytes."""
    reports = [report for unit in units for report in unit.reports]
    return [(f'{number} {digits}', answer) for number, report in enumerate(reports)
            for digits, answer in report.questions]


def structs_of(language, place, units):
    """The structs of all sources in a language."""
    found = []
    for number, unit in enumerate(units):
        own = language.structs(number, unit.texts[place], unit.reports)
        if own is None:
            sys.exit(f'hid_structs: {language.word}: {unit.digits[:300]}: other structs than reports')
        found += own
    return found


def layouts_of(units):
    """The units that have between them each layout of a report, and how many there are: structs that differ
    in names, ids and remarks alone have the same."""
    seen, chosen = set(), []
    for place, unit in enumerate(units):
        structs = PYTHON.structs(place, unit.texts[LANGUAGES.index(PYTHON)], unit.reports)
        own = {(it.report.id is None, it.report.size, it.report.bits(), tuple(m.count for m in it.members))
               for it in structs}
        if not own <= seen:
            chosen.append(unit)
        seen |= own
    return chosen, len(seen)


def differing(language, place, units, folder, spoil=None):
    """What is wrong in a language, how many reports are asked and how many values are refused."""
    structs, asked = structs_of(language, place, units), questions(units)
    texts = [it.texts[place].replace(*spoil) if spoil else it.texts[place] for it in units]
    said = language.ask(texts, structs, [line for line, _ in asked], folder)
    if said is None:
        sys.exit(f'hid_structs: {language.word}: no program is built')
    refused = sum(language.refusals(member) for it in structs for member in it.members)
    wanted = [*(answer for _, answer in asked), str(refused)]
    lines = [*(line for line, _ in asked), 'values past their room']
    wrong = [f'{language.word}: {line[:200]}: {got[:200]}, not {answer[:200]}'
             for line, answer, got in zip(lines, wanted, said) if answer != got]
    wrong += [f'{language.word}: {it[:300]}' for it in said[len(wanted):]]
    wrong += [f'{language.word}: {len(said)} lines of {len(wanted)}'] * (len(said) < len(wanted))
    return wrong, len(asked), refused


def notices(language, place, units, folder):
    """How many spoilt sources are noticed, which all have to be."""
    few = units[:SPOILT]
    for spoil in language.spoils:
        if not any(spoil[0] in it.texts[place] for it in few):
            sys.exit(f'hid_structs: {language.word}: nothing to spoil: {spoil[0]}')
        if not differing(language, place, few, folder, spoil)[0]:
            sys.exit(f'hid_structs: {language.word}: not noticed: {spoil[1]} for {spoil[0]}')
    return len(language.spoils)


def main():
    global program
    program = os.path.abspath(sys.argv[1])
    check_names()
    digits = MADE + sys.stdin.read().split()
    with multiprocessing.Pool() as pool:
        texts = pool.starmap(written, [(it, PYTHON) for it in digits], 16)
        different = {}
        for own, text in zip(digits, texts):
            if text is not None:
                different.setdefault(text, own)
        answers = pool.starmap(unit_of, [(it, text) for text, it in different.items()], 16)
    faults = [fault for _, fault, _ in answers if fault]
    units = [it for it, _, _ in answers]
    values = sum(count for _, _, count in answers)
    asked = refused = noticed = 0
    some, layouts = layouts_of(units)
    with tempfile.TemporaryDirectory() as folder:
        for place, language in enumerate(LANGUAGES):
            if not language.is_tried:
                print(f'hid_structs: no `{language.tool}` on the path, so no {language.word} is tried')
                continue
            structs_of(language, place, units)
            built = some if language.is_compiled else units
            wrong, reports, past = differing(language, place, built, folder)
            faults, asked, refused = faults + wrong, asked + reports, refused + past
            noticed += notices(language, place, units, folder)
    for fault in faults[:20]:
        print(f'hid_structs: {fault}')
    if faults:
        sys.exit(f'hid_structs: {len(faults)} answers are other ones')
    print(f'hid_structs: {len(texts) - texts.count(None)} descriptors, {len(units)} sources with {layouts} '
          f'layouts in {len(LANGUAGES)} languages: {asked} reports and {values} values as hid reads them, '
          f'{refused} values are refused; {noticed} spoilt sources are noticed')


if __name__ == '__main__':
    main()
