#!/usr/bin/env python3
"""What `hid fields` folds is just what `hid fields --all` shows line by line, and it folds enough.

hid_fields.py PROGRAM: the descriptors are on standard input, the digits of one in each line. Of each
the lines of `hid fields` are unfolded here (reports with the same fields, blocks that stand again,
fields side by side) and compared with those of `--all`, and these with the fields of `--json`, each of which
has to have the offset of an item that makes such fields by its header alone. No descriptor may take more than 200 lines for fewer than 100 different fields; that some would without
folding is asked, too. Then `hid fields` and `hid map` of each device of compare/devices.txt keep to 80
columns with --width 80, and without it many don't, which has to be noticed.
"""
import collections
import json
import multiprocessing
import pathlib
import re
import subprocess
import sys
import unicodedata

DEVICES = pathlib.Path(__file__).resolve().parent.parent.parent / 'compare/devices.txt'
WIDTH = 80
FEWEST_WIDE = 100
MOST_LINES = 200
FEWEST_FIELDS = 100
HEAD = re.compile(r'(Input|Output|Feature) report(?:s)?(?: ([0-9, to]+))?: (\d+ bits?, \d+ bytes?)(?: each)?$')
FIELD = re.compile(r'( *)(\d+)\.\.(\d+) +(.*)$', re.S)
AGAIN = re.compile(
    r'the (?:field|(\d+) fields) above( with (?:its|their) collections?)? '
    r'(?:once more, (\d+) bits further|(\d+) more times, each (\d+) bits further)$')
SEVERAL = re.compile(r'(.*), (\d+) × (\d+) (bits?)(, .*)$', re.S)

DIRECTIONS = {0x80: 'input', 0x90: 'output', 0xb0: 'feature'}

program = None


def fields(digits, *options):
    """What `hid fields` writes of a descriptor; none where it is refused."""
    words = [program, '--as', 'standard', 'fields', '--form', 'hex', '--limit', '4096', *options, '-']
    got = subprocess.run(words, input=digits.encode() + b'\n', capture_output=True, check=False)
    return got.stdout.decode() if got.returncode == 0 else None


def reports(text):
    """The reports of a text: the ids, the size, and the lines, each with those that go on with it."""
    found = []
    for line in text.splitlines():
        if match := HEAD.match(line):
            found.append((match[1], ids(match[2]), match[3], []))
        elif not FIELD.match(line) and re.match(' {14}', line) and ':' not in line.split(' / ')[0]:
            found[-1][3][-1] += '\n' + line
        else:
            found[-1][3].append(line)
    return found


def ids(text):
    """The ids that a title names."""
    if text is None:
        return [None]
    ends = [part.split(' to ') for part in text.split(', ')]
    return [it for part in ends for it in range(int(part[0]), int(part[-1]) + 1)]


def moved(line, distance):
    """A line with its bits so far behind."""
    match = FIELD.match(line)
    return line if not match else shown(match[1], int(match[2]) + distance, int(match[3]) + distance,
                                        match[4], len(match[1]) + len(match[2]))


def shown(margin, start, end, rest, column=None):
    """A line of a field, as `hid` lays it out."""
    width = 4 if column is None else column - indent_of(margin, start)
    return f"{' ' * indent_of(margin, start)}{start:>{width}}..{end:<4} {rest}"


def indent_of(margin, start):
    """The spaces before the four columns of a number."""
    return len(margin) - max(4 - len(str(start)), 0)


def plain(line):
    """A line without what stands between its parts."""
    match = FIELD.match(line)
    if not match:
        return line
    return (indent_of(match[1], match[2]), int(match[2]), int(match[3]), match[4])


def unfolded(lines):
    """The lines of a report as `--all` has them: parts of fields, texts of collections."""
    out = []
    for line in lines:
        entry = plain(line)
        if isinstance(entry, str):
            out.append(entry)
            continue
        indent, start, end, rest = entry
        if match := AGAIN.match(rest):
            out += again(out, entry, match)
        elif match := SEVERAL.match(rest):
            width = int(match[3])
            if start + int(match[2]) * width != end:
                raise ValueError(f'not so many: {line}')
            out += [(indent, at, at + width, f'{match[1]}, {width} {match[4]}{match[5]}')
                    for at in range(start, end, width)]
        else:
            out.append(entry)
    return out


def again(before, entry, match):
    """What a line stands for that folds the block before it."""
    indent, start, end, _ = entry
    wanted, count = int(match[1] or 1), int(match[4] or 1)
    far = int(match[3] or match[5])
    place = len(before)
    while wanted:
        place -= 1
        wanted -= not isinstance(before[place], str)
    if match[2]:
        while not isinstance(before[place], str) or margin(before[place]) != indent:
            place -= 1
    block = before[place:]
    if any(isinstance(it, str) for it in block) != bool(match[2]):
        raise ValueError(f'collections: {entry}')
    copies = [it if isinstance(it, str) else (it[0], it[1] + far * n, it[2] + far * n, it[3])
              for n in range(1, count + 1) for it in block]
    numbers = [it for it in copies if not isinstance(it, str)]
    if (numbers[0][1], numbers[-1][2]) != (start, end):
        raise ValueError(f'bits: {entry}')
    return copies


def margin(line):
    return len(line) - len(line.lstrip(' '))


def in_order(text):
    """Each report of a text by its direction and id."""
    out = {}
    for direction, numbers, size, lines in reports(text):
        for number in numbers:
            if (direction, number) in out:
                raise ValueError(f'{direction} report {number} stands twice')
            out[direction, number] = (size, unfolded(lines))
    return out


def makers(descriptor):
    """The items that make fields (Sections 6.2.2.2 to 6.2.2.7), by their headers and the sizes in force: the
    direction, the offset and the kind of each of their fields."""
    size = count = at = 0
    kept, found = [], []
    while at < len(descriptor):
        header = descriptor[at]
        length = descriptor[at + 1] + 2 if header == 0xfe else (0, 1, 2, 4)[header & 3]
        data = int.from_bytes(descriptor[at + 1:at + 1 + length], 'little')
        tag = header & 0xfc
        if tag == 0x74:
            size = data
        elif tag == 0x94:
            count = data
        elif tag == 0xa4:
            kept.append((size, count))
        elif tag == 0xb4:
            size, count = kept.pop()
        elif tag in DIRECTIONS and size and count:
            kind = 'padding' if data & 1 else 'variable' if data & 2 else 'array'
            found += [(DIRECTIONS[tag], at, kind)] * (count if kind == 'variable' else 1)
        at += 1 + length
    return found


def stand_elsewhere(digits, objects):
    """Whether fields have other offsets than the items that make them, or go back in a report."""
    told = [(it['direction'], it['offset'], it['kind']) for it in objects]
    behind = {}
    for it in objects:
        report = it['direction'], it['report']
        if it['offset'] < behind.get(report, 0):
            return True
        behind[report] = it['offset']
    return collections.Counter(told) != collections.Counter(makers(bytes.fromhex(digits)))


def ask(digits):
    """What is wrong, the number of lines, of those without folding, of different fields, and of all."""
    folded, each = fields(digits), fields(digits, '--all')
    if folded is None or each is None:
        return ('' if folded == each else f'{digits}: refused once', 0, 0, 0, 0)
    lines, all_lines = len(folded.splitlines()), len(each.splitlines())
    told = in_order(each)
    shown_fields = [it for _, rows in told.values() for it in rows if not isinstance(it, str)]
    different = len({it[3] for it in shown_fields})
    objects = [json.loads(line) for line in fields(digits, '--json').splitlines()]
    counts = lines, all_lines, different, len(objects)
    if stand_elsewhere(digits, objects):
        return f'{digits}: a field has another offset than its item', *counts
    if '> ' in each:
        return '', *counts
    try:
        if in_order(folded) != told:
            return f'{digits}: unfolded it is something else', *counts
    except (ValueError, IndexError) as error:
        return f'{digits}: {error}', *counts
    wanted = [(it['start'], it['end']) for it in objects]
    if [(it[1], it[2]) for it in shown_fields] != wanted:
        return f'{digits}: --all has not the fields of --json', *counts
    if lines > MOST_LINES and different < FEWEST_FIELDS:
        return f'{digits}: {lines} lines for {different} fields', *counts
    return '', *counts


def devices():
    """The digits of each device."""
    rows = [line.strip() for line in DEVICES.read_text().splitlines()]
    rows = [line.split(':')[-1] for line in rows if line and not line.startswith('#')]
    return list(dict.fromkeys(line.replace(' ', '') for line in rows))


def columns(line):
    """How many columns a terminal takes for a line."""
    return sum(0 if unicodedata.combining(it) else 2 if unicodedata.east_asian_width(it) in 'WF' else 1
               for it in line)


def are_wide(digits, *options):
    """Whether a line of a device's fields, and one of its map, has more columns than a terminal."""
    answers = []
    for command in ('fields', 'map'):
        words = [program, command, '--form', 'hex', *options, '-']
        got = subprocess.run(words, input=digits.encode(), capture_output=True, check=False)
        lines = got.stdout.decode().splitlines()
        answers.append(any(columns(line) > WIDTH for line in lines))
    return answers


def ask_width(digits):
    """Whether lines are too wide where they are bounded, and where they aren't."""
    return are_wide(digits, '--width', str(WIDTH)), are_wide(digits)


def check_widths(pool):
    """Asks each device."""
    digits = devices()
    answers = pool.map(ask_width, digits, 4)
    for device, (narrow, _) in zip(digits, answers):
        if any(narrow):
            sys.exit(f'hid_fields: lines of more than {WIDTH} columns: {device}')
    wide = [sum(whole[at] for _, whole in answers) for at in (0, 1)]
    if min(wide) < FEWEST_WIDE:
        sys.exit(f'hid_fields: lines that are too wide are not noticed: {wide}')
    print(f'hid_fields: {len(digits)} devices in {WIDTH} columns; without a bound the fields of '
          f'{wide[0]} and the maps of {wide[1]} are wider')


def main():
    global program
    program = sys.argv[1]
    digits = sys.stdin.read().split()
    x_axis = '05010930750895018102'
    told = [json.loads(line) for line in fields(x_axis, '--json').splitlines()]
    spoilt = [{**told[0], 'offset': 9}], [{**told[0], 'kind': 'array'}], told * 2, []
    if stand_elsewhere(x_axis, told) or not all(stand_elsewhere(x_axis, it) for it in spoilt):
        sys.exit('hid_fields: a field at another offset is not noticed')
    with multiprocessing.Pool() as pool:
        answers = pool.map(ask, digits, 16)
        check_widths(pool)
    faults = [it[0] for it in answers if it[0]]
    for fault in faults[:20]:
        print(f'hid_fields: {fault[:300]}')
    long = sum(it[2] > MOST_LINES and it[3] < FEWEST_FIELDS for it in answers)
    folded = sum(it[1] < it[2] for it in answers)
    if faults or long < 5 or folded < 300:
        sys.exit(f'hid_fields: {len(faults)} of {len(answers)} differ; {folded} are folded, {long} had to be')
    print(f'hid_fields: {len(answers)} descriptors, {folded} folded, all as --all shows them; {long} had to be; '
          f'{sum(it[4] for it in answers)} fields have the offsets of their items')


if __name__ == '__main__':
    main()
