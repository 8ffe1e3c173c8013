"""Programs of Python and JavaScript that ask what `hid struct` writes (struct_language.py)."""
import json
import keyword
import re

from struct_language import Language


class Untyped(Language):
    """A language whose members take any value."""
    is_compiled = False

    def refusals(self, member):
        if member.is_bytes:
            return 1 + (member.width % 8 != 0)
        return 2 + (member.count is not None)

    @staticmethod
    def table(structs):
        """The structs as JSON."""
        rows = [[it.unit, it.name, it.zeros().hex(),
                 [[m.name, m.count, m.width, *map(str, m.past())] for m in it.members]] for it in structs]
        return json.dumps(rows)


class Python(Untyped):
    """Programs of Python."""
    word, tool = 'python', 'python3'
    title = r'^# (Input|Output|Feature) report'
    struct = r'^class (?P<name>\w+):\n(?P<members>.*?)^    SIZE = '
    member = r'^    (?P<name>\w+): (?P<kind>\w+) = (?:\D+\[0\] \* (?P<count>\d+)\)|.*)$'
    words = f'''{' '.join(keyword.kwlist)} bytes cls dataclasses decode encode int list range self'''
    spoils = [
        ('>> shift % 8 & mask\n', '>> shift % 8\n'), ('if value > mask >> 1 else', 'if value > mask else'),
        ('if not 0 <= value <= mask:', 'if not 0 <= value <= mask + 1:'),
        ('if not -(mask >> 1) - 1 <= value', 'if not -(mask >> 1) - 2 <= value'),
        ('if len(data) < cls.SIZE:', 'if len(data) + 1 < cls.SIZE:'),
        ('if data[0] != cls.ID:', 'if data[0] == cls.ID:'),
        ('if len(value) != count:', 'if len(value) < count:'), ('>> bits:\n', '>> bits + 1:\n'),
        ("'little') | (value & mask) <<", "'little') & 0 | (value & mask) <<"),
        ('(value & mask) << shift % 8', '(value & mask) << shift % 7'),
        ('_SHIFT = 11\n', '_SHIFT = 12\n'), ('_STEP = 5\n', '_STEP = 4\n')]
    DRIVER = '''
import sys
def hexed(value):
    return value.hex() if isinstance(value, bytes) else str(value)
def shown(it, members):
    for name, count, *_ in members:
        value = getattr(it, name)
        yield from map(hexed, value) if count else [hexed(value)]
def tell(it, name, value, refused):
    old = getattr(it, name)
    setattr(it, name, value)
    try:
        it.encode()
        print(name, value, 'is written')
    except ValueError:
        refused.append(name)
    except Exception as error:
        print(name, value, repr(error))
    setattr(it, name, old)
def past(it, name, count, width, below, above, refused):
    value = getattr(it, name)
    if isinstance(value, bytes):
        tell(it, name, value + b'\\0', refused)
        if width % 8:
            tell(it, name, value[:-1] + bytes([1 << width % 8]), refused)
        return
    for number in int(below), int(above):
        tell(it, name, value[:-1] + [number] if count else number, refused)
    if count:
        tell(it, name, value + [0], refused)
for line in sys.stdin:
    number, digits = line.split(' ')
    unit, name, _, members = table[int(number)]
    try:
        it = units[unit][name].decode(bytes.fromhex(digits))
        print(*shown(it, members), '=', it.encode().hex())
    except ValueError:
        print('refused')
    except Exception as error:
        print(repr(error))
refused = []
for unit, name, zeros, members in table:
    it = units[unit][name].decode(bytes.fromhex(zeros))
    for member in members:
        past(it, *member, refused)
    assert it == units[unit][name]()
print(len(refused))
'''

    def build(self, texts, structs, folder):
        with open(f'{folder}/structs.json', 'w', encoding='utf-8') as file:
            json.dump([self.parts(texts[0])[0], [self.parts(it)[1] for it in texts], self.table(structs)], file)
        source = f'''import json
with open({folder + '/structs.json'!r}) as file:
    head, texts, table = json.load(file)
table, units = json.loads(table), []
for text in texts:
    units.append({{}})
    exec(head, units[-1])
    exec(text, units[-1])
{self.DRIVER}'''
        with open(f'{folder}/structs.py', 'w', encoding='utf-8') as file:
            file.write(source)
        return ['python3', '-W', 'error', f'{folder}/structs.py']


class JavaScript(Untyped):
    """Programs of JavaScript."""
    word, tool = 'javascript', 'node'
    title = r'^// (Input|Output|Feature) report'
    struct = r'^export class (?P<name>\w+) \{\n(?P<members>.*?)^    static SIZE = '
    member = r'^    (?P<name>\w+) = (?P<kind>\w+|new \w+)(?:\((?P<count>\d+)\).*)?;$'
    words = '''arguments async await break case catch class const constructor continue debugger decode default
        delete do else encode enum eval export extends false finally for function get if implements import in
        instanceof interface let new null package private protected public return set static super switch this
        throw true try typeof undefined var void while with yield'''
    spoils = [
        ('% (mask + 1);', '% (mask + 2);'), ('value >> bit & mask;', 'value >> bit;'),
        ('value > mask / 2 ? value - mask - 1', 'value > mask / 2 ? value - mask'),
        ('? value - mask - 1n : value;', '? value - mask : value;'),
        ('value < 0 || value > mask) refuse', 'value < 0 || value > mask + 1) refuse'),
        ('const most = (mask - 1) / 2;', 'const most = (mask + 1) / 2;'),
        ('value < 0n || value > mask) refuse', 'value < -1n || value > mask) refuse'),
        ('const most = mask >> 1n;', 'const most = (mask >> 1n) + 1n;'),
        ('if (length < ', 'if (length + 1 < '),
        ('if (bytes[0] !== ', 'if (bytes[0] === '),
        ('if (value.length === count)', 'if (value.length >= count)'),
        ('bytes[at] |= rest % 256;', 'bytes[at] = rest % 256;'), ('rest >>= 8n;', 'rest >>= 7n;'),
        ('2 ** Math.min(8, bits - at) - 1', '255'),
        ('_SHIFT = 11;\n', '_SHIFT = 12;\n'), ('_STEP = 5;\n', '_STEP = 4;\n')]
    DRIVER = '''
import { readFileSync, writeFileSync } from 'node:fs';
const hex = (bytes) => Buffer.from(bytes).toString('hex');
const said = [];
const each = (it, members) => members.flatMap(([name, count]) => {
    const value = it[name];
    return value instanceof Uint8Array ? [hex(value)] : count ? value.map(String) : [String(value)];
});
let refused = 0;
const tell = (it, name, value) => {
    const old = it[name];
    it[name] = value;
    try {
        it.encode();
        said.push(`${name} ${value} is written`);
    } catch (error) {
        if (!(error instanceof RangeError)) throw error;
        refused++;
    }
    it[name] = old;
};
const past = (it, [name, count, width, below, above]) => {
    const value = it[name];
    if (value instanceof Uint8Array) {
        tell(it, name, Uint8Array.of(...value, 0));
        if (width % 8) tell(it, name, Uint8Array.of(...value.slice(0, -1), 1 << width % 8));
        return;
    }
    const kind = width > 32 ? BigInt : Number;
    for (const number of [kind(below), kind(above)])
        tell(it, name, count ? [...value.slice(0, -1), number] : number);
    if (count) tell(it, name, [...value, kind(0)]);
};
for (const line of readFileSync(0, 'latin1').split('\\n').slice(0, -1)) {
    const [number, digits] = line.split(' ');
    const [unit, name, , members] = table[number];
    try {
        const it = units[unit][name].decode(Buffer.from(digits, 'hex'));
        said.push(`${each(it, members).join(' ')} = ${hex(it.encode())}`);
    } catch (error) {
        if (!(error instanceof RangeError)) throw error;
        said.push('refused');
    }
}
for (const [unit, name, zeros, members] of table) {
    const it = units[unit][name].decode(Buffer.from(zeros, 'hex'));
    for (const member of members) past(it, member);
}
writeFileSync(1, `${said.join('\\n')}\\n${refused}\\n`);
'''

    def build(self, texts, structs, folder):
        head = self.parts(texts[0])[0]
        with open(f'{folder}/whole.mjs', 'w', encoding='utf-8') as file:
            file.write(texts[0])
        names = [[it.name for it in structs if it.unit == unit] for unit in range(len(texts))]
        source = "import * as whole from './whole.mjs';\n" + head + 'const units = [];\n'
        for text, own in zip(texts, names):
            text = re.sub('^export class ', 'class ', self.parts(text)[1], flags=re.M)
            source += f"units.push((() => {{\n{text}return {{ {', '.join(own)} }};\n}})());\n"
        source += f'units[0] = whole;\nconst table = {self.table(structs)};\n{self.DRIVER}'
        with open(f'{folder}/structs.mjs', 'w', encoding='utf-8') as file:
            file.write(source)
        return ['node', f'{folder}/structs.mjs']
