"""Programs of Rust that ask what `hid struct` writes (struct_language.py)."""
import itertools
import re

from struct_language import Language, compiled


class Rust(Language):
    """Programs of Rust."""
    word, tool = 'rust', 'rustc'
    title = r'^///? (Input|Output|Feature) report'
    struct = r'^pub struct (?P<name>\w+) \{\n(?P<members>.*?)^\}$'
    member = r'^    pub (?P<name>\w+): \[?(?P<kind>\w+)(?:; (?P<count>\d+)\])?,$'
    words = '''abstract as async await become box break const continue crate do dyn else enum extern false final
        fn for gen if impl in let loop macro match mod move mut override priv pub ref return self static struct
        super trait true try type typeof unsafe unsized use virtual where while yield'''
    spoils = [
        ('    value & mask\n', '    value\n'), ('let sign = (mask >> 1) + 1;', 'let sign = mask >> 1;'),
        ('    value <= mask\n', '    value <= mask + 1\n'),
        ('.wrapping_add((mask >> 1) + 1) <= mask', '.wrapping_add((mask >> 1) + 2) <= mask'),
        ('if bytes[0] != Self::ID {', 'if bytes[0] == Self::ID {'),
        ('bytes[first + 8]) << (64 - bit)', 'bytes[first + 7]) << (64 - bit)'),
        ('let mut bytes = [0; Self::SIZE];', 'let mut bytes = [1; Self::SIZE];'),
        ('bytes[first] |= ', 'bytes[first] = '),
        ('{ 0xff >> (8 - (bits - at)) }', '{ 0x7f }'), ('>> (bits % 8) == 0', '>> (bits % 8) < 2'),
        ('_SHIFT: usize = 11;', '_SHIFT: usize = 12;'), ('_STEP: usize = 5;', '_STEP: usize = 4;')]
    HEAD = '''
use std::io::BufRead;
fn hex(bytes: &[u8]) -> String { bytes.iter().map(|byte| format!("{byte:02x}")).collect() }
fn numbers(values: &[i128]) -> String { values.iter().map(|value| format!("{value} ")).collect() }
fn ended(mut said: String, written: Option<&[u8]>) -> String {
    match written { Some(bytes) => { said += "= "; said += &hex(bytes) } None => said += "not written" }
    said
}
fn tell(is_refused: bool, name: &str, count: &mut u64) {
    if is_refused { *count += 1 } else { println!("{name} is written") }
}
'''

    def build(self, texts, structs, folder):
        head = self.parts(texts[0])[0]
        shared = ', '.join(re.findall(r'^fn (\w+)', head, re.M))
        source = '#![deny(warnings)]\n' + head + self.HEAD
        for unit, text in enumerate(texts):
            own = self.parts(text)[1] if unit else text
            front = f'#[allow(unused_imports)]\nuse super::{{{shared}}};\n' if unit else ''
            source += f'mod u{unit} {{\n{front}{own}}}\n'
        source += ''.join(self.asking(number, it) for number, it in enumerate(structs)) + self.main(structs)
        with open(f'{folder}/structs.rs', 'w', encoding='utf-8') as file:
            file.write(source)
        words = ['rustc', '--edition=2021', '-Cdebuginfo=0', '-Cpanic=abort', '-o', f'{folder}/structs_rust']
        return words[-1:] if compiled([*words, f'{folder}/structs.rs']) else None

    def asking(self, number, struct):
        name = f'u{struct.unit}::{struct.name}'
        shown = ''
        for is_alone, members in itertools.groupby(struct.members, lambda it: it.is_alone()):
            shown += self.shown_numbers(members) if is_alone else ''.join(map(self.shown, members))
        past = '\n    '.join(self.past(name, it) for it in struct.members)
        return f'''fn ask_{number}(bytes: &[u8]) -> String {{
    let Some(it) = {name}::decode(bytes) else {{ return "refused".into() }};
    let mut said = String::new();
    {shown}
    ended(said, it.encode().as_ref().map(|bytes| &bytes[..]))
}}
fn past_{number}(count: &mut u64) {{
    let mut zeros = [0; {struct.report.size}];
    zeros[0] = {struct.zeros()[0]};
    let Some(from) = {name}::decode(&zeros) else {{ return println!("no zeros") }};
    {past}
    let (_, _) = (from, count);
}}
'''

    @staticmethod
    def shown_numbers(members):
        values = ', '.join(f'it.{member.name} as i128' for member in members)
        return f'said += &numbers(&[{values}]);\n    '

    @staticmethod
    def shown(member):
        if member.is_bytes:
            return f"said += &hex(&it.{member.name});\n    said.push(' ');\n    "
        return f'said += &numbers(&it.{member.name}.map(i128::from));\n    '

    def past(self, name, member):
        place, values = self.past_values(member)
        return ''.join(f'{{ let mut it = from; it.{place} = {value}; '
                       f'tell(it.encode().is_none(), "{name} {place}", count) }} ' for value in values)

    @staticmethod
    def main(structs):
        count = len(structs)
        asks, pasts = (', '.join(f'{it}_{at}' for at in range(count)) for it in ('ask', 'past'))
        return f'''static ASKS: [fn(&[u8]) -> String; {count}] = [{asks}];
static PASTS: [fn(&mut u64); {count}] = [{pasts}];
fn main() {{
    for line in std::io::stdin().lock().lines() {{
        let line = line.unwrap();
        let (number, digits) = line.split_once(' ').unwrap();
        let bytes: Vec<u8> = (0..digits.len() / 2)
            .map(|at| u8::from_str_radix(&digits[2 * at..2 * at + 2], 16).unwrap()).collect();
        println!("{{}}", ASKS[number.parse::<usize>().unwrap()](&bytes));
    }}
    let mut refused = 0;
    for past in PASTS {{ past(&mut refused) }}
    println!("{{refused}}");
}}
'''
