#!/usr/bin/env python3
"""What `hid convert --to` writes is, read by others, just the bytes of the descriptor.

hid_written.py PROGRAM: the descriptors are on standard input, the digits of one in each line. A C
compiler reads the arrays of C, those of macros with the macros defined below by the standard's
format of items (Section 6.2.2.2), and the names of usages that compare/bpf_names.py compares with
their header; Python runs what is written for Python, and parts libinput's
list; `hid` reads back what is in a form of its own. Those of items alone are asked behind each
other, in inputs of at most 60,000 bytes, as each target, the others as one target each, in turn.
Without a C compiler its part is left out.
"""
import os
import re
import shutil
import subprocess
import sys
import tempfile

# The macros of the headers: an item is its first byte, then its data, the low byte first.
ITEM = '#define ITEM(tag, type, size) ((tag) << 4 | (type) << 2 | (size))\n'
ZEPHYR = ITEM + '#define HID_ITEM(a, b, c) ITEM((a) & 15, (b) & 3, (c) & 3)\n' + ''.join(
    f'#define {name}{suffix}{arguments} ITEM({tag}, {kind}, {size}){data}\n'
    for name, tag, kind, sizes in [
        ('INPUT', 8, 0, '1'), ('OUTPUT', 9, 0, '1'), ('COLLECTION', 10, 0, '1'),
        ('END_COLLECTION', 12, 0, '0'), ('USAGE_PAGE', 0, 1, '1'), ('LOGICAL_MIN', 1, 1, 'abc'),
        ('LOGICAL_MAX', 2, 1, 'abc'), ('REPORT_SIZE', 7, 1, '1'), ('REPORT_ID', 8, 1, '1'),
        ('REPORT_COUNT', 9, 1, '1'), ('USAGE', 0, 2, '1'), ('USAGE_MIN', 1, 2, 'ab'),
        ('USAGE_MAX', 2, 2, 'ab')]
    for name in ['HID_' + name]
    for shape in sizes
    for suffix, arguments, size, data in [{
        '0': ('', '', 0, ''), '1': ('', '(a)', 1, ', a'), 'a': ('8', '(a)', 1, ', a'),
        'b': ('16', '(a, b)', 2, ', a, b'), 'c': ('32', '(a, b, c, d)', 3, ', a, b, c, d')}[shape]])
TINYUSB = ITEM + '''
#define DATA_1(x) , (x)
#define DATA_2(x) , (uint8_t)(x), (uint8_t)((x) >> 8)
#define DATA_3(x) DATA_2(x), (uint8_t)((uint32_t)(x) >> 16), (uint8_t)((uint32_t)(x) >> 24)
#define WHOLE(x, tag, type, n) ITEM(tag, type, n) DATA_##n(x)
#define HID_INPUT(x) WHOLE(x, 8, 0, 1)
#define HID_OUTPUT(x) WHOLE(x, 9, 0, 1)
#define HID_FEATURE(x) WHOLE(x, 11, 0, 1)
#define HID_COLLECTION(x) WHOLE(x, 10, 0, 1)
#define HID_COLLECTION_END ITEM(12, 0, 0)
#define HID_REPORT_ID(x) WHOLE(x, 8, 1, 1),
#define HID_PUSH ITEM(10, 1, 0)
#define HID_POP ITEM(11, 1, 0)
''' + ''.join(
    f'#define HID_{name}(x) WHOLE(x, {tag}, {kind}, 1)\n'
    f'#define HID_{name}_N(x, n) WHOLE(x, {tag}, {kind}, n)\n'
    for name, tag, kind in [
        ('USAGE_PAGE', 0, 1), ('LOGICAL_MIN', 1, 1), ('LOGICAL_MAX', 2, 1), ('PHYSICAL_MIN', 3, 1),
        ('PHYSICAL_MAX', 4, 1), ('UNIT_EXPONENT', 5, 1), ('UNIT', 6, 1), ('REPORT_SIZE', 7, 1),
        ('REPORT_COUNT', 9, 1), ('USAGE', 0, 2), ('USAGE_MIN', 1, 2), ('USAGE_MAX', 2, 2)]
) + ''.join(
    f'#define HID_{name} (1 << {bit})\n' for name, bit in [
        ('CONSTANT', 0), ('VARIABLE', 1), ('RELATIVE', 2), ('WRAP', 3), ('NONLINEAR', 4),
        ('PREFERRED_NO', 5), ('NULL_STATE', 6), ('VOLATILE', 7)]
) + ''.join(
    f'#define HID_{name} 0\n' for name in ['DATA', 'ARRAY', 'ABSOLUTE']
) + ''.join(
    f'#define HID_COLLECTION_{name} {kind}\n' for kind, name in enumerate(
        'PHYSICAL APPLICATION LOGICAL REPORT NAMED_ARRAY USAGE_SWITCH USAGE_MODIFIER'.split())
) + ''.join(
    f'#define HID_USAGE_PAGE_{name} {page}\n' for page, name in enumerate(
        '''- DESKTOP SIMULATE VIRTUAL_REALITY SPORT GAME GENERIC_DEVICE KEYBOARD LED BUTTON ORDINAL
        TELEPHONY CONSUMER DIGITIZER'''.split()) if page
) + '#define HID_USAGE_PAGE_VENDOR 0xff00\n'
LUFA = ITEM + '''
typedef uint8_t USB_Descriptor_HIDReport_Datatype_t;
#define PROGMEM
#define DATA_0
#define DATA_8(x) , (uint8_t)(x)
#define DATA_16(x) DATA_8(x), (uint8_t)((x) >> 8)
#define DATA_32(x) DATA_16(x), (uint8_t)((uint32_t)(x) >> 16), (uint8_t)((uint32_t)(x) >> 24)
#define SIZE_0 0
#define SIZE_8 1
#define SIZE_16 2
#define SIZE_32 3
''' + ''.join(
    f'#define HID_RI_{name}(bits, ...) ITEM({tag}, {kind}, SIZE_##bits) DATA_##bits '
    f'__VA_OPT__((__VA_ARGS__))\n'
    for kind, names in enumerate([
        '''- - - - - - - - INPUT OUTPUT COLLECTION FEATURE END_COLLECTION''',
        '''USAGE_PAGE LOGICAL_MINIMUM LOGICAL_MAXIMUM PHYSICAL_MINIMUM PHYSICAL_MAXIMUM UNIT_EXPONENT
        UNIT REPORT_SIZE REPORT_ID REPORT_COUNT PUSH POP''',
        'USAGE USAGE_MINIMUM USAGE_MAXIMUM'])
    for tag, name in enumerate(names.split()) if name != '-'
) + ''.join(
    f'#define HID_IOF_{name} (1 << {bit})\n' for bit, name in enumerate(
        '''CONSTANT VARIABLE RELATIVE WRAP NON_LINEAR NO_PREFERRED_STATE NULLSTATE VOLATILE
        BUFFERED_BYTES'''.split())
) + ''.join(
    f'#define HID_IOF_{name} 0\n' for name in ['DATA', 'ARRAY', 'ABSOLUTE'])
TOP = os.path.dirname(os.path.dirname(os.path.dirname(os.path.abspath(__file__))))
sys.path.insert(0, f'{TOP}/compare')
from bpf_names import TABLE, of_table  # noqa: E402
BPF = '''typedef uint8_t __u8;
#define WORD(v) (uint8_t)(v), (uint8_t)((v) >> 8)
#define LONG(v) WORD(v), (uint8_t)((v) >> 16), (uint8_t)((v) >> 24)
#define Collection(kind, ...) 0xa1, kind, __VA_ARGS__ 0xc0,
#define CollectionPhysical(...) Collection(0, __VA_ARGS__)
#define CollectionApplication(...) Collection(1, __VA_ARGS__)
#define CollectionLogical(...) Collection(2, __VA_ARGS__)
#define PushPop(...) 0xa4, __VA_ARGS__ 0xb4,
#define Const 1
#define Var 2
#define Arr 0
#define Abs 0
#define Rel 4
#define cm 0x11
#define rad 0x12
#define in 0x13
#define deg 0x14
#define Unit(u) Unit_i8(u)
#define UnitExponent(e) 0x55, (uint8_t)(e) & 0xf,
#define UsagePage_Vendor(p) UsagePage_i16(p)
''' + ''.join(
    f'#define {name}(v) {header:#x}, (uint8_t)(v),\n' for header, name in [
        (0x81, 'Input'), (0x91, 'Output'), (0xb1, 'Feature'), (0x85, 'ReportId'),
        (0x75, 'ReportSize'), (0x95, 'ReportCount'), (0x05, 'UsagePage_i8'), (0x09, 'Usage_i8'),
        (0x65, 'Unit_i8')]
) + '''#define UsagePage_i16(p) 0x06, WORD(p),
#define Usage_i16(u) 0x0a, WORD(u),
#define Usage_i32(u) 0x0b, LONG(u),
''' + ''.join(
    f'#define {name}Range_i{bits}(low, high) {header | size:#x}, {words}(low), '
    f'{header + 0x10 | size:#x}, {words}(high),\n'
    for header, name, most in [(0x14, 'Logical', 3), (0x34, 'Physical', 3), (0x18, 'Usage', 2)]
    for size, bits, words in [(1, 8, '(uint8_t)'), (2, 16, 'WORD'), (3, 32, 'LONG')][:most]
) + ''.join(
    f'#define {name} {name.split("_")[0]}_i{bits}({number:#x})\n'
    for name, (number, bits) in of_table(f'{TOP}/{TABLE}').items())
HEADERS = {'c': '', 'kernel': 'typedef uint8_t __u8;\n', 'zephyr': ZEPHYR, 'tinyusb': TINYUSB,
           'lufa': LUFA, 'hid-bpf': BPF}
FORMS = {'c': 'source', 'kernel': 'source', 'rust': 'source', 'python': 'python',
         'libinput': 'libinput', 'recording': 'recorder', 'hex': 'hex'}


def is_known(head):
    """Whether `hid` knows items with this first byte: of main items there are five, and of these,
    local items and those of a report some have to have data."""
    if head & 0x0c == 0 and not 8 <= head >> 4 <= 12:
        return False
    return head & 3 != 0 or head & 0x0c != 8 and head not in (0x80, 0x90, 0xb0, 0x74, 0x84, 0x94)


def is_whole(data):
    """Whether bytes are known items up to the last."""
    place = 0
    while place < len(data):
        size = [0, 1, 2, 4][data[place] & 3]
        if not is_known(data[place]):
            return False
        if data[place] == 0xfe:
            if place + 1 == len(data):
                return False
            size = 2 + data[place + 1]
        place += 1 + size
    return place == len(data)


def joined(descriptors):
    """The descriptors behind each other."""
    together = b''
    for data in descriptors:
        if len(together) + len(data) > 60_000:
            yield together
            together = b''
        together += data
    yield together


def run(words, given):
    """What a program writes of some bytes."""
    done = subprocess.run(words, input=given, capture_output=True, check=False)
    if done.returncode:
        sys.exit(f"hid_written: {' '.join(words)}: {done.stderr.decode()}")
    return done.stdout


def of_c(target, texts, folder):
    """The bytes of arrays of C."""
    named = [re.sub(r'\breport_descriptor\b', f'array_{number}', text, count=1)
             for number, text in enumerate(texts)]
    shown = ''.join(f'    show(array_{number}, sizeof array_{number});\n'
                    for number in range(len(texts)))
    source = f'''#include <stddef.h>
#include <stdint.h>
#include <stdio.h>
{HEADERS[target]}{''.join(named)}
static void show(const unsigned char *bytes, size_t count) {{
    for (size_t index = 0; index < count; index++) printf("%02x", bytes[index]);
    puts("");
}}
int main(void) {{
{shown}    return 0;
}}
'''
    with open(f'{folder}/{target}.c', 'w', encoding='utf-8') as file:
        file.write(source)
    built = f'{folder}/{target}'
    run(['cc', '-Wall', '-Wextra', '-Werror', '-o', built, f'{built}.c'], b'')
    return [bytes.fromhex(line) for line in run([built], b'').decode().splitlines()]


def of_python(text):
    """The bytes of an assignment of Python."""
    names = {}
    exec(text, names)
    return names['report_descriptor']


def of_libinput(text):
    """The bytes of libinput's list, the flow sequence of a key in a mapping two spaces deep."""
    key, numbers, rest = re.fullmatch(r'  (hid): \[\n((?:    .*\n)*)  \]\n(.*)', text).groups()
    if key != 'hid' or rest:
        return None
    return bytes(int(number, 0) for number in re.split(r',\s', numbers.strip()))


def main():
    program = sys.argv[1]
    descriptors = [bytes.fromhex(line) for line in sys.stdin]
    wholes = list(joined(filter(is_whole, descriptors)))
    others = [data for data in descriptors if not is_whole(data)]
    targets = {**FORMS, 'zephyr': 'source', 'tinyusb': 'source', 'lufa': 'source',
               'hid-bpf': 'source'}
    answers = 0

    def compare(target, reader, asked, got):
        nonlocal answers
        for wanted, bytes_read in zip(asked, got, strict=True):
            if wanted != bytes_read:
                digits = wanted.hex()[:200]
                sys.exit(f'hid_written: --to {target}: {reader} reads other bytes than {digits}')
            answers += 1

    for number, (target, form) in enumerate(targets.items()):
        asked = wholes + others[number::len(targets)]
        words = [program, 'convert', '--form', 'bytes', '--to', target, '-']
        texts = [run(words, data).decode() for data in asked]
        if target == 'c' and any(' //' not in line for data, text in zip(asked, texts)
                                 if is_whole(data) for line in text.splitlines()[1:-1]):
            sys.exit('hid_written: an item is written without its words')
        if form:
            words = [program, 'convert', '--form', form, '--to', 'bytes', '-']
            compare(target, 'hid', asked, (run(words, text.encode()) for text in texts))
        if target in HEADERS and shutil.which('cc'):
            with tempfile.TemporaryDirectory() as folder:
                compare(target, 'cc', asked, of_c(target, texts, folder))
        if target == 'python':
            compare(target, 'Python', asked, map(of_python, texts))
        if target == 'libinput':
            compare(target, 'its list', asked, map(of_libinput, texts))
    if not shutil.which('cc'):
        print('hid_written: no `cc` on the path, so no array of C is compiled')
    print(f'hid_written: {answers} readings of {len(wholes) + len(others)} inputs give their bytes')


main()
