"""Programs of C that ask what `hid struct` writes (struct_language.py)."""
import re

from struct_language import Language, compiled


IN_A_FILE = 8


class C(Language):
    """Programs of C, which C++ may read, too."""
    word, tool = 'c', 'cc'
    title = r'^/\* (Input|Output|Feature) report'
    struct = r'^typedef struct \{\n(?P<members>.*?)^\} (?P<name>\w+);$'
    member = r'^    (?P<kind>\w+) (?P<name>\w+)(?:\[(?P<count>\d+)\])?;$'
    words = '''alignas alignof and and_eq asm assert auto bitand bitor bool break case catch char class
        co_await co_return co_yield compl concept const const_cast consteval constexpr constinit continue
        decltype default delete do double dynamic_cast else enum errno explicit export extern false float for
        friend goto i386 if inline int linux long mutable namespace new noexcept not not_eq nullptr operator or
        or_eq private protected public register reinterpret_cast requires restrict return short signed sizeof
        static static_assert static_cast stderr stdin stdout struct switch template this thread_local throw
        true try typedef typeid typename typeof typeof_unqual union unix unsigned using virtual void volatile
        wchar_t while xor xor_eq'''
    spoils = [
        ('return value & mask;', 'return value;'), ('sign = (mask >> 1) + 1;', 'sign = mask >> 1;'),
        ('if (length < ', 'if (length + 1 < '), ('if (bytes[0] != ', 'if (bytes[0] == '),
        ('return value <= mask;', 'return value <= mask + 1;'),
        ('(uint64_t)value + (mask >> 1) + 1 <= mask', '(uint64_t)value + (mask >> 1) + 2 <= mask'),
        ('(uint64_t)from[8] << (64 - bit)', '(uint64_t)from[7] << (64 - bit)'),
        ('memset(bytes, 0, ', 'memset(bytes, 1, '), ('to[0] |= ', 'to[0] = '),
        ('return bits - at < 8 ? 0xffu >> (8 - (bits - at)) : 0xffu;', 'return bits + at ? 0xffu : 0;'),
        ('bits / 8] >> bits % 8 == 0', 'bits / 8] >> bits % 8 < 2'),
        ('_SHIFT 11\n', '_SHIFT 12\n'), ('_STEP 5\n', '_STEP 4\n')]
    HEAD = '''#include <inttypes.h>
#include <stdio.h>
#include <stdlib.h>
static void hex(const uint8_t *bytes, size_t count) { while (count--) printf("%02x", *bytes++); }
static int is_same(const uint8_t *out, size_t size) { while (size--) if (*out++ != 0xaa) return 0; return 1; }
static void tell(int is_refused, const char *name, unsigned long *count)
{
    if (is_refused) ++*count; else printf("%s is written\\n", name);
}
static void u(uint64_t value) { printf("%" PRIu64 " ", value); }
static void s(int64_t value) { printf("%" PRId64 " ", value); }
static void b(const uint8_t *bytes, size_t count) { hex(bytes, count); putchar(' '); }
#define P(report, encode, member, value, name) { report it = from; it.member = (value); \\
    tell(!encode(&it, out, size) && is_same(out, size), name, count); }
'''

    def build(self, texts, structs, folder):
        # In files of some sources each, since the compiler reads a file again for each warning that it looks for.
        pieces = [self.own(unit, self.parts(text)[1]) for unit, text in enumerate(texts)]
        pieces += [self.asking(number, it) for number, it in enumerate(structs)]
        source = self.parts(texts[0])[0] + self.HEAD
        for at in range(0, len(pieces), IN_A_FILE):
            source += f'#include "structs_{at}.h"\n'
            with open(f'{folder}/structs_{at}.h', 'w', encoding='utf-8') as file:
                file.writelines(pieces[at:at + IN_A_FILE])
        with open(f'{folder}/structs.c', 'w', encoding='utf-8') as file:
            file.write(source + self.main(structs))
        words = ['cc', '-std=c11', '-Wall', '-Wextra', '-Werror', '-o', f'{folder}/structs_c']
        return words[-1:] if compiled([*words, f'{folder}/structs.c']) else None

    @staticmethod
    def own(unit, text):
        """A text whose names are those of one unit alone."""
        own = r'\b((?:input|output|feature)_report(?:_\d+)?)(?=;|_decode\b|_encode\b| \*)'
        text = re.sub(own, rf'u{unit}_\1', text)
        return re.sub(r'\b(INPUT|OUTPUT|FEATURE)_REPORT', rf'U{unit}_\1_REPORT', text)

    def asking(self, number, struct):
        """The functions that ask a struct."""
        name, size = f'u{struct.unit}_{struct.name}', struct.report.size
        shown = '\n    '.join(self.shown(it) for it in struct.members)
        past = '\n    '.join(self.past(name, it) for it in struct.members)
        return f'''static void ask_{number}(const uint8_t *bytes, size_t length)
{{
    {name} it; uint8_t out[{size + 1}];
    memset(out, 0xaa, sizeof out);
    if (!{name}_decode(bytes, length, &it)) {{ printf("refused\\n"); return; }}
    {shown}
    if ({name}_encode(&it, out, {size - 1}) || !is_same(out, sizeof out)) printf("little room ");
    if (!{name}_encode(&it, out, {size}) || out[{size}] != 0xaa) {{ printf("not written\\n"); return; }}
    printf("= "); hex(out, {size}); putchar('\\n');
}}
static void past_{number}(unsigned long *count)
{{
    const uint8_t zeros[{size}] = {{ {struct.zeros()[0]} }}; {name} from;
    size_t size = {size}; uint8_t out[{size}];
    memset(out, 0xaa, size);
    if (!{name}_decode(zeros, size, &from)) printf("no zeros\\n");
    {past}
    (void)count;
}}
'''

    @staticmethod
    def shown(member):
        if member.is_bytes:
            return f'b(it.{member.name}, sizeof it.{member.name});'
        show = 's' if member.kind.startswith('int') else 'u'
        if member.count is None:
            return f'{show}(it.{member.name});'
        return f'for (size_t i = 0; i < {member.count}; i++) {show}(it.{member.name}[i]);'

    def past(self, name, member):
        place, values = self.past_values(member)
        values = [f'INT64_C({it})' if it < 0 else f'UINT64_C({it})' for it in values]
        return ''.join(f'P({name}, {name}_encode, {place}, {it}, "{name} {place}") ' for it in values)

    @staticmethod
    def main(structs):
        count = len(structs)
        asks, pasts = (', '.join(f'{it}_{at}' for at in range(count)) for it in ('ask', 'past'))
        return f'''static void (*const asks[])(const uint8_t *, size_t) = {{ {asks} }};
static void (*const pasts[])(unsigned long *) = {{ {pasts} }};
int main(void)
{{
    static char line[1 << 20]; static uint8_t bytes[1 << 19];
    unsigned long refused = 0;
    while (fgets(line, sizeof line, stdin)) {{
        char *digits; size_t length = 0; unsigned byte;
        unsigned long number = strtoul(line, &digits, 10);
        for (digits++; sscanf(digits, "%2x", &byte) == 1; digits += 2) bytes[length++] = (uint8_t)byte;
        asks[number](bytes, length);
    }}
    for (size_t it = 0; it < {count}; it++) pasts[it](&refused);
    printf("%lu\\n", refused);
    return 0;
}}
'''
