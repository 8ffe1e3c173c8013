#!/usr/bin/env python3
"""The library for C as one file of C for any machine: hidreport.c, to standard output.

    portable.py MODULE_C MODULE_H: what Debian's wasm2c makes of generated/wasm/hidreport.wasm.

In front stand include/hidreport.h, and what wasm2c's text asks of a system (c/portable/runtime.h), behind
it the functions of that header: each puts what it is given into the module's memory, calls the module, and takes
what that answers out again. Numbers lie in the module as on a machine of 64 bits, the low byte first;
so each struct of the header is put and taken member by member. A prototype or a member of another form
than these is refused.
"""

import os
import re
import sys

TOP = os.path.dirname(os.path.dirname(os.path.dirname(os.path.abspath(__file__))))
# How many bytes a number has in the module, and how a number of so many bytes is called there.
SIZES = {"size_t": 8, "int64_t": 8, "uint32_t": 4, "int32_t": 4, "uint16_t": 2, "uint8_t": 1, "bool": 1}


def text_of(file):
    with open(f"{TOP}/{file}", encoding="utf-8") as text:
        return text.read()


def header():
    """The header without comments and preprocessor's lines."""
    text = re.sub(r"/\*.*?\*/", "", text_of("include/hidreport.h"), flags=re.S)
    return re.sub(r"^#(.*\\\n)*.*\n", "", text, flags=re.M)


class Struct:
    """A struct of the header: where its members lie in the module, and its size there."""

    def __init__(self, name, body, known):
        self.name, self.members, at, widest = name, [], 0, 1
        for kind, member in re.findall(r"((?:struct )?\w+) (\w+);", body):
            if kind.startswith("struct "):
                size, alignment = known[kind[7:]].size, known[kind[7:]].alignment
            else:
                size = alignment = SIZES[kind]
            at = -(-at // alignment) * alignment
            self.members.append((kind, member, at))
            at, widest = at + size, max(widest, alignment)
        self.alignment, self.size = widest, -(-at // widest) * widest

    def functions(self):
        put, take = [], []
        for kind, member, at in self.members:
            if kind.startswith("struct "):
                put.append(f"    put_{kind[7:]}(m, at + {at}, &from->{member});")
                take.append(f"    take_{kind[7:]}(m, at + {at}, &to->{member});")
            else:
                put.append(f"    put_number(m, at + {at}, {SIZES[kind]}, (u64)from->{member});")
                took = f"take_number(m, at + {at}, {SIZES[kind]})"
                took = f"{took} != 0" if kind == "bool" else f"({kind}){took}"
                take.append(f"    to->{member} = {took};")
        head = f"(module *m, u64 at, {{}}struct {self.name} *{{}})"
        return "\n".join(
            [f"static inline void put_{self.name}{head.format('const ', 'from')}", "{", *put, "}", ""]
            + [f"static inline void take_{self.name}{head.format('', 'to')}", "{", *take, "}", ""]
        )


def structs(text):
    known = {}
    for name, body in re.findall(r"struct (\w+) \{(.*?)\};", text, re.S):
        known[name] = Struct(name, body, known)
    return known


class Call:
    """A function of the header, and the text of its body."""

    def __init__(self, answer, name, parameters, known):
        self.answer, self.name, self.known = answer, name, known
        self.parameters = [it.strip() for it in re.sub(r"\s+", " ", parameters).split(",")]
        self.before, self.given, self.behind = [], [], []
        self.room = None

    def element(self, kind):
        """How many bytes one has in the module, and how it is put and taken."""
        if kind.startswith("struct "):
            own = kind[7:]
            return self.known[own].size, f"put_{own}(m, {{at}}, {{it}})", f"take_{own}(m, {{at}}, {{it}})"
        size = SIZES[kind]
        return (
            size,
            f"put_number(m, {{at}}, {size}, (u64)*({{it}}))",
            f"*({{it}}) = ({kind})take_number(m, {{at}}, {size})",
        )

    def read(self):
        left = list(self.parameters)
        while left:
            parameter = left.pop(0)
            if parameter == "void":
                continue
            match = re.fullmatch(r"(const )?((?:struct )?\w+) \*(\w+)", parameter)
            if match is None:
                self.number(*re.fullmatch(r"((?:struct )?\w+) (\w+)", parameter).groups())
                continue
            is_const, kind, name = match.groups()
            counted = re.fullmatch(r"size_t (\w+)", left[0]) if left else None
            if is_const and counted is None:
                self.array(kind, name, "1", is_taken=False, is_counted=False)
            elif is_const:
                left.pop(0)
                self.array(kind, name, counted[1], is_taken=False, is_counted=True)
            elif counted and counted[1] == "room":
                left.pop(0)
                self.list(kind, name)
            elif counted:
                left.pop(0)
                self.array(kind, name, counted[1], is_taken=True, is_counted=True)
            else:
                sys.exit(f"portable: {self.name}: {parameter} is not known")

    def number(self, kind, name):
        if kind == "struct hidreport_options":
            self.given += [f"(u64){name}.limit" , f"{name}.push | (u64){name}.usages << 32"]
            # No limit is the greatest number, as many bits as it has.
            self.given[-2] = f"{name}.limit == SIZE_MAX ? UINT64_MAX : (u64){name}.limit"
        elif kind in ("size_t", "int64_t"):
            self.given.append(f"(u64){name}")
        elif kind in SIZES:
            self.given.append(f"(u32){name}")
        else:
            sys.exit(f"portable: {self.name}: {kind} {name} is not known")

    def array(self, kind, name, count, is_taken, is_counted):
        size, put, take = self.element(kind)
        at = f"at_{name}"
        self.before += [f"    u64 {at} = room_for(m, (u64){count}, {size}, &is_room);"]
        moved = f"({at} + (u64)i * {size})"
        if kind == "uint8_t":
            copied = [f"        put_bytes(m, {at}, {name}, {count});"]
            taken = [f"    take_bytes(m, {at}, {name}, {count});"]
        else:
            copied = [f"        for (size_t i = 0; i < {count}; i++)"]
            copied += [f"            {put.format(at=moved, it=f'{name} + i')};"]
            taken = [f"    for (size_t i = 0; i < {count}; i++)"]
            taken += [f"        {take.format(at=moved, it=f'{name} + i')};"]
        self.before += ["    if (is_room) {", *copied, "    }"]
        self.given.append(at)
        if is_counted:
            self.given.append(f"(u64){count}")
        if is_taken:
            self.behind += taken

    def list(self, kind, name):
        size, _put, take = self.element(kind)
        self.room = (kind, name, size, take)

    def text(self):
        self.read()
        declared = ", ".join(self.parameters)
        head = [f"{self.answer} {self.name}({declared})", "{"]
        if self.name == "hidreport_version":
            return "\n".join([*head, "    return HIDREPORT_VERSION;", "}", ""])
        return "\n".join(head + self.body() + ["}", ""])

    def body(self):
        is_struct = self.answer.startswith("struct ")
        size = self.known[self.answer[7:]].size if is_struct else 4
        lines = ["    bool is_room = true;", "    module *m = module_of(&is_room);"]
        lines += [f"    {self.answer} answer = {refused(self)};" , "", "    if (m == NULL)", f"        return {unanswered(self)};"]
        lines += self.before
        if self.room is None:
            lines += self.asked(size, self.given, is_struct)
        else:
            lines += self.listed(size)
        lines += ["    ended(m);", "    return answer;"]
        if self.room is None and not has_status(self):
            lines.insert(-2, "    if (!is_room)\n        abort();")
        return lines

    def asked(self, size, given, is_struct):
        words = ", ".join(given)
        if not is_struct:
            call = [f"        answer = w2c_{self.name}(&m->instance, {words});"]
        elif size > 8:
            call = [f"        w2c_{self.name}(&m->instance, m->answer, {words});"]
            call += [f"        take_{self.answer[7:]}(m, m->answer, &answer);"]
        else:
            call = [f"        put_number(m, m->answer, 8, (u64)w2c_{self.name}(&m->instance, {words}));"]
            call += [f"        take_{self.answer[7:]}(m, m->answer, &answer);"]
        behind = [f"    {it}" for it in self.behind]
        return ["    if (is_room) {", *call, *behind, "    }"]

    def listed(self, size):
        """A list is asked for with what room is worth while, and where there is more, once more."""
        kind, name, width, take = self.room
        moved = f"(at_{name} + (u64)i * {width})"
        taken = [f"            for (size_t i = 0; i < count; i++)"]
        taken += [f"                {take.format(at=moved, it=f'{name} + i')};"]
        if kind == "uint8_t":
            taken = [f"            take_bytes(m, at_{name}, {name}, count);"]
        given = ", ".join([*self.given, f"at_{name}", "(u64)asked"])
        return [
            f"    for (size_t asked = room < FEW / {width} ? room : 0; is_room;) {{",
            f"        u64 at_{name} = room_for(m, asked, {width}, &is_room);",
            "        size_t count;",
            "",
            "        if (!is_room)",
            "            break;",
            f"        w2c_{self.name}(&m->instance, m->answer, {given});",
            "        take_hidreport_answer(m, m->answer, &answer);",
            "        count = answer.status != HIDREPORT_ACCEPTED ? 0 : answer.count < room ? answer.count : room;",
            "        if (count <= asked) {",
            *taken,
            "            break;",
            "        }",
            "        asked = count;",
            "        answer = no_memory;",
            "    }",
        ]


def has_status(call):
    """Whether an answer can say that memory was refused."""
    if call.answer == "uint32_t":
        return call.name != "hidreport_version"
    return any(member == "status" for _kind, member, _at in call.known[call.answer[7:]].members)


def refused(call):
    if call.answer == "uint32_t":
        return "HIDREPORT_OUT_OF_MEMORY"
    if call.answer == "struct hidreport_answer":
        return "no_memory"
    if has_status(call):
        return "{.status = HIDREPORT_OUT_OF_MEMORY}"
    return "{0}"


def unanswered(call):
    return "answer" if has_status(call) else "(abort(), answer)"


def module(text, declared):
    """wasm2c's text without what only other files need, its memory's first pages as a number."""
    inner = re.search(r"typedef struct Z_hidreport_instance_t \{.*?\} Z_hidreport_instance_t;\n", declared, re.S)[0]
    types = re.search(r"#ifndef WASM_RT_CORE_TYPES_DEFINED.*?#endif\n", declared, re.S)[0]
    text = text.replace('#include "hidreport.h"\n', types + "\n" + inner)
    text = text[: text.index("/* export: ")]
    text = text.replace("#include <malloc.h>\n#define alloca _alloca\n#else\n#include <alloca.h>\n", "")
    text = re.sub(r"static bool s_module_initialized.*?\n\}\n", "", text, count=1, flags=re.S)
    text = re.sub(r"static void init_data_instances\(.*?\n\}\n", "", text, flags=re.S)
    memory = r"static void init_memories\((.*?)\) \{\n  wasm_rt_allocate_memory\(&instance->w2c_memory, (\d+), \d+\);\n"
    pages = re.search(memory, text)[2]
    text = re.sub(memory, r"static void init_data(\1) {\n", text)
    return f"{text}\nenum {{ FIRST_PAGES = {pages} }};\n"


def main():
    with open(sys.argv[1], encoding="utf-8") as text, open(sys.argv[2], encoding="utf-8") as declared:
        own = module(text.read(), declared.read())
    declared = header()
    known = structs(declared)
    prototypes = re.findall(r"^((?:struct )?\w+) \*?(hidreport_\w+)\(([^;]*)\);", declared, re.M)
    whole = text_of("include/hidreport.h")
    print(text_of("c/portable/runtime.h").replace('#include "hidreport.h"\n', whole))
    print(own)
    print(text_of("c/portable/memory.h"))
    for it in known.values():
        print(it.functions())
    print("static const struct hidreport_answer no_memory = {0, 0, HIDREPORT_OUT_OF_MEMORY};\n")
    for answer, name, parameters in prototypes:
        print(Call(answer, name, parameters, known).text())


if __name__ == "__main__":
    main()
