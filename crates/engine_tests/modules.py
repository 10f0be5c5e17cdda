#!/usr/bin/env python3
"""Prints src/valid.rt and src/codes.rt: modules as bytes, each with its source in words above it.

    modules.py valid >src/valid.rt && modules.py codes >src/codes.rt && rt fmt

A module is written as its sections, and code as the names of instructions, with their immediates behind them. What a test wants of a
module stands in the tests, and is worked out by hand.
"""
import re
import sys
import textwrap

PLAIN = {
    "unreachable": 0x00, "nop": 0x01, "else": 0x05, "end": 0x0B, "return": 0x0F, "drop": 0x1A, "select": 0x1B,
    "i32.eq": 0x46, "i32.ne": 0x47, "i32.lt_u": 0x49, "i64.ne": 0x52, "i32.add": 0x6A, "i32.div_s": 0x6D, "f32.abs": 0x8B,
    "i32.extend8_s": 0xC0, "i32.extend16_s": 0xC1, "i64.extend8_s": 0xC2, "i64.extend16_s": 0xC3, "i64.extend32_s": 0xC4,
}
UNSIGNED = {
    "br": 0x0C, "br_if": 0x0D, "call": 0x10, "local.get": 0x20, "local.set": 0x21, "global.get": 0x23, "global.set": 0x24,
}
SIGNED = {"i32.const": (0x41, 32), "i64.const": (0x42, 64)}
BLOCKS = {"block": 0x02, "loop": 0x03, "if": 0x04}
MEMORY = {"i32.load": 0x28, "i32.load8_u": 0x2D, "i32.store": 0x36, "i32.store8": 0x3A}
TYPES = {"i32": 0x7F, "i64": 0x7E, "f32": 0x7D, "f64": 0x7C}
# The host calls, in the order in which the modules of `codes` import them.
CALLS = [("input", 1), ("read", 2), ("write", 2), ("delete", 1), ("send", 4), ("raise", 3), ("reply", 3), ("own_label", 1),
         ("release", 4)]


def leb(number):
    out = []
    while True:
        number, low = number >> 7, number & 127
        if number == 0:
            return bytes(out + [low])
        out.append(low | 128)


def signed(number, bits):
    number %= 1 << bits
    if number >> (bits - 1):
        number -= 1 << bits
    out = []
    while True:
        number, low = number >> 7, number & 127
        if (number == 0 and low < 64) or (number == -1 and low >= 64):
            return bytes(out + [low])
        out.append(low | 128)


def code(text):
    words, out = iter(text.split()), b""
    for word in words:
        if word in PLAIN:
            out += bytes([PLAIN[word]])
        elif word in UNSIGNED:
            out += bytes([UNSIGNED[word]]) + leb(int(next(words)))
        elif word in SIGNED:
            out += bytes([SIGNED[word][0]]) + signed(int(next(words), 0), SIGNED[word][1])
        elif word in BLOCKS:
            kind = next(words)
            out += bytes([BLOCKS[word], 0x40 if kind == "-" else TYPES[kind]])
        elif word in MEMORY:
            out += bytes([MEMORY[word]]) + leb(int(next(words))) + b"\x00"
        elif word == "call_indirect":
            out += b"\x11" + leb(int(next(words))) + b"\x00"
        elif word == "br_table":
            labels = [int(label) for label in next(words).split(",")]
            out += b"\x0e" + leb(len(labels) - 1) + b"".join(map(leb, labels))
        elif word in ("f32.const", "f64.const"):
            next(words)
            out += b"\x43" + bytes(4) if word[1] == "3" else b"\x44" + bytes(8)
        elif word == "memory.grow":
            out += b"\x40\x00"
        elif word == "memory.size":
            out += b"\x3f\x00"
        elif word == "memory.copy":
            out += b"\xfc\x0a\x00\x00"
        elif word == "memory.fill":
            out += b"\xfc\x0b\x00"
        else:
            raise ValueError(word)
    return out


def vector(items):
    return leb(len(items)) + b"".join(items)


def section(number, content):
    return bytes([number]) + leb(len(content)) + content


def name(text):
    return leb(len(text)) + text.encode()


def kind(params, results):
    return b"\x60" + vector([bytes([TYPES[t]]) for t in params.split()]) + vector([bytes([TYPES[t]]) for t in results.split()])


def limits(least, most=None):
    return b"\x00" + leb(least) if most is None else b"\x01" + leb(least) + leb(most)


def body(text, locals_=()):
    content = vector([leb(count) + bytes([TYPES[t]]) for count, t in locals_]) + code(text) + b"\x0b"
    return leb(len(content)) + content


def bodies(*members):
    return section(10, vector(members))


def export(text, what, index):
    return name(text) + bytes([what]) + leb(index)


def imported(text, what):
    return name("trapeze") + name(text) + what


HEADER = b"\x00asm\x01\x00\x00\x00"


def rust(data):
    out = ""
    for byte in data:
        if 32 <= byte < 127 and chr(byte) not in "\"\\":
            out += chr(byte)
        else:
            out += "\\x%02x" % byte
    lines, line = [], ""
    for token in re.findall(r"\\x..|.", out, re.S):
        if len(line) + len(token) > 120:
            lines.append(line)
            line = ""
        line += token
    lines.append(line)
    if len(out) < 90:
        return 'b"%s"' % lines[0]
    # a space or letters behind a break are kept, since a break in a literal drops the spaces behind it
    return 'b"\\\n    ' + "\\\n    ".join(each.replace(" ", "\\x20") if each.startswith(" ") else each for each in lines) + '"'


def show(entries):
    for label, words, data in entries:
        print()
        for word in words.split("\n"):
            for line in textwrap.wrap(word, 132):
                print("/// " + line)
        print("pub(crate) const %s: &[u8] = %s;" % (label, rust(data)))


# ---- modules that are valid, or are not -----------------------------------------------------------------------------------------

SECTIONS = {
    "types": section(1, vector([kind("", ""), kind("i32 i32", "i32"), kind("i32 i32", "")])),
    "imports": b"",
    "functions": section(3, vector([leb(0)])),
    "table": b"",
    "memory": section(5, vector([limits(1)])),
    "globals": section(6, vector([b"\x7f\x00" + code("i32.const 5 end")])),
    "exports": section(7, vector([export("handle", 0, 0)])),
    "start": b"",
    "elements": b"",
    "code": bodies(body("", [(1, "i32"), (1, "i64")])),
    "data": b"",
}


def module(**changed):
    return HEADER + b"".join({**SECTIONS, **changed}.values())


def with_code(text):
    return module(code=bodies(body(text, [(1, "i32"), (1, "i64")])))


def with_type(params, results):
    return module(types=section(1, vector([kind("", ""), kind(params, results)])))


def with_table(*rest):
    return module(table=section(4, vector([b"\x70" + limits(*rest)])))


def with_memory(*rest):
    return module(memory=section(5, vector([limits(*rest)])))


def with_global(what, text):
    return module(globals=section(6, vector([bytes([TYPES[what], 1]) + code(text + " end")])))


def with_exports(*members):
    return module(exports=section(7, vector(members)))


def with_element(offset, member):
    return module(
        table=section(4, vector([b"\x70" + limits(2)])),
        elements=section(9, vector([b"\x00" + code(offset + " end") + vector([leb(member)])])),
    )


def with_data(offset):
    return module(data=section(11, vector([b"\x00" + code(offset + " end") + name("mail")])))


def with_import(what):
    good = imported("own_label", b"\x00" + leb(1))
    return module(imports=section(2, vector([good, imported("input", what)])))


HANDLE = export("handle", 0, 0)


def begun(size):
    """The least module up to a body of so many bytes that has no locals."""
    size = leb(size) + b"\x00"
    whole = 1 + len(size) - 1 + int(sum((byte & 127) << 7 * at for at, byte in enumerate(size[:-1])))
    return module(code=b"") + b"\x0a" + leb(whole) + b"\x01" + size


def targets(count):
    before = code("block i32 i32.const 7 i32.const 0") + b"\x0e" + leb(count)
    return begun(1 + len(before) + count + 1 + len(code("end drop end"))) + before


BUILT = HEADER + b"".join([
    SECTIONS["types"],
    section(2, vector([imported("input", b"\x00\x01"), imported("reply", b"\x00\x02")])),
    SECTIONS["functions"],
    section(4, vector([b"\x70" + limits(1, 1)])),
    section(5, vector([limits(17)])),
    section(6, vector([b"\x7f\x01" + code("i32.const 1048576 end")])),
    section(7, vector([export("memory", 2, 0), export("handle", 0, 2)])),
    bodies(body("i32.const 0 i32.const 0 i32.const 65536 call 0 call 1")),
])

EACH = HEADER + b"".join([
    section(1, vector([kind("i32 f64", "")])),
    section(2, vector([imported("reply", b"\x00\x01")])),
    section(3, vector([leb(6)])),
    section(4, vector([b"\x70" + limits(1, 2)])),
    section(5, vector([limits(17)])),
    section(6, vector([b"\x7e\x01" + code("i32.const 7 end")])),
    section(7, vector([export("handle", 0, 2)])),
    section(8, leb(3)),
    section(9, vector([leb(3) + code("i32.const 8 end") + vector([leb(5), leb(6)])])),
    bodies(body("i32.const 1", [(1, "i32")])),
    section(11, vector([leb(4) + code("i32.const 9 end") + name("alice")])),
])

SMALL = """Modules that are valid, or are not, as bytes. The least of them has the types [] to [], [i32 i32] to [i32] and [i32 i32] to [],
a memory of one page, an immutable i32 as its global, and the function `handle`, with an i32 and an i64 as locals and no code.
The others differ from it by what is said of them."""

VALID = [
    ("IDLE", "the least one", module()),
    # members
    ("EACH", "one of each, which is decoded and not valid: the type [i32 f64] to [], an import `reply` of type 1, a function of type 6,\n"
     "a table of one entry and at most two, a memory of 17 pages, an i64 that can be set as the global and i32.const 7 as its value,\n"
     "the export `handle` of function 2, the start function 3, an element segment for table 3 at 8 with 5 and 6, a body with an i32\n"
     "as its local and i32.const 1 as its code, and a data segment `alice` for memory 4 at 9", EACH),
    # memories
    ("LAID", "a memory of one page and at most two, a data segment `abc` at 4, and one `xy` at 6",
     module(memory=section(5, vector([limits(1, 2)])),
            data=section(11, vector([b"\x00" + code("i32.const 4 end") + name("abc"), b"\x00" + code("i32.const 6 end") + name("xy")])))),
    ("NO_PAGES", "without a memory", module(memory=b"")),
    # bodies
    ("DROP", "code: drop", with_code("drop")),
    ("LEFT_OVER", "code: i32.const 1", with_code("i32.const 1")),
    ("OTHER_LOCAL", "code: i64.const 1, local.set 0", with_code("i64.const 1 local.set 0")),
    ("NO_LOCAL", "code: i32.const 1, local.set 2", with_code("i32.const 1 local.set 2")),
    ("FIXED_GLOBAL", "code: i32.const 1, global.set 0", with_code("i32.const 1 global.set 0")),
    ("NO_LABEL", "code: br 1", with_code("br 1")),
    ("NO_FUNCTION", "code: call 1", with_code("call 1")),
    ("NO_TABLE", "code: i32.const 0, call_indirect 0", with_code("i32.const 0 call_indirect 0")),
    ("ALIGNED_TO_8", "code: i32.const 0, i32.load aligned to 8, drop", with_code("i32.const 0 i32.load 3 drop")),
    ("NARROW_EXTENDED", "code: i32.const 0, i64.extend8_s, drop", with_code("i32.const 0 i64.extend8_s drop")),
    ("SECOND_BODY", "two functions of the first type, without locals, whose code is nop, and drop",
     module(functions=section(3, vector([leb(0), leb(0)])), code=bodies(body("nop"), body("drop")))),
    ("FILLED", "code: i32.const 4, i32.const 128, i32.extend8_s, i32.const 2, memory.fill, i64.const 1, i64.extend32_s, local.set 1",
     with_code("i32.const 4 i32.const 128 i32.extend8_s i32.const 2 memory.fill i64.const 1 i64.extend32_s local.set 1")),
    ("CHOSEN", "code: unreachable, i64.const 1, i32.const 0, select, local.set 1",
     with_code("unreachable i64.const 1 i32.const 0 select local.set 1")),
    ("CHOSEN_OTHER", "code: unreachable, i64.const 1, i32.const 0, select, local.set 0",
     with_code("unreachable i64.const 1 i32.const 0 select local.set 0")),
    ("BRANCHES", "code: block i32, loop, local.get 0, br_if 0, i32.const 7, br 1, end, unreachable, end, drop",
     with_code("block i32 loop - local.get 0 br_if 0 i32.const 7 br 1 end unreachable end drop")),
    ("SIZE", "code: memory.size, drop", with_code("memory.size drop")),
    ("SIZE_LEFT", "code: memory.size", with_code("memory.size")),
    # floats
    ("FLOAT_TYPE", "the types are [] to [], and [f64] to []", with_type("f64", "")),
    ("FLOAT_GLOBAL", "the global: f32, f32.const 0", with_global("f32", "f32.const 0")),
    ("FLOAT_ELEMENT", "a table of two entries, and an element segment at f32.abs with function 0", with_element("f32.abs", 0)),
    ("FLOAT_DATA", "a data segment at f64.const 0", with_data("f64.const 0")),
    ("FLOAT_NESTED", "code: if, nop, else, block f32, unreachable, end, end",
     with_code("if - nop else block f32 unreachable end end")),
    # imports
    ("IMPORT_RESULT", "imports: own_label, and input with type 2", with_import(b"\x00\x02")),
    ("IMPORT_TYPE", "imports: own_label, and input with type 9, which there is not", with_import(b"\x00\x09")),
    ("IMPORT_TABLE", "imports: own_label, and a table input", with_import(b"\x01\x70" + limits(1))),
    ("IMPORT_MEMORY", "imports: own_label, and a memory input", with_import(b"\x02" + limits(1))),
    ("IMPORT_GLOBAL", "imports: own_label, and an i32 input that stays", with_import(b"\x03\x7f\x00")),
    # structure
    ("LARGEST_TABLE", "a table of 65,536 entries", with_table(65536)),
    ("LARGER_TABLE", "a table of 65,537 entries", with_table(65537)),
    ("TABLE_OVER", "a table of two entries and at most one", with_table(2, 1)),
    ("MEMORY_OVER", "a memory of two pages and at most one", with_memory(2, 1)),
    ("LARGER_MEMORY", "a memory of no pages and at most 65,537", with_memory(0, 65537)),
    ("TWO_RESULTS", "the types are [] to [], and [] to [i32 i32]", with_type("", "i32 i32")),
    ("NO_TYPE", "a function of type 3, which there is not", module(functions=section(3, vector([leb(3)])))),
    ("OTHER_VALUE", "the global: i64, i32.const 5", with_global("i64", "i32.const 5")),
    ("NO_START", "the start function is function 1, which there is not", module(start=section(8, leb(1)))),
    ("NO_MEMORY_1", "exports: memory, which is memory 1", with_exports(export("memory", 2, 1))),
    ("SAME_NAMES", "exports: handle, which is function 0, and handle, which is memory 0",
     with_exports(export("handle", 0, 0), export("handle", 2, 0))),
    ("HANDLE_MEMORY", "exports: handle, which is memory 0", with_exports(export("handle", 2, 0))),
    # segments
    ("LAST_ELEMENT", "a table of two entries, and an element segment at 1 with function 0", with_element("i32.const 1", 0)),
    ("PAST_ELEMENT", "a table of two entries, and an element segment at 2 with function 0", with_element("i32.const 2", 0)),
    ("NO_ELEMENT", "a table of two entries, and an element segment at 0 with function 1", with_element("i32.const 0", 1)),
    ("LAST_DATA", "a data segment of four bytes at 65,532", with_data("i32.const 65532")),
    ("PAST_DATA", "a data segment of four bytes at 65,533", with_data("i32.const 65533")),
    ("PAST_ALL_DATA", "a data segment of four bytes at 4,294,967,295", with_data("i32.const 4294967295")),
    ("WIDE_DATA", "a data segment at i64.const 0", with_data("i64.const 0")),
    # sizes
    ("TARGETS", "what comes before the targets where a body, without locals, is: block i32, i32.const 7, i32.const 0, br_table of\n"
     "100,000 targets and one more, end, drop", targets(100000)),
    ("TARGETS_1", "the same of 100,001 targets and one more", targets(100001)),
    ("BLOCKS", "what comes before the blocks where a body, without locals, is: 512 times block, br 511, 512 times end",
     begun(1 + 3 * 512 + len(code("br 511")) + 1)),
    ("NAMES", "what comes before the names where there are 30,001 exports: handle, and 30,000 names of four bytes for memory 0",
     module(exports=b"\x07" + leb(3 + len(HANDLE) + 7 * 30000) + leb(30001) + HANDLE, code=b"")),
    ("NAMED", "what comes behind the names: the code section of one body without locals and code", bodies(body(""))),
    # a compiler's
    ("BUILT", "the module of `reply` and `input` as a compiler writes it: a table, 17 pages, a global that can be set, an exported\n"
     "memory", BUILT),
]

# ---- code that is run --------------------------------------------------------------------------------------------------------------

TWO = "i32 i32 "


def front(second):
    return HEADER + b"".join([
        section(1, vector([kind("", ""), kind(TWO, "i32"), kind(TWO + TWO, "i32"), kind(TWO, ""), kind(TWO + TWO, "")])),
        section(2, vector([imported(text, b"\x00" + leb(what)) for text, what in CALLS])),
        section(3, vector([leb(0), leb(second)])),
        section(4, vector([b"\x70" + limits(3)])),
        section(5, vector([limits(1, 3)])),
        section(6, vector([b"\x7f\x01" + code("i32.const 5 end")])),
        section(7, vector([export("handle", 0, 9)])),
    ])


ELEMENTS = section(9, vector([
    b"\x00" + code("i32.const 0 end") + vector([leb(0)]),
    b"\x00" + code("i32.const 2 end") + vector([leb(10)]),
]))
DATA = section(11, vector([b"\x00" + code("i32.const 0 end") + name("abcdef")]))


def wants(value, what="i32"):
    return " %s.const %s %s.ne if - unreachable end" % (what, value, what)


def alone(text):
    return bodies(body(text, [(1, "i32")]), body(""))


def both(first, second, count=0):
    return bodies(body(first), body(second, [(count, "i32")] if count else []))


def told(text):
    return text.replace(" -", "")


def worked(label, words, text):
    return label, "%s: %s" % (words, told(text)) if words else told(text), alone(text)


CALL = "call 10"
SEND = "i32.const 0 i32.const 4 i32.const 16 local.get 0 call 4"
COUNTING = "global.get 0 i32.const 1 i32.add global.set 0"
MIXED = ("block - loop - call 10 i32.const 2 call_indirect 0 global.get 0 i32.const 9 i32.lt_u br_if 0 global.get 0 local.set 0 br 1 "
         "end end block - i32.const 1 br_table 0 end i32.const 0 local.get 0 i32.store 2 i32.const 0 i32.const 8 call 0" + wants(3) +
         " return")


def sinking(last):
    return COUNTING + " i32.const 2 global.get 0 i32.const %d i32.eq i32.add call_indirect 0" % last


def trap(label, first, second, last):
    return worked(label, "", "i32.const %s i32.const %s %s return" % (first, second, last))


def grows(number, by, answer):
    return worked("GROWS_%d" % number, "", "i32.const %d memory.grow" % by + wants(answer))


def branching(label, branch, total):
    inner = "i32.const 2 i32.const 3 i32.const 4 i32.const 1 %s unreachable" % branch
    return worked(label, "", "i32.const 1 block i32 i32.const 9 block - %s end end i32.add" % inner + wants(total))


# Numbers of the WebAssembly specification's test suite for sign extension, and what the low 8, 16 and 32 bits give.
EXTENDED = [
    ("i32", 0, 0, 0, 0), ("i32", 0x7F, 0x7F, 0x7F, 0x7F), ("i32", 0x80, 0xFFFFFF80, 0x80, 0x80), ("i32", 0x8000, 0, 0xFFFF8000, 0x8000),
    ("i32", 0x01234500, 0, 0x4500, 0x01234500), ("i64", 0x80, 0xFFFFFFFFFFFFFF80, 0x80, 0x80),
    ("i64", 0x8000, 0, 0xFFFFFFFFFFFF8000, 0x8000), ("i64", 0xFEDCBA9880000000, 0, 0, 0xFFFFFFFF80000000),
]


def extends(what):
    """Each number of the type extended from 8 and 16 bits, and from 32 bits too where it has 64."""
    text = ""
    for row in EXTENDED:
        if row[0] == what:
            for bits, want in zip((8, 16, 32), row[2:]):
                if what == "i64" or bits < 32:
                    text += " %s.const %s %s.extend%d_s" % (what, row[1], what, bits) + wants(want, what)
    return text


CALLED = ("i32.const 9 i32.const 8 i32.const 7 %s local.set 0 local.set 1 "
          "i32.const 3 local.get 0 i32.store8 0 i32.const 4 local.get 1 i32.store8 0")
INSIDE = " ".join("i32.const %d local.get %d i32.store8 0" % (at, at) for at in range(3))


def called(label, words, call, end):
    first, second = CALLED % call, INSIDE + " " + end
    said = "%s. handle: %s\nsecond: %s" % (words, told(first), told(second))
    return label, said, bodies(body(first, [(2, "i32")]), body(second, [(1, "i32")]))


SHOWN = """Code that is run, as the code sections of modules of one form: two functions, `handle` and another one, number 10. A module
imports the nine host calls in the order of `HostName`, and has a memory of one page and at most three that begins with `abcdef`, a
table of three entries (`input`, none, the second function) and a global that is 5. Where nothing is said of it, `handle` has one
local and the second function has neither code nor locals; both have type 0, [] to []."""

CODES = [
    ("FRONT", "what comes before the element segments", front(0)),
    ("FRONT_OF_TWO", "the same where the second function has type 1, [i32 i32] to [i32]", front(1)),
    ("START", "the start function is the second one", section(8, leb(10))),
    ("ELEMENTS", "the element segments", ELEMENTS),
    ("DATA", "the data segment", DATA),
    worked("ECHO", "it replies with its input", "i32.const 0 i32.const 0 i32.const 65536 call 0 call 6"),
    worked("LIFT", "it raises itself, then replies with its input",
           "i32.const 0 i32.const 5 call 5 i32.const 16 i32.const 16 i32.const 1024 call 0 call 6"),
    worked("LOOK", "it replies with the value of a key", "i32.const 16 i32.const 0 i32.const 1 i32.const 16 i32.const 1024 call 1 call 6"),
    worked("STORE", "it writes its input under a key",
           "i32.const 0 i32.const 1 i32.const 16 i32.const 16 i32.const 1024 call 0 call 2 drop"),
    worked("TWIN", "it sends its input twice", "i32.const 16 i32.const 1024 call 0 local.set 0 %s %s" % (SEND, SEND)),
    ("MIXED", "one of everything. handle: %s\nsecond: %s" % (told(MIXED), COUNTING), bodies(body(MIXED, [(1, "i32")]), body(COUNTING))),
    worked("SPIN", "", "loop - br 0 end"),
    worked("STOPS", "", "nop unreachable"),
    trap("TRAPS_UNREACHABLE", 0, 0, "unreachable"),
    trap("TRAPS_MEMORY", 0, 65533, "i32.load 2"),
    trap("TRAPS_DIVIDE", 1, 0, "i32.div_s"),
    trap("TRAPS_OVERFLOW", 2147483648, 4294967295, "i32.div_s"),
    trap("TRAPS_TABLE", 0, 3, "call_indirect 0"),
    trap("TRAPS_EMPTY", 0, 1, "call_indirect 0"),
    trap("TRAPS_TYPE", 0, 0, "call_indirect 0"),
    ("SINKS", "handle, without locals, and the second function: call 10", both(CALL, CALL)),
    ("SINKS_WIDE", "handle, without locals: call 10; second, with 1,024 locals: call 10", both(CALL, CALL, 1024)),
    ("SINKS_OVER_ONE", "handle, without locals: i32.const 0 call 10 drop; second, with 1,024 locals: call 10",
     both("i32.const 0 call 10 drop", CALL, 1024)),
    ("SINKS_NESTED", "handle, without locals: call 10; second: 64 times block, call 10, 64 times end",
     both(CALL, "block - " * 64 + CALL + " end" * 64)),
    ("SINKS_TO_1028", "handle, without locals: call 10; second: %s" % sinking(1028), both(CALL, sinking(1028))),
    ("SINKS_TO_1029", "handle, without locals: call 10; second: %s" % sinking(1029), both(CALL, sinking(1029))),
    grows(1, 1, 4294967295),
    grows(2, 1, 1),
    grows(3, 2, 4294967295),
    grows(4, 2, 1),
    grows(5, 3, 4294967295),
    grows(6, 4294967295, 4294967295),
    grows(7, 0, 1),
    grows(8, 0, 4294967295),
    branching("BRANCH", "br 1", 2),
    branching("BRANCH_IF", "br_if 1", 5),
    worked("COPIES_UP", "", "i32.const 2 i32.const 0 i32.const 4 memory.copy"),
    worked("COPIES_DOWN", "", "i32.const 0 i32.const 2 i32.const 4 memory.copy"),
    ("STARTED", "handle: i32.const 0 i32.load8_u%s\nsecond, with two locals: i32.const 0 i32.const 7 i32.store8" % told(wants(7)),
     bodies(body("i32.const 0 i32.load8_u 0" + wants(7), [(1, "i32")]), body("i32.const 0 i32.const 7 i32.store8 0", [(2, "i32")]))),
    worked("IMPORT_BY_TABLE", "", "i32.const 0 i32.const 8 i32.const 0 call_indirect 1 drop"),
    called("CALLED", "the second function ends with its code", CALL, "local.get 0"),
    called("CALLED_BY_TABLE", "the same by the table", "i32.const 2 call_indirect 1", "local.get 0"),
    called("RETURNS", "it returns over another operand", CALL, "i32.const 1 local.get 0 return"),
    called("BRANCHES_OUT", "it branches out of a block to its own level, over another operand", CALL,
           "i32.const 1 block - local.get 0 br 1 end unreachable"),
    ("EXTENDS_32", "each of 0, 7F, 80, 8000 and 1234500 extended from 8 and from 16 bits, and unreachable where that is not\n"
     "0, 0; 7F, 7F; FFFFFF80, 80; 0, FFFF8000; 0, 4500", alone(extends("i32"))),
    ("EXTENDS_64", "each of 80, 8000 and FEDCBA9880000000 extended from 8, 16 and 32 bits, and unreachable where that is not\n"
     "FFFFFFFFFFFFFF80, 80, 80; 0, FFFFFFFFFFFF8000, 8000; 0, 0, FFFFFFFF80000000", alone(extends("i64"))),
]

if __name__ == "__main__":
    said, entries = (SMALL, VALID) if sys.argv[1] == "valid" else (SHOWN, CODES)
    for line in said.split("\n"):
        print("//! " + line)
    show(entries)
