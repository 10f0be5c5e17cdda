#!/usr/bin/env python3
"""Prints the modules of the host calls as they stand in modules.rt: each imports some calls of the host, holds a text at address 0, and its
function `handle` is a list of instructions."""

TYPES = {
    "input": (2, 1), "read": (4, 1), "write": (4, 1), "delete": (2, 1), "send": (4, 0), "raise": (2, 0), "reply": (2, 0),
    "own_label": (2, 1), "release": (4, 0),
}


def signed(number):
    out = []
    while True:
        byte, number = number & 127, number >> 7
        if number == 0 and not byte & 64:
            return bytes(out + [byte])
        out.append(byte | 128)


def section(number, *parts):
    body = b"".join(parts)
    assert len(body) < 128
    return bytes([number, len(body)]) + body


def name(text):
    return bytes([len(text)]) + text.encode()


def const(number):
    return b"\x41" + signed(number)


def call(place):
    return bytes([0x10, place])


DROP, STORE = b"\x1a", b"\x36\x02\x00"


def module(imports, text, *code):
    kinds = sorted({TYPES[i] for i in imports}, reverse=True)
    types = [b"\x60" + bytes([p]) + b"\x7f" * p + bytes([r]) + b"\x7f" * r for p, r in kinds] + [b"\x60\x00\x00"]
    body = b"\x00" + b"".join(code) + b"\x0b"
    taken = [name("trapeze") + name(i) + bytes([0, kinds.index(TYPES[i])]) for i in imports]
    out = b"\x00asm\x01\x00\x00\x00" + section(1, bytes([len(types)]), *types)
    out += section(2, bytes([len(taken)]), *taken) + section(3, b"\x01", bytes([len(kinds)]))
    out += section(5, b"\x01\x00\x01") + section(7, b"\x01", name("handle"), bytes([0, len(imports)]))
    out += section(10, b"\x01", bytes([len(body)]), body)
    return out + section(11, b"\x01\x00\x41\x00\x0b", name(text)) if text else out


MODULES = [
    ("ERASE", "Deletes the key k, and replies with the answer.",
     module(["delete", "reply"], "k", const(8), const(0), const(1), call(0), STORE, const(8), const(4), call(1))),
    ("OWN", "Replies with the first four bytes of the name of its label.",
     module(["own_label", "reply"], "", const(16), const(16), const(4), call(0), DROP, const(4), call(1))),
    ("TELL", "Writes its input under the key k, and replies with the answer.",
     module(["input", "write", "reply"], "k", const(8), const(0), const(1), const(16), const(16), const(1024), call(0), call(1), STORE,
            const(8), const(4), call(2))),
    ("SIZE", "Reads the key k into no byte, and replies with the answer.",
     module(["read", "reply"], "k", const(8), const(0), const(1), const(16), const(0), call(0), STORE, const(8), const(4), call(1))),
    ("PAST", "Replies with a byte past its memory.", module(["reply"], "", const(65536), const(1), call(0))),
    ("LONG", "Replies with one byte more than a message has.", module(["reply"], "", const(0), const(65537), call(0))),
    ("LOST", "Raises itself to a label that there is none.", module(["raise"], "nobody", const(0), const(6), call(0))),
]

for label, words, code in MODULES:
    digits = "".join(f"\\x{byte:02x}" for byte in code)
    rows = "\\\n    ".join(digits[at:at + 96] for at in range(0, len(digits), 96))
    print(f'\n/// {words}\nconst {label}: &[u8] = b"\\\n    {rows}";')
