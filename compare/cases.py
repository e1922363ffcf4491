#!/usr/bin/env python3
"""The cases of optcheck's stored test, each with its answer, written by hand from 01 and the readings in docs/DECISIONS.md.

usage: cases.py [write]

Shows where crates/optcheck/stdin and stdout are not these cases, or writes them. What a fine case counts is taken from form.py.
"""
import struct
import sys

import form


def f(tag, payload=b""):
    payload = payload.encode() if isinstance(payload, str) else payload
    return bytes([tag]) + struct.pack(">H", len(payload)) + payload


def file(items=b"", package=""):
    return f(1, f(0x10, package) + items)


def message(items=b"", name="M"):
    return f(2, f(0x11, name) + items)


def deep(names, inside=b""):
    for name in reversed(names):
        inside = message(inside, name)
    return file(inside)


def shape(number=1, kind=13, label=1, path=None):
    leaves = f(0x13, struct.pack(">I", number)) + f(0x14, bytes([kind])) + f(0x15, bytes([label]))
    return leaves + (f(0x16, path) if path is not None else b"")


def extension(extendee="M", name="x", **of):
    return file(f(3, f(0x11, name) + f(0x12, extendee) + shape(**of)))


def field(name="x", **of):
    return f(5, f(0x11, name) + shape(**of))


def value(number=bytes(4), name="v"):
    return f(6, f(0x11, name) + f(0x17, number))


def enum(values=b"", name="E"):
    return f(4, f(0x11, name) + values)


def request(options=b"", scope="", kind="a"):
    return f(0x18, scope) + f(0x19, kind) + options


X = f(0x1A, "x")
YES = f(0x20, b"\1")


def option(parts=X, constant=YES):
    return f(8, parts + constant)


def lists(n, inside):
    for _ in range(n):
        inside = f(0x2A, inside)
    return inside


def messages(n, inside):
    for _ in range(n):
        inside = f(0x26, f(0x27, "x") + inside)
    return inside


def pair(name, constant=YES):
    return request(option(constant=f(0x26, name + constant)))


def of(constant):
    return request(option(constant=constant))


def part(payload, tag=0x1B):
    return request(option(f(tag, payload)))


P1 = (
    "01002010000170030019110001781200036F2E46130004000000051400010D1500010101000B1000016F02000411000146",
    "180001701900036F2E4608000F1B0001782100080000000000000007",
)
LONG = ".".join(["a" * 63] * 4)
MANY = file(
    message(field() + field() + field() + enum(value() * 5) + enum()) + message() + f(3, f(0x11, "x") + f(0x12, "M") + shape())
)
KINDS = f(
    0x2A,
    f(0x20, b"\0") + f(0x21, bytes(8)) + f(0x22, b"\xff" * 8) + f(0x23, b"\xff" * 8) + f(0x24, b"\xff\0") + f(0x25, "A")
    + f(0x26, f(0x27, "x") + YES + f(0x28, "a.x") + f(0x2A) + f(0x29, "b/c") + f(0x26)),
)

SHEETS = [
    # the examples of the rule
    (0, b""), (1, b"\1"), (0, bytes.fromhex("010003100000")), (1, bytes.fromhex("0100041000012E")),
    (0, bytes.fromhex(P1[0]), bytes.fromhex(P1[1])), (3, bytes(32769)), (3, file() * 9), (1, file() * 8 + f(2)),
    (0, deep("M" * 16)), (3, deep("M" * 17)), (1, deep("9" + "M" * 16)), (1, deep("M" * 16, b"\2\0\1")),
    # limits: at the figure, past it, and what stands before it
    (1, bytes(32768)), (0, file() * 8), (1, file() * 8 + b"\1\0\1"), (1, file() * 8 + b"\1"), (3, file() * 8 + file(package=".")),
    (3, deep("M" * 16 + "9")), (1, deep("M" * 15 + "9" + "M")), (1, deep("M" * 16, f(7))), (3, deep("M" * 17) + b"\1"),
    (1, file(message(name="9") + deep("M" * 17)[6:])),
    # containers
    (0, MANY), (1, f(1)), (1, file(f(0x10))), (1, f(1, message() + f(0x10))), (1, file(file())), (1, file(field())),
    (1, file(message(value()))),
    (1, file(message(f(0x11, "N")))), (0, file(enum())), (0, file(enum(value(b"\xff" * 4)))), (1, file(enum(value(bytes(5))))),
    (1, file(enum(field()))), (1, file(enum(f(6, f(0x11, "v") + f(0x17, bytes(4)) * 2)))),
    # names and paths
    (0, file(message(name="a" * 64))), (1, file(message(name="a" * 65))), (1, file(message(name="ä"))), (1, file(message(name="9a"))),
    (0, file(package=LONG)), (1, file(package=LONG + "a")), (1, file(package="a" * 65)), (1, file(package="a..b")), (1, file(package="a.")),
    (1, file(package=".a")), (1, extension(".M")), (1, extension("")), (1, extension(kind=11, path="")), (1, extension(kind=11, path=".M")),
    # numbers, types, labels
    (1, extension(kind=11)), (1, extension(kind=10)), (0, extension(kind=10, path="M")), (0, extension(kind=14, path="M")),
    (1, extension(kind=12, path="M")), (1, extension(kind=13, path="M")), (1, extension(number=0)), (0, extension(number=536870911)),
    (1, extension(number=536870912)), (1, extension(label=0)), (0, extension(label=3)), (1, extension(label=4)), (1, extension(kind=0)),
    (0, extension(kind=18)), (1, extension(kind=19)), (1, file(f(3, f(0x11, "x") + shape()))),
    (1, file(message(f(5, f(0x11, "x") + f(0x12, "M") + shape())))),
    (1, file(f(3, f(0x11, "x") + f(0x12, "M") + shape() + f(0x15, b"\1")))),
]

REQUESTS = [
    # the examples of the rule
    (3, of(lists(16, YES))), (2, request(kind="a.")), (0, pair(f(0x29, "/" * 255))), (2, pair(f(0x29, "/" * 256))),
    # limits: at the figure, past it, and what stands before it
    (2, bytes(8192)), (3, bytes(8193)), (0, request(option() * 128)), (3, request(option() * 129)), (2, request(option() * 128 + f(9))),
    (2, request(option() * 128 + b"\x08\0\1")), (3, request(option() * 128 + f(8))), (0, request(option(X * 16))),
    (3, request(option(X * 17))),
    (3, request(option(X * 16 + f(0x1A, "9")))), (2, request(option(X * 15 + f(0x1A, "9") + X))), (2, request(f(8, X * 16 + b"\x1a\0\5x"))),
    (2, request(f(8, X * 16))), (3, request(f(8, X * 17))), (0, of(lists(15, YES))), (2, of(lists(16, f(0x30)))),
    (2, of(lists(16, f(0x27, "x")))),
    (2, of(lists(16, b"\x20\0\2\1"))), (3, of(lists(16, f(0x20, b"\2")))), (0, of(lists(16, b""))), (3, of(lists(17, b""))),
    (0, of(messages(15, YES))), (3, of(messages(16, YES))), (3, of(lists(16, YES) + X)), (2, of(lists(15, f(0x26, f(0x27, "9") + YES)))),
    (3, of(lists(15, f(0x26, f(0x27, "x") + YES)))), (2, of(lists(15, f(0x26, f(0x27, "x"))))), (3, pair(f(0x28, "x"), lists(15, YES))),
    # containers
    (2, b""), (0, request()), (2, f(0x18)), (2, f(0x19, "a") + f(0x18)), (2, request(f(0x19, "a"))), (2, request(f(8, YES))),
    (2, request(f(8))),
    (2, of(YES + X)), (2, of(YES + YES)), (0, of(KINDS)), (0, of(f(0x26))), (0, of(f(0x2A))), (2, pair(f(0x27, "x"), f(0x27, "y"))),
    (2, pair(f(0x29, "x"), f(0x20, b"\2"))),
    # names and paths
    (2, request(kind="")), (2, request(kind=".a")), (2, request(scope=".a")), (0, request(scope="a.b")), (0, part(".x")), (2, part(".")),
    (2, part("..x")), (2, part("")), (0, part("." + LONG[:-1])), (2, part("." + LONG)), (2, part("a.b", 0x1A)), (2, part(".x", 0x1A)),
    (2, of(f(0x25, "a.b"))), (2, pair(f(0x27, "a.b"))), (2, pair(f(0x28, ".x"))), (2, pair(f(0x29))),
    # values
    (2, of(f(0x20, b"\2"))), (2, of(f(0x20))), (2, of(f(0x21, bytes(7)))), (2, of(f(0x22, bytes(9)))), (2, of(f(0x23, bytes(4)))),
]

# What came later stands last, so that the answers to all before it stay where they are.
LATER = [
    # a bad name of an extension, a field, an enum and a value: "a letter or `_`, then letters, digits or `_`"
    (1, extension(name="9"), None), (1, file(message(field(name="9"))), None), (1, file(enum(name="9")), None),
    (1, file(enum(value(name="9"))), None),
    # a 17 of three bytes: "17 signed number (4 bytes)"
    (1, file(enum(value(bytes(3)))), None),
    # types 9 and 15 have no type path: "exactly for types 10, 11, 14"
    (0, extension(kind=9), None), (0, extension(kind=15), None), (0, file(message(field(kind=9) + field(kind=15))), None),
    # an empty 28: "only package and scope be empty"
    (2, b"", pair(f(0x28))),
    # 2B is no constant
    (2, b"", of(f(0x2B))), (2, b"", of(f(0x2A, f(0x2B)))),
]


def cases():
    for answer, *inputs in SHEETS:
        yield answer, inputs[0], inputs[1] if len(inputs) > 1 else None
    for answer, q in REQUESTS:
        yield answer, b"", q
    # the sheet is answered first
    yield 1, b"\1", bytes(8193)
    yield from LATER


def texts():
    digits, lines = [], []
    for answer, s, q in cases():
        told = form.expected(s, q)
        assert told[0] == "answer %d" % answer, (answer, told, s[:40].hex(), None if q is None else q[:40].hex())
        lines += told
        text = (f(0x40, s) + (b"" if q is None else f(0x41, q))).hex()
        digits += [text[i : i + 120] for i in range(0, len(text), 120)]
    return "\n".join(digits) + "\n", "\n".join(lines) + "\n"


def main():
    for name, text in zip(("stdin", "stdout"), texts()):
        path = "crates/optcheck/" + name
        if sys.argv[1:] == ["write"]:
            open(path, "w").write(text)
        print("%s: %s" % (path, "these cases" if open(path).read() == text else "OTHER CASES"))
    print("%d cases" % len(list(cases())))


if __name__ == "__main__":
    main()
