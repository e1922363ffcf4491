#!/usr/bin/env python3
"""The cases of optfind's stored test, each with its answer or the number that it finds, written by hand from 01 and the readings in
docs/DECISIONS.md.

usage: finds.py [write]

Says whether crates/optfind/stdin and stdout are these cases, or writes them; run it from the root of the repository. The other lines of a
case that finds an extension (its name, its places) are taken from search.py, which has to find the number that stands here.
"""
import struct
import sys

import search
from search import f

FIELD, MESSAGE = b"google.protobuf.FieldOptions", b"google.protobuf.MessageOptions"


def file(package, *items):
    return f(1, f(0x10, package) + b"".join(items))


def message(name, *items):
    return f(2, f(0x11, name) + b"".join(items))


def ext(name, number, extendee=FIELD, kind=13, label=1, path=None):
    shape = f(0x13, struct.pack(">I", number)) + f(0x14, bytes([kind])) + f(0x15, bytes([label]))
    return f(3, f(0x11, name) + f(0x12, extendee) + shape + (f(0x16, path) if path else b""))


def enum(name):
    return f(4, f(0x11, name))


def field(name, number):
    return f(5, f(0x11, name) + f(0x13, struct.pack(">I", number)) + f(0x14, b"\x0d") + f(0x15, b"\1"))


def deep(names, inside):
    for name in reversed(names):
        inside = message(name, inside)
    return inside


GOOGLE = file(b"google.protobuf", message(b"FieldOptions"), message(b"MessageOptions"))
P1 = bytes.fromhex("01002010000170030019110001781200036F2E46130004000000051400010D1500010101000B1000016F02000411000146")
RANKS = file(b"plant", ext(b"rank", 50001), message(b"Dispatch", ext(b"rank", 50002))) + GOOGLE
OTHER = file(b"plant", ext(b"rank", 50001), message(b"Dispatch", ext(b"rank", 50002, MESSAGE))) + GOOGLE
NONE = file(b"plant", message(b"Dispatch")) + GOOGLE
CROSSED = file(b"a.b", ext(b"x", 101)) + file(b"a", message(b"b", ext(b"x", 102))) + GOOGLE
LONG = b".".join([b"a" * 63] * 4)
LETTERS = [b"a", b"b", b"c", b"d", b"e", b"f", b"g", b"h", b"i", b"j", b"k", b"l", b"m", b"n", b"o", b"p"]

DEEP = file(LONG, deep([b"a" * 63] * 3, ext(b"a" * 63, 77)))

# the answer's number, sheet, scope, path
REFUSED = [
    (1, b"\1", b"", b"x"), (3, bytes(32769), b"", b"x"), (1, b"\1", b".", b"."), (2, b"", b".", b"x"), (2, b"", b"", b""),
    (2, b"", b"", b"."), (2, b"", b"", b"..x"), (2, b"", b"", b"x."), (2, b"", b"a..b", b"x"), (2, RANKS, b".plant", b"rank"),
    (2, b"", b"", LONG + b"a"), (4, b"", b"", LONG), (4, b"", LONG, LONG), (2, b"", LONG + b"a", b"x"), (4, b"", b"", b"x"),
    (4, b"", b"a.b", b"x"), (4, NONE, b"plant.Dispatch", b"rank"), (4, RANKS, b"plant.Dispatch", b".rank"),
    (4, RANKS, b"plant.Dispatch", b".plant"), (4, RANKS, b"", b"plant.Dispatch"), (4, RANKS, b"", b"rank"),
    (4, RANKS, b"plant.Dispatch", b".Dispatch.rank"), (4, RANKS, b"plan", b"rank"), (4, RANKS, b"", b"plant.Dispatch.rank.rank"),
    (4, file(b"", message(b"M", field(b"x", 1))), b"M", b"x"), (4, file(b"", enum(b"x")), b"", b"x"),
    (3, file(b"", deep(LETTERS + [b"q"], ext(b"x", 1))), b"", b"x"),
    (4, file(b"a.b", ext(b"x", 1)), b"", b"a.x"), (4, file(b"ab", ext(b"x", 1)), b"", b"a.b.x"),
]
# the number of the extension that is found, sheet, scope, path
FOUND = [
    (5, P1, b"p", b"x"), (5, P1, b"", b".p.x"), (5, P1, b"", b"p.x"), (5, P1, b"p.q.r", b"x"), (5, P1, b"q", b"p.x"),
    (50002, RANKS, b"plant.Dispatch", b"rank"), (50001, RANKS, b"plant.Dispatch", b".plant.rank"), (50001, RANKS, b"plant.Other", b"rank"),
    (50001, RANKS, b"plant", b"rank"), (50002, RANKS, b"plant", b"Dispatch.rank"), (50002, RANKS, b"", b".plant.Dispatch.rank"),
    (50002, RANKS, b"plant.Dispatch.Inner", b"rank"), (50001, RANKS, b"plant.Dispatch", b"plant.rank"),
    # found first, tested second: the extendee is no part of the search
    (50002, OTHER, b"plant.Dispatch", b"rank"),
    # fewest package components, then file order
    (102, CROSSED, b"", b".a.b.x"), (102, CROSSED, b"a.b", b"x"), (102, CROSSED, b"", b"a.b.x"),
    (1, file(b"a", ext(b"x", 1)) + file(b"a", ext(b"x", 2)), b"", b"a.x"),
    (2, file(b"a", ext(b"y", 1)) + file(b"a", ext(b"x", 2)), b"", b"a.x"),
    (2, file(b"a.b", ext(b"x", 1)) + file(b"", message(b"a", message(b"b", ext(b"x", 2)))) + file(b"a", message(b"b", ext(b"x", 3))),
     b"a.b", b"x"),
    (3, file(b"a.b", ext(b"x", 1)) + file(b"", message(b"a", message(b"b"))) + file(b"a", message(b"b", ext(b"x", 3))), b"a.b", b"x"),
    (1, file(b"a.b", ext(b"x", 1)) + file(b"", message(b"a", message(b"b"))) + file(b"a", message(b"b")), b"a.b", b"x"),
    # the first of a name is followed, and decides
    (1, file(b"", message(b"M", ext(b"x", 1)), message(b"M", ext(b"x", 2))), b"M", b"x"),
    (9, file(b"", message(b"M"), message(b"M", ext(b"x", 2)), ext(b"x", 9)), b"M", b"x"),
    (1, file(b"", ext(b"x", 1, MESSAGE), ext(b"x", 2, FIELD)), b"", b"x"),
    # the innermost path wins over the order of the bytes
    (2, file(b"", ext(b"x", 1), message(b"M", ext(b"x", 2))), b"M", b"x"),
    (2, file(b"", ext(b"x", 1)) + file(b"M", ext(b"x", 2)), b"M.N", b"x"),
    (1, file(b"", ext(b"x", 1), message(b"M", ext(b"x", 2))), b"M", b".x"),
    # a name of an extension, a message and a package may be the same
    (3, file(b"x", ext(b"x", 1), message(b"x", ext(b"x", 3))), b"x", b"x.x"),
    # type paths, labels, depth
    (7, file(b"p", ext(b"x", 7, FIELD, 11, 3, b"o.F")), b"p", b"x"), (7, file(b"p", ext(b"x", 7, FIELD, 14, 2, b"o.E")), b"p", b"x"),
    (536870911, file(b"", deep(LETTERS, ext(b"x", 536870911))), b".".join(LETTERS), b"x"),
    (4, file(b"", deep(LETTERS, ext(b"y", 3)), ext(b"x", 4)), b".".join(LETTERS), b"x"),
    # the longest candidate, 511 bytes
    (77, DEEP, LONG, LONG),
]
# the index of the file, by hand too: sheet, scope, path, index
FILES = [
    (CROSSED, b"", b".a.b.x", 1), (P1, b"p", b"x", 0), (file(b"") + file(b"a") + file(b"a", ext(b"x", 2)), b"a", b"x", 2),
    (file(b"b", ext(b"x", 1)) + file(b"", ext(b"x", 2)), b"", b"x", 1),
]


def cases():
    for answer, *case in REFUSED:
        yield "answer %d" % answer, 0, case
    for number, *case in FOUND:
        yield "number %d" % number, 2, case
    for *case, index in FILES:
        yield "file %d" % index, -2, case


def texts():
    digits, lines = [], []
    for want, row, (s, scope, path) in cases():
        told = search.expected(s, scope, path)
        assert len(told) > 2 or row == 0, (want, told)
        assert told[row] == want, (want, told, s.hex(), scope, path)
        lines += told
        text = (f(0x40, s) + f(0x42, scope) + f(0x43, path)).hex()
        digits += [text[i : i + 120] for i in range(0, len(text), 120)]
    return "\n".join(digits) + "\n", "\n".join(lines) + "\n"


def main():
    other = False
    for name, text in zip(("stdin", "stdout"), texts()):
        path = "crates/optfind/" + name
        if sys.argv[1:] == ["write"]:
            open(path, "w").write(text)
        same = open(path).read() == text
        other = other or not same
        print("%s: %s" % (path, "these cases" if same else "OTHER CASES"))
    print("%d cases" % len(list(cases())))
    sys.exit(1 if other else 0)


if __name__ == "__main__":
    main()
