#!/usr/bin/env python3
"""The cases of optquery's stored test that say where a name is refused, each with its answer, written by hand from 01 and the readings in
docs/DECISIONS.md.

usage: query_cases.py [write]

Shows whether crates/optquery/stdin and stdout have these cases, behind the first 32, or puts them there. The second implementation has to
give the same to every case that is stored.
"""
import sys

from examples import ext, field, file, message, opt
from listing import groups
from options_reader import NAMES, Query, Sheet
from sheets import f
from steps import fields

STORED, FIRST = "crates/optquery/", 32
# o.F with `v` (uint32), itself as `m`, messages that are not there and there twice, a group; `(p.x)` is of o.F, `(p.y)` of o.G
SHEET = file("o", message("F", field("v", 1), field("m", 2, 11, "o.F"), field("n", 3, 11, "none"), field("t", 4, 11, "p.T"),
                          field("g", 5, 10, "none")), message("G"))
SHEET += file("p", ext("x", 6, 11, "o.F"), ext("y", 7, on="o.G"), message("T")) + file("p", message("T"))
V, NO, BAD, NO_TYPE = b"\x08\x07", b"", b"\x08", b"\x1a\x00"

# the name, a part in brackets an extension; the bytes, the reply, and the part where there is one
CASES = [
    ("v.w", V, 6, 0),
    ("m.v.w", V, 6, 1),
    ("m.(p.x).m.v.w", NO, 6, 3),
    ("n.v", NO, 7, 0),
    ("m.n.v", NO, 7, 1),
    ("m.m.t.v", NO, 8, 2),
    ("none", V, 9, 0),
    ("m.none.v", V, 9, 1),
    ("(p.x)." + "m." * 14 + "none", NO, 9, 15),
    ("(x)", V, 4, 0),
    ("m.m.(.p.none).v", NO, 4, 2),
    ("m.(.p.y)", NO, 5, 1),
    # the rest is unread on a group
    ("m.g.none", NO, 0, None),
    # the bytes come before the name, and the options type and the name's form before them
    ("none", BAD, 18, None),
    ("none", b"\x09" + bytes(8), 19, None),
    ("none", NO_TYPE, 7, None),
    ("m." * 16 + "v", BAD, 3, None),
]


def lines(reply, part):
    return ["answer %d" % reply, NAMES[reply] if reply else "absent"] + (["part %d" % part] if part is not None else [])


def own():
    """Input and output of these cases, each as lines."""
    digits, told = [], []
    for text, data, reply, part in CASES:
        spelt = (f(0x40, SHEET) + f(0x44, b"o.F") + f(0x46, opt(text, b"")[3:]) + f(0x45, data)).hex().upper()
        digits += [spelt[i : i + 120] for i in range(0, len(spelt), 120)]
        told += lines(reply, part)
    return digits, told


def stored():
    return [open(STORED + name).read().splitlines() for name in ("stdin", "stdout")]


def asked(digits):
    """The cases of an input, each as the line that it starts at and what the second implementation says."""
    data, at = bytes.fromhex("".join(digits)), 0
    starts = {}
    for n, line in enumerate(digits):
        starts[at], at = n, at + len(line) // 2
    at, payloads = 0, []
    for tag, payload in fields(data):
        if tag == 0x40:
            start = starts[at]
        payloads.append(payload)
        at += 3 + len(payload)
        if len(payloads) == 4:
            sheet, kind, name, data = payloads
            yield start, Query(Sheet(sheet), kind, name, data).lines()
            payloads = []


def main():
    own_digits, own_told = own()
    digits, told = stored()
    there = "\n".join(own_digits) in "\n".join(digits) and "\n".join(own_told) in "\n".join(told)
    if sys.argv[1:] == ["write"] and not there:
        row = list(asked(digits))[FIRST][0]
        lead = sum(len(group) for group in groups("\n".join(told))[:FIRST])
        digits, told = digits[:row] + own_digits + digits[row:], told[:lead] + own_told + told[lead:]
        for name, text in (("stdin", digits), ("stdout", told)):
            open(STORED + name, "w").write("\n".join(text) + "\n")
        there = True
    second = [line for _, answer in asked(digits) for line in answer]
    print("%d cases, %s; %d stored, %s" % (len(CASES), "stored" if there else "NOT STORED", len(groups("\n".join(told))),
                                           "the second implementation says the same" if second == told else "ANOTHER ANSWER"))
    sys.exit(0 if there and second == told else 1)


if __name__ == "__main__":
    main()
