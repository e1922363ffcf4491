#!/usr/bin/env python3
"""Writes the stored input and output of `optevolve`: python3 compare/evolve_cases.py, from the root of the repository.

First the story of the README and the counterexamples of evolve.py, whose lines are the second implementation's; then cases with their lines
written by hand from the rules; last an input that is no such field.
"""
import pathlib

import evolve
from examples import *
from sheets import f

P1S, P1R = map(bytes.fromhex, P1)
CASES = []
def case(older, newer, text, request=None):
    CASES.append((older, newer, request, text.strip("\n") + "\n"))

YES = "answer 0\nclean yes\nclean yes\ncontained yes\n"
# ---- yes
case(P1S, P1S, YES)
case(b"", b"", YES)
# labels, values and where an extension stands may differ
case(file("p", ext("x", 5), message("M", field("a", 1)), enum("E", A=0)) + F,
     file("p", message("N", ext("x", 5)), message("M", field("a", 1, label=3)), enum("E", A=1, B=2)) + F, YES)
# ---- the new options that the old does not know
case(P1S, TWO, YES + r"""
answer 0
bytes 28073009
answer 0
record 0 5 13 0 1 1 7 0
record 0 6 0 0 3 1 0 0
  (p.x) 5 uint32 = 7
  ? 6 varint
  (p.x) 5 uint32 = 7 | (p.x) 5 uint32 = 7
  (p.y) 6 uint32 = 9 | ? 6 varint
""".lstrip("\n"), asked(opt("(x)", u(7)), opt("(y)", u(9))))
LIMIT = ext("limit", 50003, 11, "plant.Limits", on=FIELD)
case(file("plant", LIMIT, message("Limits", field("low", 1, 17))) + GOOGLE,
     file("plant", LIMIT, ext("note", 50004, 11, "plant.Note", on=FIELD),
          message("Limits", field("low", 1, 17), field("grade", 2, 14, "plant.Grade"), field("inner", 3, 11, "plant.Limits")),
          message("Note", field("text", 1, 9)), enum("Grade", FINE=1)) + GOOGLE,
     YES + r"""
answer 0
bytes 9AB51808080310011A020802A2B518050A036E6577
answer 0
record 0 50003 11 2 4 8 0 0
record 1 1 17 0 5 1 4294967294 4294967295
record 1 2 0 0 7 1 0 0
record 1 3 0 2 10 2 0 0
record 0 50004 0 2 16 5 0 0
  (plant.limit) 50003 plant.Limits
    low 1 sint32 = -2
    ? 2 varint
    ? 3 len
  ? 50004 len
  (plant.limit) 50003 plant.Limits | (plant.limit) 50003 plant.Limits
    low 1 sint32 = -2 | low 1 sint32 = -2
    grade 2 plant.Grade = FINE | ? 2 varint
    inner 3 plant.Limits | ? 3 len
      low 1 sint32 = 1 | -
  (plant.note) 50004 plant.Note | ? 50004 len
    text 1 string = "new" | -
""".lstrip("\n"),
     asked(opt("(limit)", pairs("low", i(-2), "grade", name("FINE"), "inner", pairs("low", u(1)))), opt("(note).text", s("new")),
           scope="plant", kind=FIELD))
# ---- the reasons against clean, of the older and of the newer
A = file("plant", message("F"), enum("F", A=0))
B = file("plant", message("F", field("a", 1), field("a", 2)))
C = file("plant", message("F"), f(4, f(0x11, b"E") + value("A", 0) + value("A", 1)))
D = file("plant", message("F"), ext("x", 5, on="o.G"))
E = file("plant", message("F", field("a", 1), field("b", 1)))
T = file("plant", message("F", field("m", 1, 11, "plant.G")))
case(A, B, """
answer 0
clean no plant.F is declared more than once
clean no plant.F has two fields a
contained no plant.F is no enum of the newer
""")
case(B, C, """
answer 0
clean no plant.F has two fields a
clean no plant.E has two values A
contained no plant.F declares a, which the newer does not declare alike
""")
case(C, D, """
answer 0
clean no plant.E has two values A
clean no plant.x extends o.G, which is no single message
contained no plant.E is no enum of the newer
""")
case(D, E, """
answer 0
clean no plant.x extends o.G, which is no single message
clean no plant.F declares a by a number that is declared again
contained no plant.x declares x, which the newer does not declare alike
""")
case(E, T, """
answer 0
clean no plant.F declares a by a number that is declared again
clean no plant.F has the type path plant.G, which is no single declaration of its kind
contained no plant.F declares a, which the newer does not declare alike
""")
case(T, A, """
answer 0
clean no plant.F has the type path plant.G, which is no single declaration of its kind
clean no plant.F is declared more than once
contained no plant.F declares m, which the newer does not declare alike
""")
# an extension that shares the number of a field; an extendee that two files declare
case(file("plant", ext("x", 5, on="plant.F"), message("F", field("a", 5))), file("plant", ext("x", 5)) + F + F, """
answer 0
clean no plant.x declares x by a number that is declared again
clean no plant.x extends o.F, which is no single message
contained no plant.x declares x, which the newer does not declare alike
""")
# a path to a message where an enum is due; the message is an enum later
case(file("plant", message("F", message("G"), field("e", 1, 14, "plant.F.G"))),
     file("plant", message("F", enum("G", A=0), field("e", 1, 14, "plant.F.G"))), """
answer 0
clean no plant.F has the type path plant.F.G, which is no single declaration of its kind
clean yes
contained no plant.F.G is no message of the newer
""")
# without a package
case(file("", message("F", field("a", 1), field("a", 2))), file("", message("F", field("a", 1), field("b", 2))), """
answer 0
clean no F has two fields a
clean yes
contained no F declares a, which the newer does not declare alike
""")
# ---- the reasons against contained, of clean sheets
case(file("a.b", message("M", message("N"))), file("a.b", message("M")), """
answer 0
clean yes
clean yes
contained no a.b.M.N is no message of the newer
""")
case(file("plant", enum("E", A=0)), file("plant", message("E")), """
answer 0
clean yes
clean yes
contained no plant.E is no enum of the newer
""")
case(file("plant", message("F", field("a", 1), field("b", 2))), file("plant", message("F", field("a", 1), field("b", 2, 5))), """
answer 0
clean yes
clean yes
contained no plant.F declares b, which the newer does not declare alike
""")
# ---- sheets that are refused, the older first; no request is answered then
NINE = b"".join(file("p") for _ in range(9))
BAD = "answer 1\nBadSheet\n"
BEYOND = "answer 3\nBeyondLimit\n"
case(b"\1", P1S, BAD)
case(P1S, b"\1", BAD, P1R)
case(NINE, b"\1", BEYOND, P1R)
case(b"\1", NINE, BAD)
case(P1S, NINE, BEYOND)
# ---- requests without bytes
case(P1S, P1S, YES + "answer 4\nExtensionNotFound\noption 0 part 0\n", asked(opt("(z)", u(7))))
# at an option and a part further on, and with neither, of the options type
case(P1S, P1S, YES + "answer 6\nExtensionIsNotMessage\noption 1 part 0\n", asked(opt("(x)", u(7)), opt("(x).v", u(7))))
case(NESTED, NESTED, YES + "answer 9\nUnknownFieldName\noption 2 part 3\n",
     asked(opt("(m)", pairs()), opt("(m).r.v", u(1)), opt("(m).r.r.none", u(1))))
case(P1S, P1S, YES + "answer 7\nMessageNotFound\n", asked(opt("(x)", u(7)), kind="o.G"))
case(P1S, P1S, YES + "answer 2\nBadRequest\n", b"\1")
case(P1S, P1S, YES + "answer 0\nabsent\n", asked())
# ---- and with bytes that are empty
case(GOOGLE, GOOGLE, YES + "answer 0\nbytes\nanswer 0\n", asked(opt("default", u(7)), **DISPATCH))
# ---- bytes that the older refuses
case(b"", P1S, YES + "answer 0\nbytes 2807\nanswer 7\nMessageNotFound\n", P1R)
case(file("p", ext("x", 5, 9)) + F, P1S, """
answer 0
clean yes
clean yes
contained no p.x declares x, which the newer does not declare alike
answer 0
bytes 2807
answer 19
WireMismatch
""", P1R)
# ---- sheets that differ: a name; a message of which the newer knows no inside; a record that the newer refuses
case(own(field("a", 1, 8)), own(field("b", 1, 8)), """
answer 0
clean yes
clean yes
contained no o.F declares a, which the newer does not declare alike
answer 0
bytes 0801
answer 0
record 0 1 8 0 1 1 1 0
  a 1 bool = true
  b 1 bool = true | a 1 bool = true
""", asked(opt("b", yes())))
M = message("M", field("v", 1))
case(file("p", ext("x", 5, 11, "p.M"), ext("y", 6), M) + F, file("p", ext("x", 5, 12), ext("y", 6), M) + F, r"""
answer 0
clean yes
clean yes
contained no p.x declares x, which the newer does not declare alike
answer 0
bytes 2A0208013002
answer 0
record 0 5 11 2 2 2 0 0
record 1 1 13 0 3 1 1 0
record 0 6 13 0 5 1 2 0
  (p.x) 5 p.M
    v 1 uint32 = 1
  (p.y) 6 uint32 = 2
  (p.x) 5 bytes = "\010\001" | (p.x) 5 p.M
    - | v 1 uint32 = 1
  (p.y) 6 uint32 = 2 | (p.y) 6 uint32 = 2
""", asked(opt("(x)", s(b"\x08\x01")), opt("(y)", u(2))))
case(file("p", ext("w", 6), ext("z", 5)) + F, file("p", ext("w", 6), ext("x", 5, 9), ext("z", 5)) + F, """
answer 0
clean yes
clean no p.x declares x by a number that is declared again
contained yes
answer 0
bytes 30012807
answer 0
record 0 6 13 0 1 1 1 0
record 0 5 13 0 3 1 7 0
  (p.w) 6 uint32 = 1
  (p.z) 5 uint32 = 7
  (p.w) 6 uint32 = 1 | (p.w) 6 uint32 = 1
  - | (p.z) 5 uint32 = 7
""", asked(opt("(w)", u(1)), opt("(z)", u(7))))
# ---- after the newer sheet: 41, 40 or the end
case(b"", b"", YES)

# ---- the story of the README
STORY = YES + r"""
answer 0
bytes 90B51807A2B518026B579AB5180408011005
answer 0
record 0 50002 13 0 3 1 7 0
record 0 50004 0 2 8 2 0 0
record 0 50003 11 2 14 4 0 0
record 1 1 13 0 15 1 1 0
record 1 2 0 0 17 1 0 0
  (plant.Dispatch.order) 50002 uint32 = 7
  ? 50004 len
  (plant.limits) 50003 plant.Limits
    low 1 uint32 = 1
    ? 2 varint
  (plant.Dispatch.order) 50002 uint32 = 7 | (plant.Dispatch.order) 50002 uint32 = 7
  (plant.unit) 50004 string = "kW" | ? 50004 len
  (plant.limits) 50003 plant.Limits | (plant.limits) 50003 plant.Limits
    low 1 uint32 = 1 | low 1 uint32 = 1
    high 2 uint32 = 5 | ? 2 varint
""".lstrip("\n")


def stored():
    """(bytes, lines) of each case."""
    yield bytes.fromhex(pathlib.Path("examples/evolve.hex").read_text()), STORY
    for _, example in evolve.counterexamples():
        yield bytes.fromhex(example.hex()), "".join(line + "\n" for line in example.lines())
    for older, newer, request, text in CASES:
        yield f(0x40, older) + f(0x40, newer) + (f(0x41, request) if request is not None else b""), text


def main():
    digits, answers, size = [], [], 0
    for whole, text in stored():
        spelt = whole.hex().upper()
        digits += [spelt[k : k + 120] for k in range(0, len(spelt), 120)]
        answers.append(text)
        size += len(whole)
    digits.append(f(0x42).hex().upper())
    answers.append("input: byte %d: a field of tag 42, where tag 40 is due\n" % size)
    crate = pathlib.Path("crates/optevolve")
    (crate / "stdin").write_text("\n".join(digits) + "\n")
    (crate / "stdout").write_text("".join(answers))
    print(len(answers) - 1, "cases")


main()
