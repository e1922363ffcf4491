"""Examples of the resolver, each with its answer worked out by hand from 01, the readings in docs/DECISIONS.md or the document that is
named above it: the first cases of optlower's stored test. `compare/resolve.py list` compares them with the second implementation.

An example is a sentence, a sheet, a request and the answer: `at` with a number, the positions of the option and of the part that are not 0,
and a second word where it is not 0; a number alone for a refusal that has no position; "absent", or the bytes in hexadecimal.
"""
import re
import struct

from sheets import f

FIELD, MESSAGE = "google.protobuf.FieldOptions", "google.protobuf.MessageOptions"


# ---- sheets
def file(package, *items):
    return f(1, f(0x10, package.encode()) + b"".join(items))


def message(name, *items):
    return f(2, f(0x11, name.encode()) + b"".join(items))


def shape(number, kind, label, path):
    leaves = f(0x13, struct.pack(">I", number)) + f(0x14, bytes([kind])) + f(0x15, bytes([label]))
    return leaves + (f(0x16, path.encode()) if path else b"")


def ext(name, number, kind=13, path=None, on="o.F", label=1):
    return f(3, f(0x11, name.encode()) + f(0x12, on.encode()) + shape(number, kind, label, path))


def field(name, number, kind=13, path=None, label=1):
    return f(5, f(0x11, name.encode()) + shape(number, kind, label, path))


def enum(name, **values):
    return f(4, f(0x11, name.encode()) + b"".join(value(n, number) for n, number in values.items()))


def value(name, number):
    return f(6, f(0x11, name.encode()) + f(0x17, struct.pack(">i", number)))


# ---- requests
def yes(b=1):
    return f(0x20, bytes([b]))


def u(n):
    return f(0x21, struct.pack(">Q", n))


def i(n):
    return f(0x22, struct.pack(">q", n))


def bits(digits):
    return f(0x23, bytes.fromhex(digits))


def s(text):
    return f(0x24, text if isinstance(text, bytes) else text.encode())


def name(text):
    return f(0x25, text.encode())


def pairs(*both):
    """{v: 1}: names and constants in turn; `[a.b]` is an extension, `[t/a.b]` a type URL."""
    out = b""
    for by, constant in zip(both[::2], both[1::2]):
        tag = 0x27 if by[0] != "[" else 0x29 if "/" in by else 0x28
        out += f(tag, by.strip("[]").encode()) + constant
    return f(0x26, out)


def many(*constants):
    return f(0x2A, b"".join(constants))


def opt(text, constant):
    """`(.a.x).v`: a part in brackets is an extension."""
    parts = re.findall(r"\(([^)]*)\)|([^.()]+)", text)
    return f(8, b"".join(f(0x1B, e.encode()) if e else f(0x1A, d.encode()) for e, d in parts) + constant)


def asked(*options, scope="p", kind="o.F"):
    return f(0x18, scope.encode()) + f(0x19, kind.encode()) + b"".join(options)


# ---- answers
def at(reply, option=0, part=0, second=0):
    return reply, second, option, part


# ---- sheets that many examples share
P1 = (
    "01002010000170030019110001781200036F2E46130004000000051400010D1500010101000B1000016F02000411000146",
    "180001701900036F2E4608000F1B0001782100080000000000000007",
)
# the sheet of P2 and of scope plant two options, `(rank)` = 7 and `(rank).x` = 7
RANKS = (
    "010086100005706C616E7403003511000472616E6B12001C676F6F676C652E70726F746F6275662E4669656C644F7074696F6E731300040000"
    "C3511400010D15000101020043110008446973706174636803003511000472616E6B12001C676F6F676C652E70726F746F6275662E4669656C644F70"
    "74696F6E731300040000C3521400010D1500010101003810000F676F6F676C652E70726F746F62756602000F11000C4669656C644F7074696F6E7302"
    "001111000E4D6573736167654F7074696F6E73",
    "180005706C616E7419001C676F6F676C652E70726F746F6275662E4669656C644F7074696F6E73"
    "0800121B000472616E6B2100080000000000000007" "0800161B000472616E6B1A0001782100080000000000000007",
)
GOOGLE = file("google.protobuf", message("FieldOptions"), message("MessageOptions"))


def plant(*outer, inner=FIELD):
    dispatch = message("Dispatch", ext("rank", 50002, on=inner)) if inner else message("Dispatch")
    return file("plant", *outer, dispatch) + GOOGLE


RANK = ext("rank", 50001, on=FIELD)
DISPATCH = dict(scope="plant.Dispatch", kind=FIELD)
F = file("o", message("F"))


def one(kind, path=None, **more):
    """An extension `x` of o.F, number 5, of this type, in package p, which also has a message M with `v` (uint32, 1) and an enum E."""
    body = [message("M", field("v", 1)), enum("E", A=0, B=-1, C=300)] if path else []
    return file("p", ext("x", 5, kind, path, **more), *body) + F


def own(*fields, more=()):
    """o.F with these fields of its own, and in o an enum E."""
    return file("o", message("F", *fields), enum("E", A=0, B=-1, C=300), *more)


def x(constant, kind, path=None, **more):
    return one(kind, path, **more), asked(opt("(x)", constant))


def numbered(number, constant, kind):
    return file("p", ext("x", number, kind)) + F, asked(opt("(x)", constant))


def builtin(constant, *fields, more=()):
    return own(*fields, more=more), asked(*[opt("b", c) for c in (constant if isinstance(constant, list) else [constant])])


BACK = message("R", field("r", 1, 11, "p.R"), field("v", 2), field("w", 3, 9), field("g", 4, 10, "p.R"))
NESTED = file("p", ext("m", 7, 11, "p.R"), BACK) + F
TWO = file("p", ext("x", 5), ext("y", 6)) + F
INNER = file("p", ext("m", 7, 11, "p.R"), ext("y", 9, on="p.R"), message("R", ext("y", 8, on="p.R"))) + F
LOST = file("p", ext("m", 7, 11, "p.M"), message("M", field("n", 1, 11, "none"), field("t", 2, 11, "p.T")), message("T"))
LOST += file("p", message("T")) + F
EVERY = (yes(), u(1), i(-1), bits("7FF8000000000000"), s(b"\xff"), name("A"), pairs("a", u(1)), many(yes()))

CASES = [
    # ---- 01's examples
    ("P1", bytes.fromhex(P1[0]), bytes.fromhex(P1[1]), "2807"),
    ("P2: the innermost `rank` answers", plant(RANK), asked(opt("(rank)", u(7)), **DISPATCH), "90B51807"),
    ("P3: an absolute name has one candidate", plant(RANK), asked(opt("(.plant.rank)", u(7)), **DISPATCH), "88B51807"),
    ("P4: an undeclared scope has parents all the same", plant(RANK), asked(opt("(rank)", u(7)), scope="plant.Other", kind=FIELD),
     "88B51807"),
    ("P5: what is found first decides, and is of another message", plant(RANK, inner=MESSAGE), asked(opt("(rank)", u(7)), **DISPATCH),
     at(5)),
    ("P6: nothing of that name", plant(inner=None), asked(opt("(rank)", u(7)), **DISPATCH), at(4)),
    ("P7: fewest package components, not file order", file("a.b", ext("x", 101)) + file("a", message("b", ext("x", 102))) + F,
     asked(opt("(.a.b.x)", u(7)), scope=""), "B00607"),
    ("P8: no options", plant(RANK), asked(**DISPATCH), "absent"),
    ("P8: only `default`", plant(RANK), asked(opt("default", u(7)), **DISPATCH), ""),
    ("P9: the greatest uint32", plant(RANK), asked(opt("(.plant.rank)", u(4294967295)), **DISPATCH), "88B518FFFFFFFF0F"),
    ("P9: one more", plant(RANK), asked(opt("(.plant.rank)", u(4294967296)), **DISPATCH), at(14)),
    # ---- Encoding's examples of records
    # Encoding, "A Simple Message": 150 in field 1 is 08 96 01
    ("150 in field 1", *numbered(1, u(150), 5), "089601"),
    # Encoding, "Length-Delimited Records": `testing` in field 2 is 12 07 and 74 65 73 74 69 6e 67
    ("`testing` in field 2", *numbered(2, s("testing"), 9), "120774657374696E67"),
    # Encoding, "Submessages": that simple message in field 3 is 1a 03 and 08 96 01, and so are its bytes
    ("a message in field 3", file("p", ext("x", 3, 11, "p.M"), message("M", field("a", 1, 5))) + F, asked(opt("(x)", pairs("a", u(150)))),
     "1A03089601"),
    ("its bytes in field 3", *numbered(3, s(b"\x08\x96\x01"), 12), "1A03089601"),
    # ---- the order of inputs
    ("the sheet is answered first", b"\1", b"\1", 1),
    ("then the request", b"", b"\1", 2),
    ("an empty sheet and no options", b"", asked(), "absent"),
    ("no options: the options type is judged for form and not looked up", b"", asked(kind="a."), 2),
    ("the options type is looked up before any option", b"", asked(opt("(x)", u(7))), 7),
    ("form comes before the options type", b"", asked(opt("(x)", u(7)), f(8)), 2),
    ("a file of that package is no message", file("o"), asked(opt("(x)", u(7)), kind="o"), 7),
    ("an options type that two files declare", F + F, asked(opt("(x)", u(7))), 8),
    ("two messages of one name in one file are the first", file("o", message("F", field("b", 1, 8)), message("F")), asked(opt("b", yes())),
     "0801"),
    # ---- 19: `default` and `json_name`
    ("the options type is looked up for `default` too", b"", asked(opt("default", u(7)), kind=FIELD), 7),
    ("`default` with a list", GOOGLE, asked(opt("default", many(u(7), yes())), kind=FIELD), ""),
    ("`json_name` with a message", GOOGLE, asked(opt("json_name", pairs("a", yes())), kind=FIELD), ""),
    ("both with every kind of constant", GOOGLE,
     asked(*[opt(n, c) for n in ("default", "json_name") for c in EVERY], kind=FIELD), ""),
    ("`default` is skipped though it is declared", file("google.protobuf", message("FieldOptions", field("default", 1, 8))),
     asked(opt("default", yes()), kind=FIELD), ""),
    ("`default` as the first of two parts is a field", GOOGLE, asked(opt("default.a", yes()), kind=FIELD), at(9)),
    ("`(default)` is an extension", GOOGLE, asked(opt("(default)", yes()), kind=FIELD), at(4)),
    ("`default` on another type is a builtin", GOOGLE, asked(opt("default", yes()), kind=MESSAGE), at(10)),
    ("`default` on another type that has it", own(field("default", 1, 8)), asked(opt("default", yes())), "0801"),
    ("what comes after `default` is judged", GOOGLE, asked(opt("default", yes()), opt("packed", yes()), kind=FIELD), at(10, option=1)),
    # ---- 20: builtins
    ("no such field", *builtin(yes()), at(10)),
    ("an extension is no builtin", file("o", message("F"), ext("b", 1, 8)), asked(opt("b", yes())), at(10)),
    ("a repeated field", *builtin(yes(), field("b", 1, 8, label=3)), at(10, second=1)),
    ("repeated comes before the type", *builtin(yes(), field("b", 1, 11, "none", label=3)), at(10, second=1)),
    ("required is singular", *builtin(yes(), field("b", 1, 8, label=2)), "0801"),
    ("false is written", *builtin(yes(0), field("b", 1, 8)), "0800"),
    ("the empty string is written", *builtin(s(""), field("b", 1, 9)), "0A00"),
    ("an enum by its listed name", *builtin(name("C"), field("b", 1, 14, "o.E")), "08AC02"),
    ("an enum below zero takes ten bytes", *builtin(name("B"), field("b", 1, 14, "o.E")), "08FFFFFFFFFFFFFFFFFF01"),
    ("an enum name that is not listed is 12, not 13", *builtin(name("NONE"), field("b", 1, 14, "o.E")), at(12)),
    ("an enum that is not there", *builtin(name("A"), field("b", 1, 14, "o.D")), at(7)),
    ("the constant's kind comes before the enum", *builtin(yes(), field("b", 1, 14, "o.D")), at(12)),
    ("an enum that two files declare", own(field("b", 1, 14, "o.E")) + file("o", enum("E", A=5)), asked(opt("b", name("A"))), at(8)),
    ("two enums of one name in one file are the first", *builtin(name("A"), field("b", 1, 14, "o.E"), more=[enum("E", A=9)]), "0800"),
    ("a message is no enum", *builtin(name("A"), field("b", 1, 14, "o.F")), at(7)),
    ("the first value of a name counts",
     file("o", message("F", field("b", 1, 14, "o.E")), f(4, f(0x11, b"E") + value("A", 1) + value("A", 2))), asked(opt("b", name("A"))),
     "0801"),
    ("the first field of a name counts", *builtin(yes(), field("b", 2, 8), field("b", 1, 9)), "1001"),
    ("an integer on a bool", *builtin(u(1), field("b", 1, 8)), at(12)),
    ("an identifier on a bool", *builtin(name("true"), field("b", 1, 8)), at(12)),
    ("a string on an enum", *builtin(s("A"), field("b", 1, 14, "o.E")), at(12)),
    ("a string on bytes", *builtin(s("A"), field("b", 1, 12)), at(12)),
    ("an integer on an int32", *builtin(u(1), field("b", 1, 5)), at(12)),
    ("a float on a double", *builtin(bits("3FF8000000000000"), field("b", 1, 1)), at(12)),
    ("a message constant on a message", *builtin(pairs(), field("b", 1, 11, "o.F")), at(12)),
    ("a list on a bool", *builtin(many(yes()), field("b", 1, 8)), at(12)),
    ("an empty list on a bool", *builtin(many(), field("b", 1, 8)), at(12)),
    ("a string that is not UTF-8", *builtin(s(b"\xff"), field("b", 1, 9)), at(15)),
    ("of one number set twice the last holds", *builtin([yes(), yes(0)], field("b", 1, 8)), "0800"),
    ("one that is set again is still judged", *builtin([u(1), yes(0)], field("b", 1, 8)), at(12)),
    ("two fields of one number", own(field("a", 1, 8), field("b", 1, 9)), asked(opt("a", yes()), opt("b", s("q"))), "0A0171"),
    ("builtins by rising number, then the rest in order of writing",
     file("p", ext("x", 5), ext("y", 6)) + own(field("a", 300, 8), field("b", 2, 8)),
     asked(opt("(y)", u(1)), opt("a", yes()), opt("(x)", u(2)), opt("b", yes(0))), "1000E0120130012802"),
    ("the first refused option ends the work", file("p", ext("x", 5)) + own(field("b", 2, 8)),
     asked(opt("b", yes()), opt("(z)", u(1)), opt("c", yes())), at(4, option=1)),
    # ---- names
    ("the first part is a field, another is inside it", own(field("m", 3, 11, "o.F"), field("b", 1, 8)), asked(opt("m.b", yes())),
     "1A020801"),
    ("a direct part sees no extension", file("p", ext("x", 5, 11, "o.F")) + F, asked(opt("x.y", yes())), at(9)),
    ("a field inside that is not there", NESTED, asked(opt("(m).none", u(1))), at(9, part=1)),
    ("inside, a single direct part is no builtin", NESTED, asked(opt("(m).v", u(300))), "3A0310AC02"),
    ("three messages deep", NESTED, asked(opt("(m).r.r.v", u(1))), "3A060A040A021001"),
    ("two options never share a record", NESTED, asked(opt("(m).v", u(1)), opt("(m).v", u(2))), "3A0210013A021002"),
    ("every extension part is searched from the request's scope", INNER, asked(opt("(m).(y)", u(1))), "3A024801"),
    ("and from a scope further in", INNER, asked(opt("(m).(y)", u(1)), scope="p.R"), "3A024001"),
    ("an extension inside that is of the options type", file("p", ext("m", 7, 11, "p.R"), ext("y", 9), message("R")) + F,
     asked(opt("(m).(y)", u(1))), at(5, part=1)),
    ("an extendee is compared as it is written", file("o", message("F"), ext("x", 5, on="F")), asked(opt("(o.x)", u(1))), at(5)),
    ("of two in one scope the first decides", file("p", ext("x", 5, on="o.G"), ext("x", 6)) + F, asked(opt("(x)", u(1))), at(5)),
    ("an empty scope gives one candidate", file("p", ext("x", 5)) + F, asked(opt("(x)", u(1)), scope=""), at(4)),
    ("a relative name of two components", file("p", message("M", ext("x", 5))) + F, asked(opt("(M.x)", u(1)), scope="p.q"), "2801"),
    # ---- 22: parts left
    ("parts left on a uint32", *[one(13), asked(opt("(x).v", u(1)))], at(6)),
    ("parts left on an enum, which is not looked up", one(14, "none"), asked(opt("(x).v", u(1))), at(6)),
    ("parts left on a message that is not there", one(11, "none"), asked(opt("(x).v", u(1))), at(7)),
    ("parts left on a message that two files declare", one(11, "p.M") + file("p", message("M")), asked(opt("(x).v", u(1))), at(8)),
    ("parts left on a group: nothing is written, the rest is unread", one(10, "none"), asked(opt("(x).none.(none)", pairs("a", u(1)))), ""),
    ("the messages around it are written, the innermost empty", NESTED, asked(opt("(m).r.g.none", u(1))), "3A020A00"),
    ("a group and then another option", file("p", ext("x", 5, 10, "none"), ext("y", 6)) + F, asked(opt("(x).a", u(1)), opt("(y)", u(1))),
     "3001"),
    # ---- 21, 23: constants that do not fit
    ("a bool on a message", *x(yes(), 11, "p.M"), at(12)),
    ("a bool on a group", *x(yes(), 10, "p.M"), at(12)),
    ("a message constant on a group", *x(pairs(), 10, "p.M"), at(11)),
    ("a message constant on a uint32", *x(pairs(), 13), at(11)),
    ("a message constant on an enum", *x(pairs(), 14, "p.E"), at(11)),
    ("a float constant on an int32, though it is whole", *x(bits("3FF0000000000000"), 5), at(12)),
    ("an integer on a bool", *x(u(1), 8), at(12)),
    ("an integer on an enum", *x(u(0), 14, "p.E"), at(12)),
    ("an identifier on a bool", *x(name("true"), 8), at(12)),
    ("an identifier on a double", *x(name("inf"), 1), at(12)),
    ("an identifier on a string", *x(name("A"), 9), at(12)),
    ("a string on an enum", *x(s("A"), 14, "p.E"), at(12)),
    ("a bool on a string", *x(yes(), 9), at(12)),
    ("a bool on a bool", *x(yes(), 8), "2801"),
    ("false on a bool", *x(yes(0), 8), "2800"),
    # ---- enums
    ("an identifier on an enum", *x(name("C"), 14, "p.E"), "28AC02"),
    ("below zero it takes ten bytes", *x(name("B"), 14, "p.E"), "28FFFFFFFFFFFFFFFFFF01"),
    ("a name that is not listed", *x(name("NONE"), 14, "p.E"), at(13)),
    ("an enum that is not there", *x(name("A"), 14, "p.D"), at(7)),
    ("an enum that two files declare", one(14, "p.E") + file("p", enum("E")), asked(opt("(x)", name("A"))), at(8)),
    ("a message and an enum of one name", file("p", ext("x", 5, 14, "p.M"), message("M"), enum("M", A=1)) + F,
     asked(opt("(x)", name("A"))), "2801"),
    # ---- 24, 25, 26: messages and lists
    ("a message constant", *x(pairs("v", u(7)), 11, "p.M"), "2A020807"),
    ("a message constant with no pairs", *x(pairs(), 11, "p.M"), "2A00"),
    ("its type is looked up even so", *x(pairs(), 11, "none"), at(7)),
    ("and before any pair", *x(pairs("none", u(1)), 11, "none"), at(7)),
    ("a message constant of a type that two files declare", one(11, "p.M") + file("p", message("M")), asked(opt("(x)", pairs())), at(8)),
    ("a pair that names no field", *x(pairs("none", u(1)), 11, "p.M"), at(9)),
    ("pairs are judged in order: 12 first", *x(pairs("v", yes(), "none", u(1)), 11, "p.M"), at(12)),
    ("pairs are judged in order: 9 first", *x(pairs("none", u(1), "v", yes()), 11, "p.M"), at(9)),
    ("two pairs of one name are both written", *x(pairs("v", u(1), "v", u(2)), 11, "p.M"), "2A0408010802"),
    ("pairs are written in order, not by number", NESTED, asked(opt("(m)", pairs("w", s("q"), "v", u(1)))), "3A051A01711001"),
    ("a message in a message", NESTED, asked(opt("(m)", pairs("r", pairs("r", pairs(), "v", u(1))))), "3A060A040A001001"),
    ("a pair named as an extension writes nothing, and its constant is not read", *x(pairs("[none]", pairs("a", u(1))), 11, "p.M"), "2A00"),
    ("a pair named by a type URL likewise", *x(pairs("[t/none]", yes(), "v", u(7)), 11, "p.M"), "2A020807"),
    ("an extension is no field of a pair", file("p", ext("x", 5, 11, "p.M"), message("M", ext("v", 1, on="p.M"))) + F,
     asked(opt("(x)", pairs("v", u(1)))), at(9)),
    ("a list in a pair", *x(pairs("v", many(u(1), u(2))), 11, "p.M"), "2A0408010802"),
    ("a list gives a record an element, never packed, whatever the label", *x(many(u(1), u(2), u(3)), 13), "280128022803"),
    ("a repeated extension with one constant", *x(u(1), 13, label=3), "2801"),
    ("a list in a list", *x(many(u(1), many(u(2), many(u(3)), many())), 13), "280128022803"),
    ("a list of messages", *x(many(pairs("v", u(1)), pairs()), 11, "p.M"), "2A0208012A00"),
    ("an empty list looks at nothing: a message that is not there", *x(many(), 11, "none"), ""),
    ("an empty list on an enum that is not there", *x(many(), 14, "none"), ""),
    ("an empty list on a group", *x(many(), 10, "none"), ""),
    ("an empty list on a bool", *x(many(), 8), ""),
    ("elements are judged in order: 12 first", *x(many(yes(), u(4294967296)), 13), at(12)),
    ("elements are judged in order: 14 first", *x(many(u(1), u(4294967296), yes()), 13), at(14)),
    # ---- integers: what each type holds, and its bytes
    ("int32, the least", *x(i(-2147483648), 5), "2880808080F8FFFFFFFF01"),
    ("int32, one less", *x(i(-2147483649), 5), at(14)),
    ("int32, the most", *x(i(2147483647), 5), "28FFFFFFFF07"),
    ("int32, one more", *x(u(2147483648), 5), at(14)),
    ("int32, -2 in ten bytes", *x(i(-2), 5), "28FEFFFFFFFFFFFFFFFF01"),
    ("int64, the least", *x(i(-9223372036854775808), 3), "2880808080808080808001"),
    ("int64, one more than the most", *x(u(9223372036854775808), 3), at(14)),
    ("uint32, written as signed", *x(i(7), 13), "2807"),
    ("uint32, -1", *x(i(-1), 13), at(14)),
    ("uint64, the most", *x(u(18446744073709551615), 4), "28FFFFFFFFFFFFFFFFFF01"),
    ("uint64, -1", *x(i(-1), 4), at(14)),
    ("sint32, -1", *x(i(-1), 17), "2801"),
    ("sint32, the most", *x(u(2147483647), 17), "28FEFFFFFF0F"),
    ("sint32, one more", *x(u(2147483648), 17), at(14)),
    ("sint64, the least", *x(i(-9223372036854775808), 18), "28FFFFFFFFFFFFFFFFFF01"),
    ("fixed32, the most", *x(u(4294967295), 7), "2DFFFFFFFF"),
    ("fixed32, one more", *x(u(4294967296), 7), at(14)),
    ("fixed64, lowest byte first", *x(u(1), 6), "290100000000000000"),
    ("fixed64, -1", *x(i(-1), 6), at(14)),
    ("sfixed32, -2", *x(i(-2), 15), "2DFEFFFFFF"),
    ("sfixed32, one less than the least", *x(i(-2147483649), 15), at(14)),
    ("sfixed64, -2", *x(i(-2), 16), "29FEFFFFFFFFFFFFFF"),
    ("sfixed64, one more than the most", *x(u(9223372036854775808), 16), at(14)),
    # ---- 27: floats
    # IEEE 754, round to nearest, ties to even: 2^24 + 1 goes down to 2^24, 2^24 + 3 up to 2^24 + 4
    ("2^24 + 1 on float, a tie, goes to 2^24", *x(u(16777217), 2), "2D0000804B"),
    ("2^24 + 3 on float, a tie, goes to 2^24 + 4", *x(u(16777219), 2), "2D0200804B"),
    ("2^60 + 2^36 + 1 on float rounds once: by way of a double it would go down", *x(u(2**60 + 2**36 + 1), 2), "2D0100805D"),
    ("2^64 - 1 on float", *x(u(2**64 - 1), 2), "2D0000805F"),
    ("2^53 + 1 on double, a tie, goes to 2^53", *x(u(2**53 + 1), 1), "290000000000004043"),
    ("2^64 - 1 on double", *x(u(2**64 - 1), 1), "29000000000000F043"),
    ("-1 on float", *x(i(-1), 2), "2D000080BF"),
    ("the integer 0 is plus zero", *x(i(0), 2), "2D00000000"),
    ("1.5 on double", *x(bits("3FF8000000000000"), 1), "29000000000000F83F"),
    ("0.1 on float", *x(bits("3FB999999999999A"), 2), "2DCDCCCC3D"),
    ("minus zero on float", *x(bits("8000000000000000"), 2), "2D00000080"),
    ("minus zero on double", *x(bits("8000000000000000"), 1), "290000000000000080"),
    # IEEE 754: 1e39 is past the largest float
    ("1e39 on float is infinity", *x(bits("48078287F49C4A1D"), 2), "2D0000807F"),
    ("the middle above the greatest float is infinity", *x(bits("47EFFFFFF0000000"), 2), "2D0000807F"),
    ("just below that middle is the greatest float", *x(bits("47EFFFFFEFFFFFFF"), 2), "2DFFFF7F7F"),
    ("minus infinity on float", *x(bits("FFF0000000000000"), 2), "2D000080FF"),
    ("2^-149 is the least float", *x(bits("36A0000000000000"), 2), "2D01000000"),
    ("2^-150, a tie, goes to zero", *x(bits("3690000000000000"), 2), "2D00000000"),
    ("just above it goes up", *x(bits("3690000000000001"), 2), "2D01000000"),
    ("a NaN on float is 7FC00000", *x(bits("FFF0000000000001"), 2), "2D0000C07F"),
    ("a NaN on double keeps its bits", *x(bits("FFF0000000000001"), 1), "29010000000000F0FF"),
    # ---- 28: strings
    ("a string", *x(s("testing"), 9), "2A0774657374696E67"),
    ("the empty string", *x(s(""), 9), "2A00"),
    ("U+10FFFF", *x(s("\U0010ffff"), 9), "2A04F48FBFBF"),
    ("above it", *x(s(b"\xf4\x90\x80\x80"), 9), at(15)),
    ("a surrogate", *x(s(b"\xed\xa0\x80"), 9), at(15)),
    # RFC 3629, section 3: an overlong form of U+0000, and a pair of surrogates; section 10: a path `/../` with an overlong dot
    ("an overlong zero", *x(s(b"\xc0\x80"), 9), at(15)),
    ("a pair of surrogates", *x(s(b"\xed\xa1\x8c\xed\xbe\xb4"), 9), at(15)),
    ("a path with an overlong dot", *x(s(b"\x2f\xc0\xae\x2e\x2f"), 9), at(15)),
    # RFC 3629, section 7: U+0041 U+2262 U+0391 U+002E, and U+233B4 after a byte order mark
    ("characters of one, two and three bytes", *numbered(1, s(b"\x41\xe2\x89\xa2\xce\x91\x2e"), 9), "0A0741E289A2CE912E"),
    ("one of four bytes after a byte order mark", *numbered(1, s(b"\xef\xbb\xbf\xf0\xa3\x8e\xb4"), 9), "0A07EFBBBFF0A38EB4"),
    ("a character that is cut", *x(s(b"\xe2\x82"), 9), at(15)),
    ("bytes take what string does not", *x(s(b"\xc0\x80\xff"), 12), "2A03C080FF"),
    # ---- 29: order
    ("options stay in the order of writing", TWO, asked(opt("(y)", u(1)), opt("(x)", u(2)), opt("(y)", u(3))), "300128023003"),
    ("a number of five bytes of tag", file("p", ext("x", 536870911)) + F, asked(opt("(x)", u(1))), "F8FFFFFF0F01"),
    # ---- 45 to 52: where it is refused
    ("the second option, at the part whose type goes no further", bytes.fromhex(RANKS[0]), bytes.fromhex(RANKS[1]), at(6, option=1)),
    ("parts left, further in", NESTED, asked(opt("(m).r.v.r", u(1))), at(6, part=2)),
    ("parts left on a message that is not there, further in", LOST, asked(opt("(m).n.v", u(1))), at(7, part=1)),
    ("parts left on a message that two files declare, further in", LOST, asked(opt("(m).t.v", u(1))), at(8, part=1)),
    ("a part between others", NESTED, asked(opt("(m).r.none.r.v", u(1))), at(9, part=2)),
    ("an extension part between others", INNER, asked(opt("(m).(z).v", u(1))), at(4, part=1)),
    ("the last of 16 parts", NESTED, asked(opt("(m)" + ".r" * 14 + ".none", u(1))), at(9, part=15)),
    ("the last of 128 options", TWO, asked(*[opt("(x)", u(1))] * 127, opt("(z)", u(1))), at(4, option=127)),
    ("a constant has the last part", NESTED, asked(opt("(m).r.v", s("q"))), at(12, part=2)),
    ("so has an element of a list", NESTED, asked(opt("(m).v", many(u(1), s("q")))), at(12, part=1)),
    ("so has what is inside a message constant, however deep", NESTED,
     asked(opt("(m).r", pairs("v", u(1), "r", pairs("r", pairs("v", i(-1)))))), at(14, part=1)),
    ("a pair that names no field, further in", NESTED, asked(opt("(m)", pairs("r", many(pairs(), pairs("none", u(1)))))), at(9)),
    ("the type of a message constant inside one", LOST, asked(opt("(m)", pairs("n", pairs()))), at(7)),
    ("of a builtin set twice the one that is refused", *builtin([yes(), u(1)], field("b", 1, 8)), at(12, option=1)),
    ("options that write nothing have positions too", GOOGLE, asked(*[opt("default", u(7))] * 3, opt("(x)", u(1)), kind=FIELD),
     at(4, option=3)),
    ("an option whose rest is unread has one too", file("p", ext("x", 5, 10, "none")) + F,
     asked(opt("(x).a", u(1)), opt("(x).a", u(1)), opt("b", u(1))), at(10, option=2)),
    ("a fault of form inside an option is the request's, though one before it would be refused", TWO,
     asked(opt("(z)", u(1)), opt("(x)", f(0x20, b"\2"))), 2),
    ("so is a 17th part", TWO, asked(opt("(x)", u(1)), opt("(x)" + ".a" * 16, u(1))), 3),
]


def lines(answer):
    from steps import NAMES, NOT_SINGULAR

    if isinstance(answer, tuple):
        reply, second, option, part = answer
        return ["answer %d" % reply, NOT_SINGULAR if second else NAMES[reply], "option %d part %d" % (option, part)]
    if isinstance(answer, int):
        return ["answer %d" % answer, NAMES[answer]]
    return ["answer 0", answer if answer == "absent" else ("bytes " + answer).strip()]
