"""How the cost grows: jobs with more extensions and with more depth, jobs that are made to cost much, and those of `clean` and `contained`.

A curve is what is asked, what grows, and a job for each size.
"""
import random
from collections import namedtuple

from inputs import (
    BOOL, ENUM, INT32, MESSAGE, UINT32, Job, Plan, enum, f, file, inmost, listed, member, message, one_record, option, record, request,
    scalar, sheet, sized)

Curve = namedtuple("Curve", "what axis points")
DEPTHS = 1, 2, 4, 8, 16


def plan(share):
    """A sheet of 25 times so many extensions, whose names are short, so that 800 go into 32,768 bytes: the same five files with the same
    messages at every size. Of ten extensions eight are of the type uint32, which are those that are asked for."""
    return Plan(b"o.F", b"o.L", b"o.G", b"p.s%d", 5, b"U%d", 2, b"D", (share,) * 3, b"x%d", [UINT32] * 8 + [MESSAGE, ENUM])


# ---- extensions
def cases_of(of, known):
    """A hundred cases of each call, of one extension each, drawn alike at every size."""
    random.seed(1)
    chosen = random.choices([x for x in known if x.kind == UINT32], k=100)
    back = [(of.options, one_record(x)[1], record(x.number, UINT32, scalar(UINT32))) for x in chosen]
    scopes = [inmost(of, x.path) for x in chosen]
    return {
        "find": [(scope, x.name) for scope, x in zip(scopes, chosen)],
        "resolve": [(request(of, scope, option(x)),) for scope, x in zip(scopes, chosen)],
        "list": listed(back),
        "query": back,
    }


def by_extensions():
    """Each call with 50, 200 and 800 extensions."""
    points = {call: [] for call in ("check", "find", "resolve", "list", "query")}
    for share in (2, 8, 32):
        of = plan(share)
        data, known = sheet(of)
        points["check"].append((len(known), Job("check", "check", data, [()])))
        for call, cases in cases_of(of, known).items():
            points[call].append((len(known), Job(call, call + "_tested", data, cases)))
    return [Curve(call, "extensions", found) for call, found in points.items()]


# ---- depth
SEVEN = f(0x21, bytes(7) + b"\7")


def nested_constant(depth):
    """A message constant so deep, with a number innermost."""
    value = SEVEN
    for name in [b"low"] + [b"next"] * (depth - 2):
        value = f(0x26, f(0x27, name) + value)
    return value


def nested_bytes(number, levels):
    """A record of a message so many levels deep, with a number innermost."""
    data = record(1, INT32, b"\7")
    for _ in range(levels - 2):
        data = sized(5, data)
    return sized(number, data)


def by_depth():
    """Parts of a name, nested constants and levels of option bytes, in the middle one of the sheets. What is 1 deep is a number."""
    of = plan(8)
    data, known = sheet(of)
    deep = next(x for x in known[len(known) // 2 :] if x.kind == MESSAGE)
    flat = next(x for x in known if x.kind == UINT32 and x.path == deep.path)

    def name(depth, of_all=False):
        first = flat if depth == 1 else deep
        part = f(0x1B, first.path + b"." + first.name if of_all else first.name)
        return part + (f(0x1A, b"next") * (depth - 2) + f(0x1A, b"low") if depth > 1 else b"")

    def data_of(depth):
        return record(flat.number, UINT32, b"\7") if depth == 1 else nested_bytes(deep.number, depth)

    def asked(call, *inputs):
        return Job(call, call + "_tested", data, [inputs])

    def resolved(option_bytes):
        return asked("resolve", request(of, deep.path, f(8, option_bytes)))

    constants = {depth: name(1) + SEVEN if depth == 1 else name(2)[: -len(f(0x1A, b"low"))] + nested_constant(depth) for depth in DEPTHS}
    return [
        Curve("resolve", "parts of the name", [(n, resolved(name(n) + SEVEN)) for n in DEPTHS]),
        Curve("resolve", "constants nested", [(n, resolved(constants[n])) for n in DEPTHS]),
        Curve("query", "parts of the name", [(n, asked("query", of.options, name(n, True), data_of(n))) for n in DEPTHS]),
        Curve("list", "levels of bytes", [(n, asked("list", of.options, data_of(n))) for n in (1, 4, 8, 16, 31)]),
    ]


# ---- much
def full(last, other, room):
    """As many of the others as there is room for, then the last."""
    return other * ((room - len(last)) // len(other)) + last


def search(options):
    """A request of so many options, at most 113, that costs much by look-ups. The scope has 128 components, and each part of a name is an
    extension that only the last of the 129 candidates finds; for each candidate the whole sheet is walked, which is filled with messages of
    another name. Each name has 16 parts: a part is looked up again for each message around it, which is measured before it is written."""
    last = member(3, b"x", 1, MESSAGE, extendee=b"M", path=b"M") + message(b"M", b"")
    data = file(b"", full(last, message(b"b", b""), 32762))
    asked = f(0x18, b".".join([b"a"] * 128)) + f(0x19, b"M") + f(8, f(0x1B, b"x") * 16 + f(0x26)) * options
    return Job("resolve: names of 16 parts, 129 candidates; options %d" % options, "resolve_tested", data, [(asked,)])


def nesting(elements=2004):
    """A request of one option: a name of 16 parts, then a constant 16 deep, innermost a list of identifiers on an enum. Field and enum
    stand behind all else in their message, which fills the sheet. An element is written once, and measured for each of the 29 messages
    around it and once before."""
    last = enum(b"E", [b"v"]) + member(5, b"n", 1, MESSAGE, path=b"M") + member(5, b"e", 2, ENUM, 3, path=b"M.E")
    data = file(b"", message(b"M", full(last, enum(b"b", []), 32755)))
    value = f(0x27, b"e") + f(0x2A, f(0x25, b"v") * elements)
    for _ in range(13):
        value = f(0x27, b"n") + f(0x26, value)
    asked = f(0x18) + f(0x19, b"M") + f(8, f(0x1A, b"n") * 16 + f(0x26, value))
    return Job("resolve: a constant 16 deep; elements %d" % elements, "resolve_tested", data, [(asked,)])


def listings():
    """As many records as 64 KB hold, under a full sheet: of a number that none of its extensions has, and of one that only the last of them
    declares, an empty message whose type stands behind all else."""
    other, end = member(3, b"x", 1000, UINT32, extendee=b"M"), message(b"M", b"")
    none, last = (file(b"", full(more + end, other, 32762)) for more in (b"", member(3, b"y", 1, MESSAGE, extendee=b"M", path=b"M")))
    yield Job("list: 32,767 records of an unknown number", "list_tested", none, [(b"M", record(2, BOOL, b"\1") * 32767)])
    yield Job("list: 32,767 records of the last extension", "list_tested", last, [(b"M", record(1, MESSAGE, b"\0") * 32767)])


def worst(options):
    return [search(options), nesting(), *listings()]


# ---- schemas
def letters(n):
    return bytes(ord("a") + n // 26**k % 26 for k in range(3))


def schema(declarations):
    """As many messages, with a field each, as extensions of one of them, in one file without a package."""
    half = declarations // 2
    messages = [message(b"M" + letters(n), member(5, b"v", 1, UINT32)) for n in range(half)]
    extensions = [member(3, b"x" + letters(n), 2 + n, UINT32, extendee=b"Maaa") for n in range(declarations - half)]
    return file(b"", b"".join(messages + extensions))


def as_many(item, around):
    """Of items by their index as many as go into a sheet beside headers of so many bytes, and how many these are."""
    out, n = b"", 0
    while len(out) + len(item(n)) + around <= 32768:
        out += item(n)
        n += 1
    return out, n


def fullest():
    """Schemas that fill a sheet, with what each is made of."""
    messages, n = as_many(lambda n: message(b"M" + letters(n)[: 1 + (n >= 26) + (n >= 676)], b""), 6)
    yield "%d messages" % n, file(b"", messages)
    fields, n = as_many(lambda n: member(5, letters(n), 1 + n, UINT32), 13)
    yield "%d fields of a message" % n, file(b"", message(b"M", fields))
    values, n = as_many(lambda n: f(6, f(0x11, letters(n)) + f(0x17, bytes(4))), 13)
    yield "%d values of an enum" % n, file(b"", f(4, f(0x11, b"E") + values))


def schemas():
    """Jobs of `clean` and `contained`, of a schema and of it with itself, all answered yes; and how many declarations there are, where the
    cost grows with their square."""
    for size in (50, 100, 200, 400, 800, 1000):
        data = schema(size)
        yield size, Job("clean, %d declarations" % size, "clean", data, [()])
        yield size, Job("contained, %d declarations" % size, "contained", data, [(data,)])
    for what, data in fullest():
        yield None, Job("clean, " + what, "clean", data, [()])
        yield None, Job("contained, " + what, "contained", data, [(data,)])
