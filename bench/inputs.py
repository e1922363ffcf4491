"""What the bench asks: sheets, look-ups, requests, names and option bytes, and the jobs that are made of them.

A job is a call, a sheet, and the inputs of each case after the sheet. Everything is drawn from `random`, which each function that makes
cases seeds, so that two runs of the bench ask the same.
"""
import random
import struct
from collections import namedtuple

BOOL, STRING, DOUBLE, UINT32, INT32, SINT64, MESSAGE, ENUM = 8, 9, 1, 13, 5, 18, 11, 14
WIRE = {BOOL: 0, STRING: 2, DOUBLE: 1, UINT32: 0, INT32: 0, SINT64: 0, MESSAGE: 2, ENUM: 0}
GRADES = [b"ROUGH", b"FINE", b"EXACT"]

Job = namedtuple("Job", "what call sheet cases")
# A sheet's extensions: of which full name each is, its number and its type.
Extension = namedtuple("Extension", "path name number kind")
# The full names of the options type, and of the message and the enum that extensions are of; the files and messages that declare
# extensions, how many each, and how they are called.
Plan = namedtuple("Plan", "options message enum package files unit units inner counts name kinds")

PLANT = Plan(
    b"google.protobuf.FieldOptions", b"plant.Limits", b"plant.Grade", b"plant.site%d", 4, b"Unit%d", 4, b"Dispatch", (10, 4, 6), b"set%d",
    [UINT32, INT32, BOOL, MESSAGE, UINT32, STRING, ENUM, DOUBLE, SINT64, UINT32])


# ---- sheets
def f(tag, payload=b""):
    return bytes([tag]) + struct.pack(">H", len(payload)) + payload


def member(tag, name, number, kind, label=1, extendee=b"", path=b""):
    """An extension, tag 3, or a field, tag 5."""
    names = f(0x11, name) + (f(0x12, extendee) if extendee else b"")
    shape = f(0x13, struct.pack(">I", number)) + f(0x14, bytes([kind])) + f(0x15, bytes([label]))
    return f(tag, names + shape + (f(0x16, path) if path else b""))


def enum(name, values):
    return f(4, f(0x11, name) + b"".join(f(6, f(0x11, v) + f(0x17, struct.pack(">i", i))) for i, v in enumerate(values)))


def message(name, body):
    return f(2, f(0x11, name) + body)


def file(package, body):
    return f(1, f(0x10, package) + body)


def split(path):
    """Parent and last component."""
    parent, _, last = path.rpartition(b".")
    return parent, last


def options_file(plan):
    """The options type, with five fields of descriptor.proto's FieldOptions: the builtins."""
    parent, name = split(plan.options)
    fields = [(b"packed", 2, BOOL), (b"deprecated", 3, BOOL), (b"lazy", 5, BOOL), (b"weak", 10, BOOL)]
    body = enum(b"CType", [b"STRING", b"CORD", b"STRING_PIECE"]) + member(5, b"ctype", 1, ENUM, path=plan.options + b".CType")
    return file(parent, message(name, body + b"".join(member(5, *x) for x in fields)))


def types_file(plan):
    """The message and the enum that extensions are of."""
    parent, name = split(plan.message)
    body = member(5, b"low", 1, INT32) + member(5, b"high", 2, INT32) + member(5, b"grade", 3, ENUM, path=plan.enum)
    body += member(5, b"note", 4, STRING) + member(5, b"next", 5, MESSAGE, path=plan.message) + member(5, b"steps", 6, UINT32, 3)
    return file(parent, message(name, body) + enum(split(plan.enum)[1], GRADES))


def sheet(plan):
    """Files of extensions: some in the file, some in each of its messages, some in a message inside each of these; then the types."""
    data, known = b"", []

    def some(count, path):
        out = b""
        for _ in range(count):
            number = 50001 + len(known)
            name, kind = plan.name % (number % 1000), plan.kinds[number % len(plan.kinds)]
            paths = {MESSAGE: plan.message, ENUM: plan.enum}
            out += member(3, name, number, kind, extendee=plan.options, path=paths.get(kind, b""))
            known.append(Extension(path, name, number, kind))
        return out

    in_file, in_unit, in_inner = plan.counts
    for n in range(plan.files):
        package = plan.package % n
        items = some(in_file, package)
        for unit in range(plan.units):
            outer = package + b"." + plan.unit % unit
            body = some(in_unit, outer)
            items += message(plan.unit % unit, body + message(plan.inner, some(in_inner, outer + b"." + plan.inner)))
        data += file(package, items)
    data += types_file(plan) + options_file(plan)
    assert len(data) <= 32768
    return data, known


def inmost(plan, path):
    """The innermost message that a path of a file or of a message in it leads to."""
    missing = [plan.unit % random.randrange(plan.units), plan.inner][path.count(b".") - plan.package.count(b".") :]
    return b".".join([path] + missing)


# ---- look-ups
def look_ups(plan, known):
    """A thousand from an innermost scope, so that most find their extension after some candidates that miss; one in ten has a leading
    dot, one in ten finds nothing."""
    random.seed(1)
    cases = []
    for i in range(1000):
        one = random.choice(known)
        name = b"." + one.path + b"." + one.name if i % 10 == 0 else b"nothing" if i % 10 == 1 else one.name
        cases.append((inmost(plan, one.path), name))
    return cases


# ---- requests
def integer(signed=False):
    n = random.choice([random.randrange(128), random.randrange(1 << 31)])
    if signed and random.random() < 0.5:
        return f(0x22, struct.pack(">q", -n))
    return f(0x21, struct.pack(">Q", n))


def text():
    return bytes(random.choice(b"abcdefgh ") for _ in range(random.randrange(12)))


def constant(kind):
    """A constant that fits a type."""
    if kind == BOOL:
        return f(0x20, bytes([random.randrange(2)]))
    if kind == STRING:
        return f(0x24, text())
    if kind == DOUBLE:
        return f(0x23, struct.pack(">d", random.randrange(1000) / 8))
    if kind == ENUM:
        return f(0x25, random.choice(GRADES))
    if kind == MESSAGE:
        pairs = [(b"low", integer(True)), (b"high", integer(True)), (b"grade", constant(ENUM)), (b"note", constant(STRING))]
        pairs.append((b"steps", f(0x2A, integer() + integer())))
        pairs.append((b"next", f(0x26, f(0x27, b"high") + integer(True))))
        chosen = sorted(random.sample(range(6), random.randrange(1, 4)))
        return f(0x26, b"".join(f(0x27, pairs[i][0]) + pairs[i][1] for i in chosen))
    return integer(kind != UINT32)


def builtin():
    name = random.choice([b"ctype", b"packed", b"deprecated", b"lazy"])
    return f(8, f(0x1A, name) + (f(0x25, b"CORD") if name == b"ctype" else constant(BOOL)))


def option(one):
    """An extension by its name, or now and then by its full name with a leading dot; inside a message more often than not."""
    part = f(0x1B, b"." + one.path + b"." + one.name if random.random() < 0.1 else one.name)
    if one.kind == MESSAGE and random.random() < 0.6:
        last, of = random.choice([(b"low", INT32), (b"grade", ENUM), (b"note", STRING)])
        return f(8, part + f(0x1A, b"next") * random.randrange(3) + f(0x1A, last) + constant(of))
    return f(8, part + constant(one.kind))


def request(plan, scope, options):
    return f(0x18, scope) + f(0x19, plan.options) + options


def requests(plan, known):
    """A thousand of one to four options from nested scopes; about one option in seven is a builtin, one in ten an absolute name, and one
    request in twenty has a name that is not found."""
    random.seed(1)
    cases = []
    for i in range(1000):
        one = random.choice(known)
        scope = inmost(plan, one.path) if i % 2 and b"." + plan.unit[:-2] in one.path else one.path
        near = [x for x in known if scope == x.path or scope.startswith(x.path + b".")]
        chosen = [one] + random.choices(near, k=random.choice([0, 0, 0, 0, 1, 1, 1, 2, 2, 3]))
        options = [builtin() if random.random() < 0.14 else option(x) for x in chosen]
        if i % 20 == 19:
            options[-1] = f(8, f(0x1B, b"nothing") + integer())
        cases.append((request(plan, scope, b"".join(options)),))
    return cases


# ---- option bytes
def varint(n):
    out = bytearray()
    while n > 127:
        out.append(n & 127 | 128)
        n >>= 7
    out.append(n)
    return bytes(out)


def scalar(kind):
    """A payload of a type."""
    n = random.choice([random.randrange(128), random.randrange(1 << 31)])
    if kind == STRING:
        said = text()
        return varint(len(said)) + said
    if kind == DOUBLE:
        return struct.pack("<d", random.randrange(1000) / 8)
    if kind in (INT32, ENUM):
        return varint(-n % 2**64 if random.random() < 0.25 and kind == INT32 else n % 3 if kind == ENUM else n)
    return varint(n % 2 if kind == BOOL else n)


def record(number, kind, payload):
    return varint(number * 8 + WIRE[kind]) + payload


def sized(number, inside):
    """A message's record."""
    return record(number, MESSAGE, varint(len(inside)) + inside)


LIMITS = {b"low": (1, INT32), b"high": (2, INT32), b"grade": (3, ENUM), b"note": (4, STRING), b"steps": (6, UINT32)}
BUILTINS = [(1, ENUM), (2, BOOL), (3, BOOL), (5, BOOL), (10, BOOL)]


def limits(levels):
    """What a Limits holds: some scalars, and one more of it, so many levels."""
    inside = [record(n, kind, scalar(kind)) for n, kind in random.sample(list(LIMITS.values()), random.randrange(1, 4))]
    if levels > 1:
        inside.insert(random.randrange(len(inside) + 1), sized(5, limits(levels - 1)))
    return b"".join(inside)


def flat_record(scalars):
    """Of an extension, now and then of a builtin or of a number that nothing declares."""
    how = random.random()
    if how < 0.1:
        number, kind = random.choice(BUILTINS)
    elif how < 0.14:
        number, kind = random.choice((999, 60001)), random.choice((UINT32, STRING, DOUBLE))
    else:
        _, _, number, kind = random.choice(scalars)
    return record(number, kind, scalar(kind))


def nested_record(messages):
    return sized(random.choice(messages).number, limits(random.choice((1, 2, 3, 4, 6, 9, 14, 20, 31))))


def filled(one, most=65000):
    """Records, as many as there is room for."""
    data = b""
    while True:
        more = one()
        if len(data) + len(more) > most:
            return data
        data += more


def one_record(one):
    """A record of an extension, and the name that leads to it or into it."""
    name = f(0x1B, one.path + b"." + one.name)
    if one.kind != MESSAGE:
        return record(one.number, one.kind, scalar(one.kind)), name
    levels, last = random.randrange(1, 4), random.choice(list(LIMITS))
    inside = record(*LIMITS[last], scalar(LIMITS[last][1])) + limits(1)
    for _ in range(levels - 1):
        inside = sized(5, inside)
    return sized(one.number, inside), name + f(0x1A, b"next") * (levels - 1) + f(0x1A, last)


def read_back(plan, known):
    """A thousand option bytes of one to four records, each with a name: that of one of its records, one in ten of an extension that has
    none there, one in ten of nothing."""
    random.seed(1)
    cases = []
    for i in range(1000):
        chosen = random.sample(known, random.choice([1, 1, 1, 1, 2, 2, 2, 3, 3, 4]))
        pairs = [one_record(x) for x in chosen]
        name = random.choice(pairs)[1] if i % 10 > 1 else f(0x1B, b"nothing") if i % 10 else one_record(random.choice(known))[1]
        cases.append((plan.options, name, b"".join(data for data, _ in pairs)))
    return cases


def listed(cases):
    """The same without their names, for a listing."""
    return [(kind, data) for kind, _, data in cases]


# ---- jobs
def spoiled(job):
    """The same cases with one byte of an input changed, or an input cut short: to see that refusals agree as well. Of `check` they are
    jobs of their own, as each has another sheet."""
    random.seed(1)

    def bad(data):
        at = random.randrange(len(data))
        return data[:at] + (bytes([random.randrange(256)]) + data[at + 1 :] if random.random() < 0.8 else b"")

    if job.call == "check":
        return [job._replace(sheet=bad(job.sheet)) for _ in range(100)]
    cases = []
    for case in job.cases:
        which = random.choice([i for i, data in enumerate(case) if data])
        cases.append([bad(data) if i == which else data for i, data in enumerate(case)])
    return [job._replace(cases=cases)]


def table():
    """The jobs of the table, all of one sheet of 200 extensions: each call on a thousand cases, and 64 KB of option bytes at once."""
    data, known = sheet(PLANT)
    back = read_back(PLANT, known)
    scalars, messages = [x for x in known if x.kind != MESSAGE], [x for x in known if x.kind == MESSAGE]
    flat, nested = filled(lambda: flat_record(scalars)), filled(lambda: nested_record(messages))
    deep = f(0x1B, messages[-1].path + b"." + messages[-1].name) + f(0x1A, b"next") * 4 + f(0x1A, b"low")
    cases = {"find": look_ups(PLANT, known), "resolve": requests(PLANT, known), "list": listed(back), "query": back}
    yield Job("check", "check", data, [()])
    for call in cases:
        yield Job(call + ", sheet tested once", call + "_tested", data, cases[call])
        yield Job(call + ", sheet tested each time", call, data, cases[call])
    yield Job("list, 64 KB flat", "list_tested", data, [(PLANT.options, flat)])
    yield Job("list, 64 KB nested", "list_tested", data, [(PLANT.options, nested)])
    yield Job("query, 64 KB nested", "query_tested", data, [(PLANT.options, deep, nested)])
