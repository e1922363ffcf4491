"""Cases for compare/listing.py: sheets of sheets.py, some with numbers declared twice; option bytes that fit them, mostly, some damaged;
options types; and names for the query, with bytes that have something along them. Everything is drawn from sheets.rnd, which the caller
seeds.
"""
import itertools

import form
from options_reader import GROUP_TYPE, I32, I64, LEN, MESSAGE, VARINT, WIRE, Refused, Sheet
from sheets import VALUES, Declared, Enum, Message, Plan, crossed, dotted, f, rnd, spoiled

EDGES = [0, 1, 2, 3, 127, 128, 300, 16384, 2**31 - 1, 2**31, 2**32 - 2, 2**32 - 1, 2**32, 2**32 + 1, 2**35, 2**56, 2**63 - 1, 2**63,
         2**64 - 1, 2**64 - 2, 2**64 - 2**31, 2**64 - 2**31 - 1, 2**64 - 2**32, 0xFFFFFFFF80000001, 0x1234567890ABCDEF, 0xFFFFFFFF00000000]


# ---- records
def varint(n, size=0):
    """In the fewest bytes, or in so many."""
    out = bytearray()
    while n > 127 or len(out) + 1 < size:
        out.append(n & 127 | 128)
        n >>= 7
    out.append(n)
    return bytes(out)


def some_varint(n, often=0.1):
    """Overlong now and then, by one byte or to ten."""
    if rnd.random() > often:
        return varint(n)
    least = len(varint(n))
    return varint(n, rnd.choice((least + 1, 10, rnd.randint(least, 10))))


def tag(number, wire):
    return some_varint(number * 8 + wire, 0.06)


def bits_for(kind):
    how = rnd.random()
    if kind == 14 and how < 0.3:
        # what the enums of the sheets list, by ten bytes or by the low 32 bits alone
        return rnd.choice(VALUES) % 2 ** rnd.choice((64, 64, 32))
    if kind in (5, 14) and how < 0.35:
        return rnd.choice((2**64 - 1, 2**64 - rnd.getrandbits(31) - 1, 2**64 - 2**31, rnd.getrandbits(31), 2**31 - 1))
    if how < 0.6:
        return rnd.choice(EDGES)
    return rnd.getrandbits(rnd.randint(1, 64))


def long(payload):
    return some_varint(len(payload), 0.08) + payload


def of_wire(wire, kind=0):
    """A payload of a wire type."""
    if wire == VARINT:
        return some_varint(bits_for(kind), 0.15)
    if wire in (I64, I32):
        size = 8 if wire == I64 else 4
        if rnd.random() < 0.5:
            return rnd.randbytes(size)
        return (rnd.choice(EDGES) % 2 ** (8 * size)).to_bytes(size, "little")
    return long(some_text())


def some_text():
    how = rnd.random()
    if how < 0.3:
        return b""
    if how < 0.9:
        return rnd.choice((b"a", b"order 7", b"\xff\xfe", b"\x08\x01", b"\x0a\x00", "gr\u00fcn".encode(), rnd.randbytes(rnd.randint(1, 9)),
                           b"\"a\" 'b'\t\\\r\n", bytes(rnd.choice(b"\"'\\\n\r\t\0\x1f ~\x7f\x80\xff07a") for _ in range(4))))
    return bytes(rnd.choice((127, 128, 200, 300)))


class Drawer:
    """Draws bytes under a sheet. `wrong` is how often a record has another wire type or a tag that is none."""

    def __init__(self, sheet, wrong=0.0):
        self.sheet, self.wrong = sheet, wrong
        self.deepest = {}

    def message(self, path):
        try:
            return self.sheet.message(path)
        except Refused:
            return None

    def known(self, message, path):
        """All declarations of a message, extensions too, those that do not count among them."""
        self.sheet.numbered(message, path, 0)
        return [d for same in self.sheet.cache[id(message), path].values() for d in same]

    def first(self, message, path, number):
        found = self.sheet.numbered(message, path, number)
        return found[0] if found else None

    def unknown(self, message, path):
        number = rnd.choice((1, 2, 15, 16, 999, 2047, 2048, 50001, 536870911, rnd.randint(1, 536870911)))
        if self.first(message, path, number):
            return b""
        wire = rnd.choice((VARINT, I64, LEN, LEN, I32))
        return tag(number, wire) + of_wire(wire)

    def misfit(self, message, path):
        """A record that is refused: a known number on another wire type, a wire type that is not read, or a number that is none."""
        known = self.known(message, path)
        if known and rnd.random() < 0.6:
            declared = rnd.choice(known)
            wire = rnd.choice((VARINT, I64, LEN, I32, I32, 3, 4))
            return tag(declared.number, wire) + of_wire(wire if wire in (0, 1, 2, 5) else 2)
        number = rnd.choice((0, 0, 1, 2, 536870912, 536870913, 2**32 + 1, 2**61 - 1, 2**60))
        return some_varint(number * 8 + rnd.choice((0, 1, 2, 3, 4, 5, 6, 7, 3, 4, 6, 7))) + of_wire(rnd.choice((0, 1, 2, 5)))

    def record(self, message, path, declared, depth):
        wire = WIRE[declared.type]
        if declared.type == GROUP_TYPE:
            return tag(declared.number, rnd.choice((3, 3, 0, 1, 2, 5))) + of_wire(rnd.choice((0, 2)))
        if declared.type == MESSAGE:
            payload = self.inside(declared, depth - 1)
            if rnd.random() < self.wrong and payload:
                # what is inside reaches past its message, and not past the bytes
                return tag(declared.number, LEN) + varint(rnd.randrange(len(payload))) + payload
            return tag(declared.number, LEN) + long(payload)
        return tag(declared.number, wire) + of_wire(wire, declared.type)

    def inside(self, declared, depth):
        inner = self.message(declared.path)
        return self.records(inner, declared.path, depth) if inner and depth >= 0 else b"" if inner else some_text()

    def records(self, message, path, depth, many=None):
        out = b""
        for _ in range(rnd.choice((0, 1, 1, 2, 2, 3, 4)) if many is None else many):
            known = [d for d in self.known(message, path) if d.type != GROUP_TYPE or rnd.random() < 0.03]
            how = rnd.random()
            if how < self.wrong:
                out += self.misfit(message, path)
            elif how < 0.9 and known:
                inner = [d for d in known if d.type == MESSAGE]
                declared = rnd.choice(inner if inner and depth > 0 and rnd.random() < 0.4 else known)
                # a number that is declared twice is written as the first declaration has it
                out += self.record(message, path, self.first(message, path, declared.number), depth)
            else:
                out += self.unknown(message, path)
        return out

    # ---- deep ones
    def ways(self, message, path, left):
        """Declarations of a message that go on for so many more levels."""
        key = id(message), path, left
        if key not in self.deepest:
            found = []
            for declared in self.known(message, path):
                if declared.type == MESSAGE and self.first(message, path, declared.number) is declared:
                    inner = self.message(declared.path)
                    if inner and (left <= 1 or self.ways(inner, declared.path, left - 1)):
                        found.append(declared)
            self.deepest[key] = found
        return self.deepest[key]

    def chain(self, message, path, levels):
        """Records one in the other, so many levels, or as many as the sheet has; around and inside them others."""
        while levels and not self.ways(message, path, levels):
            levels -= 1
        if levels == 0:
            return self.records(message, path, 0, rnd.choice((0, 1, 2, 3)))
        declared = rnd.choice(self.ways(message, path, levels))
        inner = self.chain(self.message(declared.path), declared.path, levels - 1)
        beside = self.records(message, path, 0, 1) if rnd.random() < 0.05 else b""
        after = self.records(message, path, 0, 1) if rnd.random() < 0.05 else b""
        return beside + tag(declared.number, LEN) + long(inner) + after

    # ---- along a name
    def along(self, message, path, steps):
        """Bytes that have something, mostly, where a name leads: several records of each number now and then."""
        declared, out = steps[0], b""
        if rnd.random() < 0.4:
            out += self.records(message, path, 0, rnd.choice((1, 1, 2)))
        if self.first(message, path, declared.number).type == GROUP_TYPE or rnd.random() < 0.04:
            return out
        for _ in range(rnd.choice((1, 1, 1, 2, 2, 3)) if len(steps) < 6 else 1):
            counted = self.first(message, path, declared.number)
            inner = self.message(counted.path) if counted.type == MESSAGE else None
            if inner and len(steps) > 1 and (counted is declared or counted.path == declared.path) and rnd.random() < 0.95:
                out += tag(declared.number, LEN) + long(self.along(inner, counted.path, steps[1:]))
            else:
                out += self.record(message, path, counted, 0)
            if rnd.random() < 0.3:
                out += self.records(message, path, 0, 1)
        return out


# ---- damage
def damaged(data):
    for _ in range(rnd.choice((1, 1, 1, 2))):
        at = rnd.randrange(len(data)) if data else 0
        how = rnd.randrange(8)
        if how == 0 or not data:
            data = data + rnd.choice((b"\x08", b"\x80", b"\xff" * 10 + b"\x01", b"\x0a\x05a", b"\0", rnd.randbytes(rnd.randint(1, 4))))
        elif how in (1, 2):
            data = data[:at]
        elif how == 3:
            data = data[:at] + bytes([data[at] ^ (1 << rnd.randrange(8))]) + data[at + 1 :]
        elif how == 4:
            data = data[:at] + bytes([rnd.choice((0, 0x80, 0xFF, data[at] + 1 & 255, rnd.randrange(256)))]) + data[at + 1 :]
        elif how == 5:
            data = data[:at] + data[at + 1 :]
        elif how == 6:
            data = data[:at] + rnd.choice((b"\x80", b"\xff" * 9, b"\x80" * 9 + b"\x02", b"\x80" * 10, rnd.randbytes(1))) + data[at:]
        else:
            end = rnd.randint(at, len(data))
            data = data[:at] + data[end:]
    return data


# ---- sheets
def twice(plan):
    """Numbers that are declared twice for one message: by two fields, by a field and an extension, by two extensions, of any types."""
    for _ in range(rnd.choice((1, 2, 3))):
        path = plan.kind if rnd.random() < 0.6 else rnd.choice(list(plan.messages))
        message = plan.messages.get(path)
        there = message.fields + [d for _, d in plan.on.get(path, [])]
        if not there:
            continue
        first = rnd.choice(there)
        kind = rnd.choice((first.kind, first.kind, first.kind, 5, 8, 9, 11, 13, 3, 14))
        type_path = first.path if kind in (10, 11, 14) and first.path else rnd.choice(list(plan.messages))
        if rnd.random() < 0.5:
            again = Declared(b"n%d" % rnd.randrange(4), first.number, kind, 1, type_path)
            message.fields.insert(rnd.randint(0, len(message.fields)), again)
            continue
        outer = rnd.choice(plan.files + list(plan.messages.values()))
        again = Declared(b"n%d" % rnd.randrange(4), first.number, kind, 1, type_path, path)
        outer.extensions.append(again)
        plan.on.setdefault(path, []).append((outer.full, again))
    plan.data = plan.encoded()
    return plan


def hidden(plan):
    """A message of a name that stands before at its level, with an extension in it: no path leads there, and the extension counts."""
    full = rnd.choice(list(plan.messages))
    places = [x for x in plan.files if x.full == full[:-1]] + [m for path, m in plan.messages.items() if path == full[:-1]]
    if places:
        again = Message(full[-1], full)
        path = plan.kind if rnd.random() < 0.8 else rnd.choice(list(plan.messages))
        kind = rnd.choice((5, 9, 11, 13, 14))
        again.extensions.append(Declared(b"h", plan.number(path), kind, 1, rnd.choice(list(plan.messages)), path))
        rnd.choice(places).messages.append(again)
        plan.data = b"".join(x.encoded(None) for x in plan.files)
    return plan


def plan_of(what):
    if what == "own options type":
        return Plan()
    if what == "descriptor.proto's":
        return Plan(google=True)
    if what == "every type":
        return Plan(google=rnd.random() < 0.1, wide=True)
    if what == "numbers twice":
        return twice(Plan(wide=rnd.random() < 0.4))
    if what == "names of extensions meet":
        return crossed(Plan(google=rnd.random() < 0.2))
    if what == "not clean":
        return hidden(Plan()) if rnd.random() < 0.2 else spoiled(Plan(wide=rnd.random() < 0.5))
    return Plan()


WHAT = ["own options type"] * 6 + ["descriptor.proto's"] * 2 + ["every type"] * 5 + ["numbers twice"] * 4 + ["names of extensions meet"]
WHAT += ["not clean"] * 3 + ["malformed"]


def kind_of(plan):
    """The options type: nearly always the plan's."""
    if rnd.random() < 0.96:
        return dotted(plan.kind)
    if rnd.random() < 0.3:
        return rnd.choice((b"", b".o.F", b"o..F", b"o.F.", b"9", b"a" * 65, b".".join([b"a" * 63] * 4) + b"a", b".".join([b"a" * 63] * 4)))
    other = rnd.choice(plan.scopes + list(plan.enums) + [plan.kind + (b"none",), plan.kind[:-1], plan.kind[1:]])
    return dotted(other) or b"none"


def bytes_of(drawer, kind):
    """Option bytes, and what kind they are of."""
    message = drawer.message(kind)
    if message is None:
        return "no such type", rnd.choice((b"", b"\x08\x01", rnd.randbytes(4)))
    how = rnd.random()
    if how < 0.03:
        return "random", rnd.randbytes(rnd.randint(0, 12))
    drawer.wrong = 0.15 if how < 0.2 else 0.0
    if rnd.random() < 0.12:
        data = drawer.chain(message, kind, rnd.choice((1, 2, 3, 5, 8, 13, 20, 29, 30, 31, 31, 31, 31, 32, 33, 40)))
    else:
        data = drawer.records(message, kind, rnd.choice((0, 1, 2, 3)))
    if how < 0.2:
        return "misfits", data
    return ("damaged", damaged(data)) if how < 0.5 else ("well formed", data)


# ---- names
def spelled(declared):
    full = b".".join(declared.outer + [declared.name])
    return rnd.choice((full, b"." + full))


def part_of(declared):
    return f(0x1A, declared.name) if declared.extendee is None else f(0x1B, spelled(declared))


def stray(sheet):
    how = rnd.random()
    if how < 0.4:
        return f(0x1A, rnd.choice((b"none", b"a", b"x", b"v", b"order", b"deprecated")))
    if how < 0.6 and sheet.extensions:
        return f(0x1B, spelled(rnd.choice(sheet.extensions)))
    if how < 0.7 and sheet.extensions:
        return f(0x1B, rnd.choice(sheet.extensions).name)
    return f(0x1B, rnd.choice((b"none", b".none", b"a.none", b"o.F", b".o.F.x")))


def name_of(drawer, kind):
    """A name, and the declarations that it leads by from the options type, as far as it does."""
    message, path, parts, steps = drawer.message(kind), kind, b"", []
    wanted = rnd.choice((1, 1, 1, 1, 2, 2, 2, 3, 3, 4)) if rnd.random() < 0.93 else rnd.randint(5, 17)
    while message:
        known = drawer.known(message, path)
        if not known or rnd.random() < 0.03:
            return parts + stray(drawer.sheet), steps
        left = wanted - len(steps)
        inner = drawer.ways(message, path, left - 1) if left > 1 else []
        broken = [d for d in known if d.type == MESSAGE and not drawer.message(d.path)]
        declared = rnd.choice(broken if broken and rnd.random() < 0.3 else inner if inner and rnd.random() < 0.95 else known)
        parts += part_of(declared)
        steps.append(declared)
        if left <= 1 or len(steps) == 17:
            if rnd.random() < 0.04:
                parts += stray(drawer.sheet)
            return parts, steps
        if declared.type == GROUP_TYPE:
            return parts + stray(drawer.sheet) * rnd.choice((1, 2)), steps
        if declared.type != MESSAGE:
            return parts + (stray(drawer.sheet) if rnd.random() < 0.4 else b""), steps
        message, path = drawer.message(declared.path), declared.path
    return parts + stray(drawer.sheet), steps


def no_name():
    a = f(0x1A, b"a")
    long = b".".join([b"a" * 63] * 4)
    return rnd.choice((
        b"", a * 17, a * 16 + f(0x1A, b"9"), a * 15 + f(0x1A, b"9") + a, a + f(0x20, b"\1"), f(0x1A, b"a.b"), f(0x1A), f(0x1B),
        f(0x1B, b"."), f(0x1B, b"..x"), f(0x1B, b"x."), a + b"\x1a", a * 16 + b"\x1a\0\5x", a * 16 + f(0x20, b"\1"), f(8, a),
        f(0x1B, b"." + long), f(0x1B, long), f(0x1A, b"a" * 65), f(0x1A, b"a" * 64)))


def question(drawer, kind):
    """A name and the option bytes that it is asked of."""
    message = drawer.message(kind)
    name, steps = name_of(drawer, kind) if message and rnd.random() < 0.97 else (no_name(), [])
    if rnd.random() < 0.03:
        name = form.broken(name)
    drawer.wrong = 0.02 if rnd.random() < 0.1 else 0.0
    if message and steps and rnd.random() < 0.8:
        data = drawer.along(message, kind, steps)
        return name, damaged(data) if rnd.random() < 0.06 else data
    return name, bytes_of(drawer, kind)[1]


# ---- the figures
def self_sheet(more=b""):
    """o.F with a field of every type, f1 to f18, by its number; `r` 19 is o.F itself, `e` 20 an enum that is not there, `m` 21 a message
    that is not there; its extension `x` 536870911 is uint32."""
    path = {10: b"o.F", 11: b"o.F", 14: b"o.none"}
    shaped = [(b"f%d" % kind, kind, kind) for kind in range(1, 19)] + [(b"r", 19, 11), (b"e", 20, 14)]
    members = [Declared(name, number, kind, 1, path.get(kind, b"").split(b".")).encoded() for name, number, kind in shaped]
    members.append(Declared(b"m", 21, 11, 1, (b"none",)).encoded())
    x = Declared(b"x", 536870911, 13, 1, None, (b"o", b"F")).encoded()
    return f(1, f(0x10, b"o") + f(2, f(0x11, b"F") + b"".join(members)) + x) + more


def nest(levels, inside, number=19):
    for _ in range(levels):
        inside = varint(number * 8 + LEN) + varint(len(inside)) + inside
    return inside


# the figures of "Most allowed", with the replies at each and one past it; option bytes of 65,537 cannot be written
FIGURES = {"sheet of 32768 bytes": [0], "sheet of 32769 bytes": [3], "8 files": [0], "9 files": [3], "messages 16 deep": [0],
           "messages 17 deep": [3], "name of 64 bytes in the sheet": [0], "name of 65 bytes in the sheet": [1],
           "type path of 255 bytes": [7], "type path of 256 bytes": [2], "records at level 31": [0], "message at level 31": [3],
           "65535 option bytes": [0, 18]}
ASKED = {"16 parts": [0, 9], "17 parts": [3], "path of 255 bytes": [4], "path of 256 bytes": [2], "name of 64 bytes": [9],
         "name of 65 bytes": [2], "65535 option bytes": [0, 18]}


def deep_messages(depth):
    """So many messages one in the other, with an extension of o.F in the innermost."""
    inside = Declared(b"y", 77, 13, 1, None, (b"o", b"F")).encoded()
    for _ in range(depth):
        inside = f(2, f(0x11, b"M") + inside)
    return f(1, f(0x10, b"p") + inside)


def figures():
    """(label, sheet, options type, bytes, names with their labels) at each figure and one past it."""
    sheet, v, y = self_sheet(), varint(13 * 8) + b"\7", varint(77 * 8) + b"\7"
    asked = [("", f(0x1A, b"f13"))]
    for size in (32768, 32769):
        room = size - len(sheet) - len(f(1, f(0x10, b"p")))
        many, over = divmod(room, 7)
        filler = f(1, f(0x10, b"p") + f(2, f(0x11, b"M")) * (many - 1) + f(2, f(0x11, b"M" * (1 + over))))
        yield "sheet of %d bytes" % size, self_sheet(filler), b"o.F", v, asked
    for files in (8, 9):
        yield "%d files" % files, self_sheet(f(1, f(0x10, b"q")) * (files - 1)), b"o.F", v, asked
    for depth in (16, 17):
        name = f(0x1B, b".p." + b"M." * depth + b"y")
        yield "messages %d deep" % depth, self_sheet(deep_messages(depth)), b"o.F", y + v, asked + [("", name)]
    for size in (64, 65):
        there = Declared(b"n" * size, 77, 13, 1, None, (b"o", b"F")).encoded()
        yield "name of %d bytes in the sheet" % size, self_sheet(f(1, f(0x10, b"p") + there)), b"o.F", y, asked
    long = b".".join([b"a" * 63] * 4)
    for path in (long, long + b"a"):
        yield "type path of %d bytes" % len(path), sheet, path, v, asked
    yield "records at level 31", sheet, b"o.F", nest(31, v), asked
    yield "message at level 31", sheet, b"o.F", nest(32, v), asked
    text = varint(9 * 8 + LEN) + varint(65531) + bytes(65531)
    for data in (text, b"\x68\x01" * 32767 + b"\x68", b"\x68\x81\0" + b"\x68\x01" * 32766):
        yield "65535 option bytes", sheet, b"o.F", data, [("65535 option bytes", f(0x1A, b"f13"))]
    r, last = f(0x1A, b"r"), f(0x1A, b"f13")
    names = [("16 parts", r * 15 + last), ("16 parts", r * 15 + f(0x1A, b"no")), ("17 parts", r * 16 + last), ("17 parts", r * 17)]
    names += [("path of %d bytes" % len(path), f(0x1B, path)) for path in (long, b"." + long, long + b"a")]
    names += [("name of %d bytes" % n, f(0x1A, b"n" * n)) for n in (64, 65)]
    for data in (nest(15, v), b"", nest(15, v) + nest(14, v)):
        yield "", sheet, b"o.F", data, names


F_ENUM = Enum(b"E", [(b"NONE", 0), (b"ONE", 1), (b"UNO", 1), (b"LESS", -1), (b"MINUS", -1)])
OTHER_ENUM = Enum(b"E", [(b"TWO", 2), (b"EINS", 1), (b"LEAST", -(2**31))])


def edges():
    """(sheet, options type, bytes, names): what lies at the ends of types and wire types, and what is judged before it."""
    sheet = self_sheet()
    r, x = f(0x1A, b"r"), f(0x1B, b"o.x")
    v = varint(13 * 8) + b"\7"
    group, last = f(0x1A, b"f10"), f(0x1A, b"f13")
    names = [r * n + last for n in (1, 14, 15, 16)] + [r * 16, r * 17, x, r + x, b"", group, group + r, last + r]
    for levels in (1, 15, 16, 30, 31, 32, 33, 60):
        for inside in (b"", v, varint(999 * 8 + LEN) + b"\0", b"\x08", varint(13 * 8 + I32) + bytes(4), varint(21 * 8 + LEN) + b"\0"):
            yield sheet, b"o.F", nest(levels, inside), names[:3] + names[5:7]
    # a message at level 31: its length overruns, its type is not there
    for inside in (varint(19 * 8 + LEN) + b"\5", varint(21 * 8 + LEN) + b"\0", varint(21 * 8 + LEN) + b"\5", varint(21 * 8 + LEN)):
        for levels in (0, 1, 31):
            yield sheet, b"o.F", nest(levels, inside), []
    for inside in (b"", v, v + v, nest(1, v) + nest(1, b""), nest(1, b"") + nest(1, v), varint(11 * 8 + LEN) + b"\2" + v):
        yield sheet, b"o.F", inside, names
    yield bytes(32769), b"", b"", [b""]
    yield b"", b"o.F", b"", names[:1]
    for kind in range(1, 19):
        size = {VARINT: b"\5", I64: b"\5" * 8, LEN: b"\1\5", I32: b"\5" * 4}.get(WIRE[kind])
        if size and kind != MESSAGE:
            yield sheet, b"o.F", nest(31, varint(kind * 8 + WIRE[kind]) + size), [r * 15 + f(0x1A, b"f%d" % kind)]
    # two declarations of one number: what the first lists is none of the second's, wherever in a name that stands
    again = f(1, f(0x10, b"q") + Declared(b"q", 19, 11, 1, (b"o", b"F"), (b"o", b"F")).encoded())
    q = f(0x1B, b"q.q")
    for levels in (0, 1, 2, 3):
        yield self_sheet(again), b"o.F", nest(levels, v), [q, r + q, r + q + last, q + r + last, r + r + q, r + r + last]
    # several inputs at fault
    inputs = (sheet, b"\1"), (b"o.F", b"o..F", b"none"), (v, b"\x80"), (last, b"", f(0x1A, b"none"))
    for of, kind, data, name in itertools.product(*inputs):
        yield of, kind, data, [name]
    for number in (1, 15, 16, 2047, 2048, 262143, 262144, 33554431, 33554432, 536870910, 536870911, 536870912, 2**32, 2**61 - 1):
        for wire in range(8):
            yield sheet, b"o.F", varint(number * 8 + wire) + b"\1" * 8, names[6:8]
            yield sheet, b"o.F", varint(number * 8 + wire, 10) + b"\1" * 8, []
    for kind in list(range(1, 22)) + [999]:
        for wire in (0, 1, 2, 3, 4, 5, 6, 7):
            for payload in (b"", b"\0", b"\0" * 4, b"\0" * 8, b"\x80" * 9 + b"\1", b"\x80" * 9 + b"\2", b"\x80" * 10 + b"\0", b"\3abc",
                            b"\4abc"):
                yield sheet, b"o.F", varint(kind * 8 + wire) + payload, []
    for kind in (3, 4, 5, 8, 13, 14, 17, 18, 20, 999):
        for bits in EDGES:
            yield sheet, b"o.F", varint(kind * 8) + varint(bits) + varint(kind * 8, 10) + varint(bits, 10), [f(0x1A, b"f%d" % kind)]
    for size in (126, 127, 128, 16383, 16384, 40000):
        for kind in (9, 12, 11, 999):
            inside = bytes(size) if kind != 11 else b"".join((v,) * (size // 2)) + (b"" if size % 2 == 0 else b"")
            yield sheet, b"o.F", varint(kind * 8 + LEN) + varint(len(inside)) + inside, [f(0x1A, b"f%d" % kind)]
    for many in (1000, 20000, 32767):
        yield sheet, b"o.F", (b"\x68\x01" * many), [f(0x1A, b"f13")]
    yield sheet, b"o.F", b"\x68\x01" * 32767 + b"\0", [f(0x1A, b"f13")]
    yield sheet, b"o.F", b"\x68\x01" * 32767 + b"\x68", [f(0x1A, b"f13")]
    for kind in (b"o", b"o.none", b"none", b"o.F.r", b"F", b".o.F", b"", b"o.F.", b"o..F", b"o.F.f1"):
        yield sheet, kind, v, names[:1] + [b""]
    both = f(1, f(0x10, b"") + f(2, f(0x11, b"o") + f(2, f(0x11, b"F"))))
    yield self_sheet(both), b"o.F", v, names[:1]
    yield self_sheet(f(1, f(0x10, b"o") + f(2, f(0x11, b"F")))), b"o.F", b"\0", names[:1]
    # the scopes at a path: fewest package components first
    both = [Declared(b"x", n, 13, 1, None, (b"o", b"F")).encoded() for n in (101, 102)]
    crossed_files = f(1, f(0x10, b"a.b") + both[0]) + f(1, f(0x10, b"a") + f(2, f(0x11, b"b") + both[1]))
    crossed_files += f(1, f(0x10, b"o") + f(2, f(0x11, b"F")))
    for data in (varint(101 * 8) + b"\1" + varint(102 * 8) + b"\2", varint(101 * 8) + b"\1"):
        yield crossed_files, b"o.F", data, [f(0x1B, b".a.b.x"), f(0x1B, b"a.b.x"), f(0x1B, b"b.x"), f(0x1B, b"x")]
    # one message in one file, another of its name behind it: not 8
    again = f(2, f(0x11, b"F") + Declared(b"g", 30, 13).encoded())
    yield f(1, f(0x10, b"o") + f(2, f(0x11, b"F")) + again), b"o.F", varint(30 * 8) + b"\1", [f(0x1A, b"g")]
    # an extension in it counts all the same, though no path leads there
    again = f(2, f(0x11, b"F") + Declared(b"h", 30, 13, 1, None, (b"o", b"F")).encoded())
    yield f(1, f(0x10, b"o") + f(2, f(0x11, b"F")) + again), b"o.F", varint(30 * 8) + b"\1", [f(0x1B, b"o.F.h")]
    # enums of one full name: in one file the first counts, in two files none does; a message of that name is none
    for more in ((), (F_ENUM,), (OTHER_ENUM,), (F_ENUM, OTHER_ENUM)):
        own = Declared(b"e", 30, 14, 1, (b"o", b"E")).encoded()
        here = f(1, f(0x10, b"o") + f(2, f(0x11, b"F") + own) + f(2, f(0x11, b"E")) + b"".join(x.encoded() for x in more))
        for files in (here, here + f(1, f(0x10, b"o") + F_ENUM.encoded()), f(1, f(0x10, b"o") + OTHER_ENUM.encoded()) + here):
            yield files, b"o.F", b"".join(varint(30 * 8) + varint(n % 2**64) for n in (0, 1, 2, -1, -(2**31), 5)), []


# ---- cases
# what kind of a case it is, a sheet, its options type, option bytes, a name or None for the listing, and of a figure its label
def fixed():
    """Those at the figures and at the edges, which are always the same."""
    for label, data, kind, payload, names in figures():
        sheet = Sheet(data)
        yield "figure", sheet, kind, payload, None, label
        for its, name in names:
            yield "figure", sheet, kind, payload, name, its
    for data, kind, payload, names in edges():
        sheet = Sheet(data)
        yield "edge", sheet, kind, payload, None
        for name in names:
            yield "edge", sheet, kind, payload, name


def of_plan():
    """Those of one sheet, ten listings and eight queries."""
    what = rnd.choice(WHAT)
    plan = plan_of(what)
    data = form.broken(plan.data) if what == "malformed" and rnd.random() < 0.7 else plan.data
    sheet = Sheet(data)
    drawer = Drawer(sheet if not sheet.fault else Sheet(plan.data))
    for _ in range(10):
        kind = kind_of(plan)
        yield what, sheet, kind, bytes_of(drawer, kind)[1], None
    for _ in range(8):
        kind = kind_of(plan)
        name, payload = question(drawer, kind)
        yield what, sheet, kind, payload, name


def cases():
    """Without end."""
    while True:
        yield from fixed()
        for _ in range(2500):
            yield from of_plan()
