#!/usr/bin/env python3
"""Runs optlist and optquery on option bytes that python3-protobuf builds for random schemas, beside python3-protobuf's own reading of
them.

usage: python_options.py [LISTINGS] [SEED] [--program OPTLIST] [--query OPTQUERY]

Run it from the root of the repository, by a python3 that has google.protobuf (Debian's python3-protobuf: /usr/bin/python3). A schema is
one to four files of messages, enums and extensions, drawn here and loaded by python; the sheet is made of the same descriptors, its files
and declarations in any order. Bytes are built by python alone, in one of these ways: a message filled and serialized, one or more times
after each other ("filled"); record by record, in any order, with unknown numbers, enum numbers that are not listed, and records of
singular fields several times ("records"); the same with 64 bits set where the type keeps fewer, and any bytes as strings ("wide"), with
known numbers on other wire types ("other wire types"), or with tags, lengths and values made overlong here, to five bytes and ten
("overlong"), all to ten ("long"), or with bits set above the 32 or 64 that are read ("bits above"); records one in the other, up to 60
levels ("deep"); and any of these with bytes changed, lost or put in ("damaged"). python_reading.py says what python reads, as rows and as
lines for people. The listing has to be these: number, type, wire type, place, length, value, level and order, and every line. Where python
reads what 01 refuses (docs/DIFFERENCES.md) the refusal is what is expected; where python refuses, so has the listing to, and which of 18,
19 and 3 it is says the second implementation; but tags and lengths of more than five bytes, which python does not read, have to be listed
as python reads the same records with shorter ones. All this is counted. Beside that python's reading by the labels as they are has to be
what the rows come to, and the query of a name the last record of it.

A program that is `none` is left out, and options_reader.py, the second implementation, is asked in its place.
"""
import argparse
import collections
import random
import struct
import sys
import time

import listing
import option_bytes
import python_reading as py
import sheets
from options_reader import Listing, Sheet
from python_reading import ENUM, GROUP, MESSAGE, STRING, BYTES, descriptor_pb2

rnd = random.Random()
PACKAGES = ["", "plant", "plant.site", "fleet", "o"]
INTEGERS = {3: (-(2**63), 2**63 - 1), 4: (0, 2**64 - 1), 5: (-(2**31), 2**31 - 1), 6: (0, 2**64 - 1), 7: (0, 2**32 - 1),
            13: (0, 2**32 - 1), 15: (-(2**31), 2**31 - 1), 16: (-(2**63), 2**63 - 1), 17: (-(2**31), 2**31 - 1), 18: (-(2**63), 2**63 - 1)}
FLOATS = [0.0, -0.0, 1.5, -2.25, 0.1, 1e30, -1e-30, 3.4028234663852886e38, 1e-45, float("inf"), float("-inf"), float("nan")]
TEXTS = ["", "a", "order 7", "gr\u00fcn", "\u20ac 5", "\U0001f69a", "\0", "\x08\x01", "a" * 127, "b" * 128, "\u07ff\uffff",
         "\"a\" 'b'\t\\\r\n", "\x1f ~\x7f", "\\0011"]


# ---- schemas
class Draft:
    """Files as descriptors; `messages` and `enums` by full name with the file that they stand in."""

    def __init__(self):
        self.files, self.messages, self.enums, self.next = [], {}, {}, 0
        for n in range(rnd.choice((1, 1, 2, 2, 3, 4))):
            self.file(n)
        for index, file in enumerate(self.files):
            self.extend(index, file)

    def name(self, letter):
        self.next += 1
        return "%s%d" % (letter, self.next)

    def file(self, n):
        file = descriptor_pb2.FileDescriptorProto(name="f%d.proto" % n, package=rnd.choice(PACKAGES))
        file.syntax = "proto3" if rnd.random() < 0.15 else "proto2"
        file.dependency.extend(earlier.name for earlier in self.files)
        self.files.append(file)
        before = len(self.messages)
        for _ in range(rnd.choice((1, 2, 2, 3))):
            self.message(file, file.message_type.add(name=self.name("M")), file.package, 1)
        for _ in range(rnd.choice((0, 1, 1, 2))):
            self.enum(file, file.enum_type.add(name=self.name("E")), file.package)
        for full in list(self.messages)[before:]:
            self.fill(file, full, self.messages[full][1])

    def full(self, outer, name):
        return outer + "." + name if outer else name

    def message(self, file, message, outer, depth):
        full = self.full(outer, message.name)
        low = rnd.random() < 0.8
        self.messages[full] = (file, message, low)
        if file.syntax == "proto2":
            for start, end in ((1000, 19000), (20000, 536870912)) if low else ((1, 19000), (20000, 300000)):
                message.extension_range.add(start=start, end=end)
        for _ in range(rnd.choice((0, 0, 1)) if depth < 4 else 0):
            self.message(file, message.nested_type.add(name=self.name("N")), full, depth + 1)
        if rnd.random() < 0.3:
            self.enum(file, message.enum_type.add(name=self.name("E")), full)

    def enum(self, file, enum, outer):
        numbers = rnd.sample([1, 2, 3, -1, -2, 127, 128, -(2**31), 2**31 - 1, 5, 6], rnd.choice((1, 2, 3, 5)))
        for number in [0] + numbers if file.syntax == "proto3" else numbers:
            enum.value.add(name=self.name("V"), number=number)
        if rnd.random() < 0.2:
            # a second name of a number
            enum.options.allow_alias = True
            enum.value.add(name=self.name("V"), number=rnd.choice(numbers))
        self.enums[self.full(outer, enum.name)] = (file, enum)

    def shape(self, file, field, extendee=None):
        """Type and label; types are of this file or an earlier one."""
        kind = rnd.choice(list(range(1, 10)) + [12, 13, 14, 15, 16, 17, 18] + [14] + [11] * 5)
        if kind in (MESSAGE, ENUM):
            known = self.messages if kind == MESSAGE else self.enums
            here = self.files.index(file)
            wanted = [full for full, (there, *_) in known.items() if self.files.index(there) <= here
                      and (kind == MESSAGE or there.syntax == "proto3" or file.syntax == "proto2")]
            if not wanted:
                kind = 13
            else:
                field.type_name = "." + rnd.choice(wanted)
        field.type = kind
        field.label = rnd.choice((1, 1, 1, 3)) if file.syntax == "proto3" or rnd.random() < 0.97 or extendee else 2
        if field.label == 3 and kind not in (STRING, BYTES, MESSAGE) and (file.syntax == "proto2" or rnd.random() < 0.7):
            field.options.packed = rnd.random() < 0.08

    def fill(self, file, full, message):
        low, used = self.messages[full][2], set()
        for _ in range(rnd.choice((0, 1, 2, 3, 4, 6, 9))):
            number = rnd.choice((1, 2, 15, 16, rnd.randint(1, 999)) if low else (300000, 536870911, rnd.randint(300000, 2**29 - 1)))
            if number not in used:
                used.add(number)
                self.shape(file, message.field.add(name=self.name("f"), number=number))
        if file.syntax == "proto2" and rnd.random() < 0.06 and low and 7 not in used:
            name = self.name("G")
            inner = message.nested_type.add(name=name)
            inner.field.add(name="x", number=1, type=5, label=1)
            message.field.add(name=name.lower(), number=7, type=GROUP, label=rnd.choice((1, 3)), type_name="." + self.full(full, name))
        single = [x for x in message.field if x.label == 1 and x.type not in (MESSAGE, GROUP)]
        if len(single) > 1 and rnd.random() < 0.15:
            message.oneof_decl.add(name="one")
            for field in single[:3]:
                field.oneof_index = 0
            # a oneof's members stand together
            rest = [x for x in message.field if not x.HasField("oneof_index")]
            both = [x for x in message.field if x.HasField("oneof_index")] + rest
            copies = [descriptor_pb2.FieldDescriptorProto.FromString(x.SerializeToString()) for x in both]
            message.ClearField("field")
            message.field.extend(copies)

    def extend(self, index, file):
        if file.syntax == "proto3":
            return
        visible = [(full, x) for full, x in self.messages.items() if self.files.index(x[0]) <= index and x[0].syntax == "proto2"]
        taken = getattr(self, "taken", set())
        self.taken = taken
        for _ in range(rnd.choice((0, 1, 2, 4, 6)) if visible else 0):
            full, (_, _, low) = rnd.choice(visible)
            number = rnd.choice((1000, 50001, 536870911, rnd.randint(20000, 2**29 - 1)) if low else (1, 2, 15, rnd.randint(1, 18999)))
            inside = [m for there, m, _ in self.messages.values() if there is file]
            if (full, number) not in taken:
                taken.add((full, number))
                field = rnd.choice([file, file] + inside).extension.add(name=self.name("x"), number=number, extendee="." + full)
                self.shape(file, field, full)


# varints of which a reader keeps 32 bits, or one
NARROW = (5, 8, 13, 14, 17)


PLAIN, WIDE, OTHER, ABOVE = range(4)


def all_builders(files, how):
    """The schema by which single records are built: enums are int32, so that any number can be set, messages bytes, all repeated; of the
    wide one, what keeps fewer than 64 bits of a varint is uint64, and strings are bytes; of the other one every type has another wire
    type."""
    out = []
    for file in files:
        file = py.all_repeated(file)
        for field in py.fields_of(file):
            if how == OTHER and field.type != GROUP:
                field.type = rnd.choice([kind for kind in (4, 6, 7, 12) if py.WIRE[kind] != py.WIRE[field.type]])
                field.options.Clear()
            elif how == WIDE and field.type in NARROW:
                field.type = 4
            elif how == WIDE and field.type == STRING:
                field.type = BYTES
            elif field.type == ENUM:
                field.type = 5
            elif field.type == MESSAGE:
                field.type = BYTES
                field.options.Clear()
            field.ClearField("type_name") if field.type != GROUP else None
        out.append(file)
    return out


STRANGE = [1, 3, 15, 16, 998, 999, 2047, 2048, 18999, 262144, 33554432, 536870910]


def strange_pool():
    """A message by which records of unknown numbers are built: of each number one of each wire type, as a varint, fixed or bytes."""
    file = descriptor_pb2.FileDescriptorProto(name="strange.proto", syntax="proto2")
    for kind in (4, 6, 7, 12):
        message = file.message_type.add(name="S%d" % kind)
        for number in STRANGE:
            message.field.add(name="n%d" % number, number=number, type=kind, label=1)
    return py.Pool([file])


STRANGE_POOL = strange_pool()


class Drawn:
    """A schema with its sheet, and the classes that bytes are built by."""

    def __init__(self):
        while True:
            draft = Draft()
            if draft.messages:
                break
        self.files, self.kinds = draft.files, list(draft.messages)
        self.schema = py.Schema(self.files)
        self.builders = [py.Pool(all_builders(self.files, how)) for how in (PLAIN, WIDE, OTHER)]
        order = self.files[:]
        rnd.shuffle(order)
        self.sheet = Sheet(py.sheet(order, rnd.shuffle))
        assert not self.sheet.fault

    def declared(self, full):
        return self.schema.real.all_declared(self.schema.real.message(full).DESCRIPTOR)


# ---- values
def value(field, any_enum=False):
    kind = field.type
    if kind in INTEGERS:
        low, high = INTEGERS[kind]
        return rnd.choice((low, high, 0, 1, max(low, -1), rnd.randint(low, high), min(high, rnd.getrandbits(rnd.randint(1, 63)))))
    if kind == 1:
        return rnd.choice(FLOATS + [rnd.gauss(0, 1e3), struct.unpack("<d", rnd.randbytes(8))[0]])
    if kind == 2:
        return struct.unpack("<f", rnd.randbytes(4))[0] if rnd.random() < 0.4 else rnd.choice(FLOATS)
    if kind == 8:
        return rnd.random() < 0.7
    if kind == STRING:
        return rnd.choice(TEXTS)
    if kind == BYTES:
        return rnd.choice((b"", b"\xff\xfe", b"\x08\x01", rnd.randbytes(rnd.randint(0, 9)), bytes(128)))
    if any_enum and rnd.random() < 0.25:
        return rnd.choice((4, 7, -5, 2**31 - 1, -(2**31), 1000))
    return rnd.choice([v.number for v in field.enum_type.values])


# ---- bytes by python
def filled(drawn, message, depth):
    """A message of the real class with some of its fields set."""
    for field in drawn.declared(message.DESCRIPTOR.full_name):
        if rnd.random() < 0.45:
            continue
        here = message.Extensions if field.is_extension else None
        if field.type in (MESSAGE, GROUP):
            if depth > 0:
                many = field.label == 3
                for _ in range(rnd.choice((1, 1, 2)) if many else 1):
                    of = here[field] if here is not None else getattr(message, field.name)
                    inner = of.add() if many else of
                    inner.SetInParent() if not many else None
                    filled(drawn, inner, depth - 1)
        elif field.label == 3:
            of = here[field] if here is not None else getattr(message, field.name)
            of.extend(value(field) for _ in range(rnd.choice((1, 2, 3))))
        elif here is not None:
            here[field] = value(field)
        else:
            setattr(message, field.name, value(field))
    return message


def filled_bytes(drawn, full):
    message, out = drawn.schema.real.message(full), b""
    for _ in range(rnd.choice((1, 1, 1, 2, 3))):
        out += filled(drawn, message(), rnd.choice((0, 1, 2, 3))).SerializePartialToString()
    return out


class Record:
    """A record that python built, taken apart: its tag, what stands before its payload, and the payload or the records in it."""

    def __init__(self, data, inner=None, overlong=0.0, above=0.0):
        (number, wire, value), = py.raw(data)
        tag = py.encoder.TagBytes(number, wire)
        assert data.startswith(tag)
        # of tags and lengths python takes no more than five bytes
        most = 5 if overlong < 0.5 else 10
        self.inner = inner
        self.tag = longer(tag, most, above) if rnd.random() < overlong else tag
        self.head, self.payload = b"", data[len(tag) :]
        if wire == py.LEN:
            self.payload = value if inner is None else b"".join(record.data() for record in inner)
            self.head = py.varint_bytes(len(self.payload))
            assert inner is not None or data == tag + self.head + value
            self.head = longer(self.head, most) if rnd.random() < overlong else self.head
        elif wire == 0 and rnd.random() < overlong:
            self.payload = longer(self.payload, 10, above)

    def data(self):
        return self.tag + self.head + self.payload

    def places(self, at):
        at += len(self.tag) + len(self.head)
        yield at, len(self.payload)
        for record in self.inner or ():
            yield from record.places(at)
            at += len(record.data())


def longer(varint, most, above=0.0):
    """The same varint in more bytes; now and then in the most, with a bit that lies above the 32 or 64 that such a varint has."""
    if rnd.random() < above:
        varint = varint[:-1] + bytes([varint[-1] | 128] + [128] * (most - len(varint) - 1) + [0]) if len(varint) < most else varint
        return varint[:-1] + bytes([varint[-1] | (rnd.choice((0x10, 0x20, 0x70)) if most == 5 else rnd.choice((2, 4, 0x7E)))])
    if len(varint) >= most:
        return varint
    more = rnd.choice((1, most - len(varint), rnd.randint(1, most - len(varint))))
    return varint[:-1] + bytes([varint[-1] | 128]) + b"\x80" * (more - 1) + b"\0"


def unknown_record(drawn, full, overlong):
    kind, number = rnd.choice((4, 6, 7, 12)), rnd.choice(STRANGE)
    message = drawn.schema.every.message(full).DESCRIPTOR
    if drawn.schema.every.declared(message, number) is not None:
        return None
    strange = STRANGE_POOL.message("S%d" % kind)()
    field = strange.DESCRIPTOR.fields_by_number[number]
    setattr(strange, field.name, value(field))
    return Record(strange.SerializeToString(), None, overlong)


def record(drawn, full, field, inner, overlong, how=PLAIN):
    """One record of a field; of a message with these records in it."""
    pool = drawn.builders[PLAIN if how == ABOVE else how]
    built = pool.message(full)()
    by = pool.declared(built.DESCRIPTOR, field.number)
    of = py.values_of(built, by)
    if how == OTHER:
        of.append(value(by))
        return Record(built.SerializePartialToString(), None, overlong)
    above = 0.1 if how == ABOVE else 0.0
    if inner is not None:
        of.append(b"".join(x.data() for x in inner))
    elif how == WIDE and field.type in NARROW:
        some = (rnd.getrandbits(64), rnd.getrandbits(33), 2**64 - rnd.getrandbits(33), rnd.getrandbits(32) << 32, 2**32 + 5)
        of.append(rnd.choice(some) % 2**64)
    elif how == WIDE and field.type == STRING:
        of.append(rnd.choice((rnd.randbytes(rnd.randint(0, 6)), b"\xc0\x80", b"\xed\xa0\x80", b"a\xff", "\u20ac".encode())))
    else:
        of.append(value(field, True))
    return Record(built.SerializePartialToString(), inner, overlong, above)


def records(drawn, full, depth, overlong, how=PLAIN):
    out = []
    fields = [x for x in drawn.declared(full) if x.type != GROUP]
    for _ in range(rnd.choice((0, 1, 2, 3, 4, 6))):
        if rnd.random() < 0.12 or not fields:
            out.append(unknown_record(drawn, full, overlong))
            continue
        field = rnd.choice(fields if not out or out[-1] is None or rnd.random() < 0.85 else fields[:1])
        if how == OTHER and rnd.random() < 0.2:
            out.append(record(drawn, full, field, None, overlong, OTHER))
            continue
        inner = None
        if field.type == MESSAGE:
            inner = records(drawn, field.message_type.full_name, depth - 1, overlong, how) if depth > 0 else []
        out.append(record(drawn, full, field, inner, overlong, how if how != OTHER else PLAIN))
    return [x for x in out if x is not None]


def deep(drawn, full, levels):
    """Records one in the other, as far as the schema goes."""
    fields = [x for x in drawn.declared(full) if x.type == MESSAGE]
    if not fields or levels == 0:
        return records(drawn, full, 0, 0.0)[:2]
    field = rnd.choice(fields)
    return [record(drawn, full, field, deep(drawn, field.message_type.full_name, levels - 1), 0.0)]


HOW = {"filled": 30, "records": 17, "wide": 11, "overlong": 13, "long": 4, "deep": 8, "other wire types": 5, "bits above": 4,
       "damaged": 12}


def some_bytes(drawn, full):
    """What kind of bytes, the bytes, and where each payload lies where they were put together record by record."""
    what = rnd.choices(list(HOW), HOW.values())[0]
    if what == "damaged":
        _, data, _ = some_bytes(drawn, full)
        return what, option_bytes.damaged(data), None
    if what == "filled":
        return what, filled_bytes(drawn, full), None
    depth = rnd.choice((0, 1, 2, 3))
    if what == "deep":
        made = deep(drawn, full, rnd.choice((3, 8, 20, 30, 31, 31, 32, 33, 45, 60)))
    elif what in ("overlong", "long", "bits above"):
        made = records(drawn, full, depth, 0.6 if what == "long" else 0.3, ABOVE if what == "bits above" else PLAIN)
    else:
        made = records(drawn, full, depth, 0.0, {"records": PLAIN, "wide": WIDE, "other wire types": OTHER}[what])
    places, at = [], 0
    for x in made:
        places += x.places(at)
        at += len(x.data())
    return what, b"".join(x.data() for x in made), places


def with_short_headers(rows, data):
    """The bytes of these rows, with the shortest tags and lengths."""
    def at_level(level):
        out = b""
        while left and left[-1][0] == level:
            _, number, kind, wire, place, size, _, _ = left.pop()
            payload = at_level(level + 1) if kind == MESSAGE else data[place : place + size]
            out += py.encoder.TagBytes(number, wire) + (py.varint_bytes(len(payload)) if wire == py.LEN else b"") + payload
        return out

    left = rows[::-1]
    return at_level(0)


# ---- cases
class Case:
    """A listing or, with a name, a query; `wanted` are the lines that python's reading comes to."""

    def __init__(self, what, drawn, full, data, wanted, name=None):
        self.what, self.sheet, self.kind, self.data, self.wanted, self.name = what, drawn.sheet, full.encode(), data, wanted, name
        self.call = "list" if name is None else "query"

    fields = listing.Case.fields
    hex = listing.Case.hex
    size = listing.Case.size

    def second(self):
        return listing.Case(self.what, self.sheet, self.kind, self.data, self.name).lines()


def line(row):
    return "record " + " ".join(map(str, row))


def name_of(drawn, full, tree):
    """Fields from the options type inwards, mostly along what the bytes have."""
    fields, ends, most = [], rnd.choice((0.25, 0.25, 0.25, 0.01)), rnd.choice((16, rnd.randint(1, 16)))
    while True:
        known = [x for x in drawn.declared(full) if x.type != GROUP]
        there = [x for x in known if any(item[1][1] == x.number for item in tree)]
        inner = [x for x in there if x.type == MESSAGE]
        if not known:
            return fields
        further = inner and rnd.random() < (0.4 if ends > 0.1 else 0.97)
        field = rnd.choice(inner if further else there if there and rnd.random() < 0.8 else known)
        fields.append(field)
        if field.type != MESSAGE or rnd.random() < ends or len(fields) == most:
            return fields
        full = field.message_type.full_name
        same = [item for item in tree if item[1][1] == field.number]
        tree = same[-1][3] if same else []


def refused_case(what, drawn, full, data, seen):
    """Python refuses the bytes: so has the listing to, or they have a tag or a length of more than five bytes and no other fault."""
    told = Listing(drawn.sheet, full.encode(), data)
    if told.refused:
        seen["python refuses, and the reply is", told.refused] += 1
        return Case(what, drawn, full, data, told.lines())
    reading = py.Reading(drawn.schema, full, with_short_headers(told.rows, data))
    same = [[row[:4] + row[6:] + (row[5] if row[2] != MESSAGE else None,) for row in rows] for rows in (reading.rows, told.rows)]
    assert same[0] == same[1], data
    seen["listed", "a tag or a length of more than five bytes, which python refuses"] += 1
    return Case(what, drawn, full, data, told.lines() + reading.people)


def cases_of(drawn, seen):
    """A listing of bytes that python built, and a query of them where they are listed."""
    full = rnd.choice(drawn.kinds)
    what, data, places = some_bytes(drawn, full)
    seen["how", what] += 1
    try:
        reading = py.Reading(drawn.schema, full, data, places)
    except py.Otherwise as otherwise:
        seen["otherwise", "%d: %s" % (otherwise.number, otherwise.why)] += 1
        yield Case(what, drawn, full, data, ["answer %d" % otherwise.number, listing.NAMES[otherwise.number]])
        return
    except py.Refuses:
        yield refused_case(what, drawn, full, data, seen)
        return
    note(reading, seen)
    merged = collections.Counter()
    py.check_real(drawn.schema, reading, full, data, merged)
    seen.update({("by the real labels, cases with", key): 1 for key in merged})
    yield Case(what, drawn, full, data, answer(reading))
    fields = name_of(drawn, full, reading.tree)
    if fields:
        row = py.follow(reading.tree, fields)
        seen["query of so many parts, " + ("answered" if row else "absent"), len(fields)] += 1
        name = b"".join(py.part(x, rnd.random() < 0.5) for x in fields)
        yield Case(what, drawn, full, data, ["answer 0", line(row) if row else "absent"], name)


def answer(reading):
    return ["answer 0"] + [line(row) for row in reading.rows] + reading.people


def note(reading, seen):
    """What a reading has, for the tables: how many cases have it, whatever the number of records."""
    for key in reading.seen:
        if isinstance(key, tuple):
            seen["cases with a record " + ("of type" if key[0] == "type" else "at level"), key[1]] += 1
        else:
            seen["listed", key] += 1
    seen["records in all", ""] += len(reading.rows)


def told_by(program, cases):
    return listing.answers(program, cases) if program else [case.second() for case in cases]


def compare(cases, programs, calls):
    differ = 0
    for call in ("list", "query"):
        mine = [case for case in cases if case.call == call]
        calls[call] += len(mine)
        for case, lines in zip(mine, told_by(programs[call], mine)):
            if lines != case.wanted:
                differ += 1
                print("DIFFERS (%s, %s): %s" % (call, case.what, case.hex()))
                print("  python:  %s\n  program: %s" % (listing.cut(case.wanted), listing.cut(lines)))
    return differ


# what python reads otherwise, each with its reason: docs/DIFFERENCES.md
OTHERWISE = ["3: a message at level 31", "18: a group", "18: a tag above 32 bits, of which python keeps 32",
             "18: a tag of number 0 or of a group's end, where python stops reading",
             "18: a varint above 64 bits, of which python keeps 64",
             "19: another wire type, which python takes for an unknown record", "19: packed"]
LISTED = ["a string that is not UTF-8, of a proto2 file", "a string that is not UTF-8, of a proto3 file", "enum numbers set aside",
          "a tag or a length of more than five bytes, which python refuses"]
TABLE = {
    "how": list(HOW), "otherwise": OTHERWISE, "listed": LISTED, "python refuses, and the reply is": [3, 18, 19],
    "cases with a record of type": [n for n in range(19) if n != GROUP], "cases with a record at level": list(range(32)),
    "query of so many parts, answered": list(range(1, 17)), "query of so many parts, absent": list(range(1, 17)),
    "by the real labels, cases with": ["a singular scalar, once", "a singular scalar, the last of several", "a singular message, once",
                                       "a singular message, merged from several", "a oneof's earlier member, dropped",
                                       "last is an enum number set aside"]}


def table(seen, wanted):
    """What the cases came by: all that is wanted, with 0 where none did, and what else there is."""
    never = []
    for title in sorted({key[0] for key in seen} | set(wanted)):
        keys = wanted.get(title, [])
        keys = keys + sorted((key[1] for key in seen if key[0] == title and key[1] not in keys), key=str)
        never += ["%s %s" % (title, key) for key in keys if not seen[title, key]]
        names = [(listing.TYPES[key] if key else "unknown") if title.endswith("of type") else str(key) for key in keys]
        text = ["%s %d" % (name, seen[title, key]) if name else str(seen[title, key]) for name, key in zip(names, keys)]
        print("%s: %s" % (title, "; ".join(text)))
    print("never: %s" % ("; ".join(never) or "none"))


def main():
    parser = argparse.ArgumentParser(usage=__doc__.split("usage: ")[1].split("\n\n")[0])
    parser.add_argument("cases", nargs="?", type=int, default=50000)
    parser.add_argument("seed", nargs="?", type=int, default=1)
    parser.add_argument("--program", default=listing.PROGRAMS["list"])
    parser.add_argument("--query", default=listing.PROGRAMS["query"])
    args = parser.parse_args()
    programs = {"list": None if args.program == "none" else args.program, "query": None if args.query == "none" else args.query}
    rnd.seed(args.seed)
    sheets.rnd.seed(args.seed)
    py.quiet()
    seen, calls, schemas, differ, start, batch = collections.Counter(), collections.Counter(), 0, 0, time.time(), []
    while calls["list"] < args.cases:
        drawn = Drawn()
        schemas += 1
        for _ in range(16):
            batch += cases_of(drawn, seen)
        if len(batch) >= 1000 or calls["list"] + len(batch) >= args.cases:
            before = calls["list"]
            differ += compare(batch, programs, calls)
            batch = []
            if before // 10000 != calls["list"] // 10000:
                print("%d listings, %d s, %d differ" % (calls["list"], time.time() - start, differ), file=sys.stderr, flush=True)
            if differ >= 5:
                break
    table(seen, TABLE)
    print("python3-protobuf %s, %s; %d schemas; listings %d, queries %d" % (
        py.version(), py.api_implementation.Type(), schemas, calls["list"], calls["query"]))
    for call, program in programs.items():
        print("%s: %s" % (call, program or "NOT THERE, the second implementation in its place"))
    print("%d cases, %d differ" % (sum(calls.values()), differ))
    sys.exit(1 if differ else 0)


if __name__ == "__main__":
    main()
