"""What python3-protobuf itself reads of option bytes, as the rows and the lines for people that a listing has to give, for
compare/protoc_options.py and compare/python_options.py. Needs google.protobuf: Debian's python3-protobuf is /usr/bin/python3's.

A schema is FileDescriptorProtos. They are loaded twice: as they are, and with every label repeated and nothing packed, so that python
keeps each record of a number by itself and in order. Order, number, wire type and payload of a record are those of its UnknownFields, read
by a message that has no fields; its declaration is what python's pool has for the number; its value is the one that python's typed message
holds. Places are those that the varints of python's own decoder end at. Names of types and of enum values are those of the descriptors,
text is escaped by text_encoding.

A Reading ends in Otherwise where python reads what 01 refuses: `number` is the reply and `why` the reason, a line of docs/DIFFERENCES.md;
and in Refuses where python itself refuses the bytes.
"""
import collections
import math
import os
import struct
import sys
import warnings

try:
    from google.protobuf import descriptor_pb2, descriptor_pool, message_factory, text_encoding
    from google.protobuf.internal import api_implementation, decoder, encoder, type_checkers, wire_format
    from google.protobuf.message import DecodeError
except ImportError:
    sys.exit("google.protobuf is not there: Debian's python3-protobuf is for /usr/bin/python3")
if api_implementation.Type() != "cpp":
    sys.exit("the package's own reader is wanted, cpp, and this one is " + api_implementation.Type())

from sheets import f

GROUP, MESSAGE, BYTES, STRING, ENUM, FLOAT, DOUBLE = 10, 11, 12, 9, 14, 2, 1
LEN, START_GROUP = wire_format.WIRETYPE_LENGTH_DELIMITED, wire_format.WIRETYPE_START_GROUP
WIRE = type_checkers.FIELD_TYPE_TO_WIRE_TYPE
WIRE_NAMES = {wire_format.WIRETYPE_VARINT: "varint", wire_format.WIRETYPE_FIXED64: "i64", LEN: "len", wire_format.WIRETYPE_FIXED32: "i32"}
LAST_LEVEL = 31


def version():
    import google.protobuf

    return google.protobuf.__version__


def quiet():
    """Drops what the library itself writes to standard error, of each string that is not UTF-8, and its warning that it stopped early."""
    warnings.filterwarnings("ignore", "Unexpected end-group tag")
    sys.stderr = os.fdopen(os.dup(2), "w")
    os.dup2(os.open(os.devnull, os.O_WRONLY), 2)


class Otherwise(Exception):
    """Python reads on where the listing refuses."""

    def __init__(self, number, why):
        self.number, self.why = number, why


class Refuses(Exception):
    """Python refuses the bytes."""


# ---- schemas
class Pool:
    """The classes that python makes of files, which stand in an order such that each depends on earlier ones."""

    def __init__(self, files):
        self.pool = descriptor_pool.DescriptorPool()
        for file in files:
            self.pool.AddSerializedFile(file.SerializeToString())
        self.factory = message_factory.MessageFactory(self.pool)
        self.numbers = {}

    def message(self, name):
        return self.factory.GetPrototype(self.pool.FindMessageTypeByName(name))

    def declared(self, message, number):
        """What declares a number at a message, by python's look-up; None where nothing does."""
        key = message.full_name, number
        if key not in self.numbers:
            found = message.fields_by_number.get(number)
            if found is None:
                try:
                    found = self.pool.FindExtensionByNumber(message, number)
                except KeyError:
                    pass
            self.numbers[key] = found
        return self.numbers[key]

    def all_declared(self, message):
        return list(message.fields) + list(self.pool.FindAllExtensions(message))


def messages_of(file):
    todo = list(file.message_type)
    while todo:
        message = todo.pop()
        todo += message.nested_type
        yield message


def fields_of(file):
    """Every field and extension of a file."""
    for scope in [file] + list(messages_of(file)):
        yield from scope.extension
        if scope is not file:
            yield from scope.field


def all_repeated(file):
    """The file with every label repeated and nothing packed. A map's entries are messages like all others."""
    out = descriptor_pb2.FileDescriptorProto()
    out.CopyFrom(file)
    for message in messages_of(out):
        message.ClearField("options")
        message.ClearField("oneof_decl")
    for field in fields_of(out):
        field.label = 3
        for name in ("options", "default_value", "oneof_index", "proto3_optional"):
            field.ClearField(name)
        if field.type not in (STRING, GROUP, MESSAGE, BYTES):
            field.options.packed = False
    return out


NOTHING = Pool([descriptor_pb2.FileDescriptorProto(name="nothing.proto", message_type=[descriptor_pb2.DescriptorProto(name="Nothing")])])
NOTHING_CLASS = NOTHING.message("Nothing")


def no_strings(file):
    """The same with bytes for strings, so that python does not ask for UTF-8."""
    out = all_repeated(file)
    for field in fields_of(out):
        field.type = BYTES if field.type == STRING else field.type
    return out


class Schema:
    def __init__(self, files):
        self.files = files
        self.real, self.every = Pool(files), Pool([all_repeated(file) for file in files])
        self.lenient = None

    def by_bytes(self):
        if self.lenient is None:
            self.lenient = Pool([no_strings(file) for file in self.files])
        return self.lenient


# ---- the sheet of a schema
def path(text):
    return text.lstrip(".").encode()


def declaration(field):
    leaves = f(0x11, field.name.encode()) + (f(0x12, path(field.extendee)) if field.extendee else b"")
    leaves += f(0x13, struct.pack(">I", field.number)) + f(0x14, bytes([field.type])) + f(0x15, bytes([field.label]))
    return f(3 if field.extendee else 5, leaves + (f(0x16, path(field.type_name)) if field.type in (GROUP, MESSAGE, ENUM) else b""))


def enum(of):
    values = [f(6, f(0x11, v.name.encode()) + f(0x17, struct.pack(">i", v.number))) for v in of.value]
    return f(4, f(0x11, of.name.encode()) + b"".join(values))


def message(of, shuffle):
    items = [declaration(x) for x in list(of.field) + list(of.extension)] + [enum(x) for x in of.enum_type]
    items += [message(x, shuffle) for x in of.nested_type]
    shuffle(items)
    return f(2, f(0x11, of.name.encode()) + b"".join(items))


def sheet(files, shuffle=lambda items: None):
    """The sheet of files, in that order."""
    out = b""
    for file in files:
        items = [declaration(x) for x in file.extension] + [enum(x) for x in file.enum_type]
        items += [message(x, shuffle) for x in file.message_type]
        shuffle(items)
        out += f(1, f(0x10, file.package.encode()) + b"".join(items))
    return out


# ---- the reading
def raw(data):
    """(number, wire type, data) of each record, by a message that has no fields."""
    return [(u.field_number, u.wire_type, u.data) for u in NOTHING_CLASS.FromString(data).UnknownFields()]


def varint_bytes(n):
    return encoder._VarintBytes(n)


def values_of(typed, field):
    return typed.Extensions[field] if field.is_extension else getattr(typed, field.name)


def bits_of(field, value, data):
    """The 64 bits that are listed, of python's typed value. A NaN's are those that stand there: python's float may have others."""
    if field.type in (FLOAT, DOUBLE):
        if math.isnan(value):
            return data
        return int.from_bytes(struct.pack("<f" if field.type == FLOAT else "<d", value), "little")
    return int(value) % 2**64


def is_set(typed, field):
    return typed.HasExtension(field) if field.is_extension else typed.HasField(field.name)


def set_aside(field, number):
    """Whether python takes the number of an enum for an unknown record: in proto2, where it is not listed."""
    return field.file.syntax != "proto3" and (number + 2**31) % 2**32 - 2**31 not in field.enum_type.values_by_number


class Reading:
    """The rows of option bytes under a message, the lines for people, and python's own typed reading beside them."""

    def __init__(self, schema, kind, data, places=None):
        self.schema, self.data, self.view = schema, data, memoryview(data)
        self.rows, self.people, self.tree, self.seen, self.pool = [], [], [], collections.Counter(), schema.every
        typed = self.typed(kind)
        end = self.walk(schema.every.message(kind).DESCRIPTOR, typed, data, 0, 0, self.tree)
        if end < len(data):
            raise Otherwise(18, "a tag of number 0 or of a group's end, where python stops reading")
        assert places is None or places == [row[4:6] for row in self.rows], places

    def typed(self, kind):
        """Python's message of the bytes; if it is only that a string of a proto3 file is not UTF-8, one that has bytes for it."""
        try:
            return self.pool.message(kind).FromString(self.data)
        except DecodeError:
            self.pool = self.schema.by_bytes()
        try:
            return self.pool.message(kind).FromString(self.data)
        except DecodeError:
            raise Refuses from None

    def walk(self, message, typed, data, at, level, tree):
        taken, aside = collections.Counter(), collections.defaultdict(list)
        for unknown in typed.UnknownFields():
            aside[unknown.field_number].append(unknown.data)
        for number, wire, payload in raw(data):
            field, own = self.schema.every.declared(message, number), self.pool.declared(typed.DESCRIPTOR, number)
            place, size, at = self.place(message, field, number, wire, at)
            value, inner = 0, None
            if field is not None and wire == LEN:
                inner = values_of(typed, own)[taken[number]]
                self.same_payload(field, inner, payload)
            elif field is not None and field.type == ENUM and set_aside(field, payload):
                # python sets the number of an enum that is not listed aside, with its unknown records
                value = aside[number].pop(0) % 2**64
                self.seen["enum numbers set aside"] += 1
                taken[number] -= 1
            elif field is not None:
                inner = values_of(typed, own)[taken[number]]
                value = bits_of(field, inner, payload)
            taken[number] += 1
            kind = field.type if field is not None else 0
            if kind == MESSAGE and level == LAST_LEVEL:
                raise Otherwise(3, "a message at level 31")
            row = (level, number, kind, wire, place, size, value % 2**32, value >> 32)
            self.rows.append(row)
            self.people.append("  " * (level + 1) + for_people(field, number, wire, inner, value))
            self.seen["type", kind] += 1
            self.seen["level", level] += 1
            tree.append((field, row, inner, []))
            if kind == MESSAGE:
                self.walk(field.message_type, inner, payload, place, level + 1, tree[-1][3])
        return at

    def same_payload(self, field, value, payload):
        """That python's typed reading has this payload. Of a proto2 file python hands out a string that is not UTF-8 as bytes."""
        if field.type == STRING:
            if isinstance(value, bytes):
                why = "a string that is not UTF-8, of a proto%s file" % field.file.syntax[-1]
                try:
                    value.decode()
                except UnicodeDecodeError:
                    self.seen[why] += 1
            assert (value if isinstance(value, bytes) else value.encode()) == payload, (value, payload)
        elif field.type == BYTES:
            assert value == payload, (value, payload)

    def place(self, message, field, number, wire, at):
        """Where the payload lies, how long it is, and where the next record starts; what 01 refuses in a record, in 01's order."""
        tag, at = decoder.ReadTag(self.view, at)
        if decoder._DecodeVarint(tag, 0)[0] != number * 8 + wire:
            raise Otherwise(18, "a tag above 32 bits, of which python keeps 32")
        if wire == START_GROUP:
            raise Otherwise(18, "a group")
        if field is not None and WIRE[field.type] != wire:
            many = self.schema.real.declared(self.schema.real.pool.FindMessageTypeByName(message.full_name), number).label == 3
            packed = wire == LEN and many and field.type != GROUP
            raise Otherwise(19, "packed" if packed else "another wire type, which python takes for an unknown record")
        if wire == LEN:
            size, at = decoder._DecodeVarint(self.view, at)
            return at, size, at + size
        end = decoder._DecodeVarint(self.view, at)[1] if wire == 0 else at + (8 if wire == 1 else 4)
        if wire == 0 and end - at == 10 and self.data[end - 1] > 1:
            raise Otherwise(18, "a varint above 64 bits, of which python keeps 64")
        return at, end - at, end


def for_people(field, number, wire, value, bits):
    """A record as a line for people has it, but for the blanks before it. `value` is python's own, but for enum numbers set aside."""
    if field is None:
        return "? %d %s" % (number, WIRE_NAMES[wire])
    of = field.message_type or field.enum_type
    line = "%s %d " % ("(%s)" % field.full_name if field.is_extension else field.name, number)
    line += of.full_name if of else descriptor_pb2.FieldDescriptorProto.Type.Name(field.type)[5:].lower()
    if field.type == MESSAGE:
        return line
    if field.type == ENUM:
        signed = bits - 2**64 if bits >> 63 else bits
        listed = field.enum_type.values_by_number.get(signed)
        text = listed.name if listed else str(signed)
    elif field.type in (FLOAT, DOUBLE):
        text = "0x%0*X" % (8 if field.type == FLOAT else 16, bits)
    elif field.type in (STRING, BYTES):
        text = '"%s"' % text_encoding.CEscape(value if isinstance(value, bytes) else value.encode(), False)
    else:
        text = str(value).lower()
    return "%s = %s" % (line, text)


# ---- the same by the labels as they are
def check_real(schema, reading, kind, data, seen):
    """That python's reading by the real labels is what the rows come to: of a singular scalar the last, of a repeated one all, of a
    singular message all records merged."""
    message = schema.real.message(kind)
    if reading.pool is not schema.every:
        # a string of a proto3 file is not UTF-8
        try:
            message.FromString(data)
        except DecodeError:
            return
        raise AssertionError(data)
    real(schema, message.FromString(data), reading.tree, seen)


def number_of(field, value, row):
    return bits_of(field, value, row[6] | row[7] << 32)


def real(schema, typed, tree, seen):
    by_number, last_of = collections.defaultdict(list), {}
    for field, row, inner, below in tree:
        if field is not None:
            by_number[row[1]].append((field, row, inner, below))
            member = schema.real.declared(typed.DESCRIPTOR, row[1])
            if member.containing_oneof and not (member.type == ENUM and set_aside(member, row[6])):
                last_of[member.containing_oneof.name] = row[1]
    for number, records in by_number.items():
        field = schema.real.declared(typed.DESCRIPTOR, number)
        if field.type == ENUM:
            kept = [x for x in records if not set_aside(field, x[1][6])]
            if not kept or kept[-1] is not records[-1]:
                seen["last is an enum number set aside"] += 1
            records = kept
        many = field.label == 3
        if records and field.containing_oneof and last_of[field.containing_oneof.name] != number:
            seen["a oneof's earlier member, dropped"] += 1
            records = []
        if not records:
            assert not (values_of(typed, field) if many else is_set(typed, field)), field.full_name
            continue
        if field.message_type is not None and field.message_type.GetOptions().map_entry:
            # python keeps the last value of a key
            seen["a map"] += 1
            assert len(values_of(typed, field)) <= len(records)
            continue
        values = list(values_of(typed, field)) if many else [values_of(typed, field)]
        if field.type == MESSAGE and not many:
            # python merges the records of a singular message
            merged = [item for _, _, _, below in records for item in below]
            seen["a singular message, %s" % ("once" if len(records) == 1 else "merged from several")] += 1
            real(schema, values[0], merged, seen)
            continue
        last = records if many else records[-1:]
        assert len(values) == len(last), (field.full_name, len(values), len(last))
        if not many:
            seen["a singular scalar, %s" % ("once" if len(records) == 1 else "the last of several")] += 1
        for value, (_, row, inner, below) in zip(values, last):
            if field.type == MESSAGE:
                real(schema, value, below, seen)
            elif field.type in (STRING, BYTES):
                assert value == inner, (field.full_name, value, inner)
            else:
                assert number_of(field, value, row) == row[6] | row[7] << 32, (field.full_name, value, row)
    for field, _ in typed.ListFields():
        assert field.number in by_number, field.full_name


# ---- the query
def part(field, dot=False):
    return f(0x1B, (b"." if dot else b"") + field.full_name.encode()) if field.is_extension else f(0x1A, field.name.encode())


def follow(tree, fields):
    """The row of the last record of each field's number in the one before, or None."""
    row = None
    for field in fields:
        same = [item for item in tree if item[0] is not None and item[1][1] == field.number]
        if not same:
            return None
        row, tree = same[-1][1], same[-1][3]
    return row
