#!/usr/bin/env python3
"""Runs optlist and optquery on the option bytes that protoc writes, beside python3-protobuf's own reading of them.

usage: protoc_options.py [FILES] [SEED] [--program OPTLIST] [--query OPTQUERY]

Run it from the root of the repository, by a python3 that has google.protobuf (Debian's python3-protobuf: /usr/bin/python3), with protoc at
hand (Debian's protobuf-compiler and libprotobuf-dev, 3.21). plant_options.proto declares options of all scalar types, of enums and
messages, alone and repeated; plant_use.proto sets them by hand; FILES more files, drawn here, set the same options to random values, which
are known here before protoc sees them. protoc compiles them with --include_imports. The option bytes are those of the descriptor set as
they stand there, not written again by anyone: the records of a FileDescriptorSet are followed down to the options by their numbers. The
sheet is made of the set's own descriptors, descriptor.proto among them. python_reading.py says what python reads, as rows and as lines for
people; the listing has to be these, and the query of each option that is there its last record. Of the drawn files the values that python
reads have to be those that were drawn. A program that is `none` is left out, and options_reader.py, the second implementation, is asked in
its place.
"""
import argparse
import collections
import random
import struct
import subprocess
import sys
import tempfile
import time

import listing
import python_options
import python_reading as py
from options_reader import Sheet
from python_options import INTEGERS, Case, answer, compare, line, note
from python_reading import MESSAGE, descriptor_pb2

rnd = random.Random()
FOLDER = "compare"
GOOGLE = "google.protobuf."
# the number of the options in each descriptor, their type, and where further descriptors stand: FileDescriptorSet, descriptor.proto
OPTIONS = {"File": (8, "FileOptions"), "Message": (7, "MessageOptions"), "Field": (8, "FieldOptions"), "Oneof": (2, "OneofOptions"),
           "Enum": (3, "EnumOptions"), "EnumValue": (3, "EnumValueOptions"), "Service": (3, "ServiceOptions"),
           "Method": (4, "MethodOptions")}
BELOW = {"Set": {1: "File"}, "File": {4: "Message", 5: "Enum", 6: "Service", 7: "Field"},
         "Message": {2: "Field", 3: "Message", 4: "Enum", 6: "Field", 8: "Oneof"}, "Enum": {2: "EnumValue"}, "Service": {2: "Method"}}


# ---- protoc
def compiled(names, folders):
    """The descriptor set of files, as protoc writes it."""
    with tempfile.NamedTemporaryFile() as out:
        command = ["protoc", *("-I" + folder for folder in folders), "--include_imports", "--descriptor_set_out=" + out.name, *names]
        subprocess.run(command, check=True)
        return out.read()


def option_bytes(kind, data, name=""):
    """(name, options type, option bytes) of everything below a descriptor, in the order of the set."""
    for number, _, payload in py.raw(data):
        if kind in OPTIONS and number == OPTIONS[kind][0]:
            yield name, GOOGLE + OPTIONS[kind][1], payload
        below = BELOW.get(kind, {}).get(number)
        if below:
            # the name is field 1 of every descriptor
            own = next((text.decode() for n, _, text in py.raw(payload) if n == 1), "")
            yield from option_bytes(below, payload, name + "/" + own)


class Set:
    """A descriptor set as protoc wrote it: its schema, its sheet, and the option bytes in it."""

    def __init__(self, data, shuffle=lambda items: None):
        self.files = list(descriptor_pb2.FileDescriptorSet.FromString(data).file)
        self.schema = py.Schema(self.files)
        # the current file first, then its dependencies
        self.sheet = Sheet(py.sheet(self.files[::-1], shuffle))
        assert not self.sheet.fault
        self.options = list(option_bytes("Set", data))


# ---- drawn files
NAMES = {1: "double", 2: "float", 3: "int64", 4: "uint64", 5: "int32", 6: "fixed64", 7: "fixed32", 8: "bool", 9: "string", 12: "bytes",
         13: "uint32", 15: "sfixed32", 16: "sfixed64", 17: "sint32", 18: "sint64", 14: "grade", 11: "limits"}
GRADES = {"ROUGH": 0, "FINE": 1, "EXACT": 2, "BELOW": -1, "LEAST": -(2**31), "MOST": 2**31 - 1}


def escaped(data):
    """A literal of these bytes, each byte written in one of the ways that a .proto file has."""
    out = ""
    for byte in data:
        ways = ["\\%03o" % byte, "\\x%02x" % byte]
        if 32 <= byte < 127 and byte not in b"\"\\":
            ways += [chr(byte)] * 6
        ways += {9: ["\\t"], 10: ["\\n"], 13: ["\\r"], 34: ['\\"'], 92: ["\\\\"], 7: ["\\a"], 0: ["\\0"]}.get(byte, [])
        # digits after a short escape would be read with it
        out += rnd.choice([w for w in ways if w != "\\0"])
        if out.endswith(ways[1]):
            out += '" "'
    return '"' + out + '"'


def literal(kind):
    """A value of a type: as the file has it, and as it has to be read, 64 bits or bytes."""
    if kind in INTEGERS:
        low, high = INTEGERS[kind]
        n = rnd.choice((low, high, 0, 1, max(low, -1), rnd.randint(low, high), min(high, rnd.getrandbits(rnd.randint(1, 63)))))
        text = str(n) if rnd.random() < 0.7 else ("-" if n < 0 else "") + rnd.choice(("0x%X", "0x%x", "0%o")) % abs(n)
        return text if n else "0", n % 2**64
    if kind in (1, 2):
        form = "<f" if kind == 2 else "<d"
        value = struct.unpack("<f", struct.pack("<I", rnd.randrange(0x7F800000) | rnd.choice((0, 1 << 31))))[0]
        value = rnd.choice((value, 0.5, 0.0, -1.5, float(rnd.getrandbits(20))))
        return repr(value), int.from_bytes(struct.pack(form, value), "little")
    if kind == 8:
        n = rnd.randrange(2)
        return ("false", "true")[n], n
    if kind == 14:
        name = rnd.choice(list(GRADES))
        return name, GRADES[name] % 2**64
    text = "".join(rnd.choice("ab7 \u00fc\u20ac\U0001f69a\n\"\\\0\x7f") for _ in range(rnd.choice((0, 1, 3, 9, 60)))).encode()
    data = text if kind == 9 else text + rnd.randbytes(rnd.randrange(6))
    return escaped(data), data


# plant.Limits and plant.Limits.Inner: name, number, type, and how often it may be set
LIMITS = [("low", 1, 5, 1), ("high", 2, 18, 1), ("grade", 3, 14, 1), ("note", 4, 9, 1), ("next", 5, 11, 1), ("steps", 6, 13, 3),
          ("seal", 15, 12, 1), ("inner", 17, "Inner", 2), ("[plant.Limits.margin]", 300000, 13, 1), ("[plant.more]", 300001, 11, 2),
          ("[plant.last]", 536870911, 4, 1)]
UNIT = [("watt", 2047, 1, 1), ("volt", 2048, 2, 1), ("ticks", 262143, 6, 1)]
INNER = [("on", 1, 8, 1), ("shift", 2, 15, 1), ("far", 3, 16, 1), ("mask", 4, 7, 1), ("kinds", 5, "Kind", 3)]


def aggregate(members, depth):
    """A message constant, as the file has it and as it has to be read: by number the records with their types."""
    text, wanted = [], {}
    for name, number, kind, most in rnd.sample(members, rnd.randint(0, min(4, len(members)))):
        for _ in range(rnd.randint(1, most)):
            if kind == 11 and depth == 0:
                continue
            if kind == "Kind":
                n = rnd.randrange(2)
                one, value, of = ("NONE", "SOME")[n], (7, -7 % 2**64)[n], 14
            elif kind in (11, "Inner"):
                one, value = aggregate(INNER, 0) if kind == "Inner" else aggregate(LIMITS + [rnd.choice(UNIT)], depth - 1)
                of = 11
            else:
                (one, value), of = literal(kind), kind
            text.append("%s%s %s" % (name, "" if of == 11 and rnd.random() < 0.5 else ":", one))
            wanted.setdefault(number, []).append((of, value))
    return "{ " + rnd.choice((" ", ", ")).join(text) + " }", wanted


def drawn_options(on_message):
    """Some options of a field or of a message, as the file has them, and what has to be read of them, as `aggregate` has it."""
    options, expected, used = [], {}, set()
    for _ in range(rnd.choice((1, 1, 2, 3, 5, 8))):
        kind, repeated = rnd.choice(list(NAMES) + [11, 11, 11]), rnd.random() < 0.5
        if on_message:
            repeated = kind in (11, 14)
        if not repeated and kind in used:
            continue
        used.add(None if repeated else kind)
        text, value = literal(kind) if kind != 11 else aggregate(LIMITS + [rnd.choice(UNIT)], rnd.randrange(4))
        first, number = ("m", 60000) if on_message else ("fr", 51000) if repeated else ("f", 50000)
        options.append("(plant.%s_%s) = %s" % (first, NAMES[kind], text))
        expected.setdefault(number + kind, []).append((kind, value))
    return options, expected


def drawn_file(many):
    """A file of a message with so many fields and messages in it, each with some options; and of each what has to be read."""
    lines, wanted = ['syntax = "proto2";', "package drawn;", 'import "plant_options.proto";', "message M {"], []
    for n in range(many):
        on_message = rnd.random() < 0.3
        options, expected = drawn_options(on_message)
        if on_message:
            lines.append("  message v%d { %s }" % (n, " ".join("option %s;" % option for option in options)))
        else:
            lines.append("  optional int32 v%d = %d [%s];" % (n, n + 1, ", ".join(options)))
        wanted.append(expected)
    return "\n".join(lines + ["}", ""]), wanted


def by_number(data, tree):
    """What the rows have, as `aggregate` has it: protoc writes the records of one number in the order of the file."""
    found = {}
    for _, (_, number, kind, _, place, size, low, high), _, below in tree:
        value = by_number(data, below) if kind == 11 else data[place : place + size] if kind in (9, 12) else low | high << 32
        found.setdefault(number, []).append((kind, value))
    return found


# ---- cases
TABLE = {"on": [GOOGLE + kind for _, kind in OPTIONS.values()], "otherwise": ["18: a group", "19: packed"],
         "cases with a record of type": [n for n in range(1, 19) if n != py.GROUP], "cases with a record at level": list(range(6)),
         "query of so many parts, answered": list(range(1, 6)), "query of so many parts, absent": list(range(2, 7))}


def cases_of(made, seen):
    """A listing of the bytes of each options, and the query of each option in them."""
    for name, kind, data in made.options:
        try:
            reading = py.Reading(made.schema, kind, data)
        except py.Otherwise as otherwise:
            seen["otherwise", "%d: %s" % (otherwise.number, otherwise.why)] += 1
            yield name, None, Case(name, made, kind, data, ["answer %d" % otherwise.number, listing.NAMES[otherwise.number]])
            continue
        note(reading, seen)
        seen["on", kind] += 1
        py.check_real(made.schema, reading, kind, data, collections.Counter())
        yield name, reading, Case(name, made, kind, data, answer(reading))
        for fields in paths(reading.tree):
            row = py.follow(reading.tree, fields)
            seen["query of so many parts, " + ("answered" if row else "absent"), len(fields)] += 1
            asked = b"".join(py.part(x, rnd.random() < 0.5) for x in fields)
            yield name, None, Case(name, made, kind, data, ["answer 0", line(row) if row else "absent"], asked)


def paths(tree, before=()):
    """Each name that leads to something in the bytes, and of a message one that may lead to nothing."""
    for field in dict.fromkeys(item[0] for item in tree if item[0] is not None):
        name = list(before) + [field]
        yield name
        if field.type == MESSAGE and len(name) < 16:
            inside = [item for same in tree if same[0] is field for item in same[3]]
            yield from paths(inside, name)
            if field.message_type.fields:
                yield name + [rnd.choice(list(field.message_type.fields))]


def run(made, seen, wanted=None):
    """The cases of a set. Of a drawn file the records are held against what was drawn."""
    out = []
    for name, reading, case in cases_of(made, seen):
        out.append(case)
        if wanted is not None and reading is not None:
            read = by_number(case.data, reading.tree)
            assert read == wanted[int(name.rsplit("/v", 1)[1])], (name, read)
            seen["records that are as they were drawn", ""] += len(reading.rows)
    return out


def main():
    parser = argparse.ArgumentParser(usage=__doc__.split("usage: ")[1].split("\n\n")[0])
    parser.add_argument("files", nargs="?", default="40")
    parser.add_argument("seed", nargs="?", default="1")
    parser.add_argument("--program", default=listing.PROGRAMS["list"])
    parser.add_argument("--query", default=listing.PROGRAMS["query"])
    args = parser.parse_args()
    programs = {"list": None if args.program == "none" else args.program, "query": None if args.query == "none" else args.query}
    rnd.seed(int(args.seed))
    python_options.rnd.seed(int(args.seed))
    seen, calls, start = collections.Counter(), collections.Counter(), time.time()
    differ = compare(run(Set(compiled(["plant_use.proto"], [FOLDER])), seen), programs, calls)
    by_hand = dict(calls)
    for n in range(int(args.files)):
        with tempfile.TemporaryDirectory() as folder:
            text, wanted = drawn_file(60)
            open(folder + "/drawn.proto", "w").write(text)
            made = Set(compiled(["drawn.proto"], [FOLDER, folder]), rnd.shuffle)
        made.options = [x for x in made.options if x[0].startswith("/drawn.proto/")]
        differ += compare(run(made, seen, wanted), programs, calls)
        if n % 10 == 9:
            told = "%d files, %d listings, %d s, %d differ" % (n + 1, calls["list"], time.time() - start, differ)
            print(told, file=sys.stderr, flush=True)
        if differ >= 5:
            break
    python_options.table(seen, TABLE)
    told = subprocess.run(["protoc", "--version"], stdout=subprocess.PIPE, encoding="utf-8", check=True).stdout.strip()
    print("%s, python3-protobuf %s, %s; by hand: listings %d, queries %d; drawn files %s: listings %d, queries %d" % (
        told, py.version(), py.api_implementation.Type(), by_hand["list"], by_hand["query"], args.files,
        calls["list"] - by_hand["list"], calls["query"] - by_hand["query"]))
    for call, program in programs.items():
        print("%s: %s" % (call, program or "NOT THERE, the second implementation in its place"))
    print("%d cases, %d differ" % (sum(calls.values()), differ))
    sys.exit(1 if differ else 0)


if __name__ == "__main__":
    main()
