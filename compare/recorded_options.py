#!/usr/bin/env python3
"""Records cases of optlist and optquery whose answers are python3-protobuf's, to be replayed by the gate without protoc or python.

usage: recorded_options.py FOLDER

Writes to FOLDER optlist.stdin and optlist.stdout, optquery.stdin and optquery.stdout, which are to stand behind those that are written by
hand, and recorded.md, which says where each case comes from. Run it from the root of the repository as protoc_options.py is run. The option
bytes are all that protoc writes for plant_use.proto, then some that python builds for random schemas, chosen so that together they take
every step twice that any of them takes, and what python reads otherwise. Of a schema only what the bytes need is left, so that the sheets
are small; python reads the bytes under that schema, and its reading is what is expected, lines for people too. Where python refuses the
bytes, which of 18, 19 and 3 is answered is the second implementation's; it has to give the same to every other case.
"""
import collections
import os
import sys

import listing
import protoc_options
import python_options
import python_reading as py
import sheets
from options_reader import Listing, Sheet
from protoc_options import FOLDER, Set, compiled
from python_options import Case, Drawn, answer, line
from python_reading import MESSAGE, descriptor_pb2

SEED, DRAWN = 1, 16000
# option bytes of a drawn case are fewer, of a deep one too
MOST = 260
# how many cases take a step, and how many candidates there are for it
TWICE, CANDIDATES = 2, 5
# how many queries of so many parts there are of each type answered, and of absent ones
QUERIES = {1: 2, 2: 4, 3: 4}


# ---- schemas made smaller
def used(schema, kind, data):
    """The messages that bytes lead to, and the (message, number) that stand in them."""
    messages, numbers, todo = set(), set(), [(schema.every.message(kind).DESCRIPTOR, data)]
    while todo:
        message, payload = todo.pop()
        messages.add(message.full_name)
        for number, _, inner in py.raw(payload):
            field = schema.every.declared(message, number)
            if field is not None:
                numbers.add((message.full_name, number))
                if field.message_type is not None:
                    messages.add(field.message_type.full_name)
                    if field.type == MESSAGE and isinstance(inner, bytes):
                        todo.append((field.message_type, inner))
    return messages, numbers


def kept_field(field, numbers, message):
    out = descriptor_pb2.FieldDescriptorProto()
    out.CopyFrom(field)
    out.ClearField("oneof_index")
    out.ClearField("default_value")
    packed = field.options.packed
    out.ClearField("options")
    if packed:
        out.options.packed = True
    return out if (message, field.number) in numbers else None


def kept_scope(scope, full, inner, into, needed):
    """Fills `into` with what is left of a file or a message."""
    messages, numbers, enums = needed
    for message in inner:
        name = full + "." + message.name if full else message.name
        small = descriptor_pb2.DescriptorProto(name=message.name)
        kept_scope(message, name, message.nested_type, small, needed)
        if name in messages:
            small.field.extend(x for x in (kept_field(y, numbers, name) for y in message.field) if x)
            small.extension_range.extend(message.extension_range)
        if name in messages or small.nested_type or small.extension or small.enum_type:
            (into.message_type if isinstance(into, descriptor_pb2.FileDescriptorProto) else into.nested_type).add().CopyFrom(small)
    into.enum_type.extend(x for x in scope.enum_type if (full + "." + x.name if full else x.name) in enums)
    into.extension.extend(x for x in (kept_field(y, numbers, y.extendee.lstrip(".")) for y in scope.extension) if x)


class Small:
    """A schema with only what some bytes need, and its sheet, the file of the options type last."""

    def __init__(self, schema, kind, data):
        messages, numbers = used(schema, kind, data)
        # and of each message one scalar that does not stand there
        for name in messages:
            message = schema.every.pool.FindMessageTypeByName(name)
            more = [x.number for x in schema.every.all_declared(message) if x.message_type is None and (name, x.number) not in numbers]
            numbers |= {(name, number) for number in sorted(more)[:1]}
        enums = set()
        for message, number in numbers:
            field = schema.every.declared(schema.every.pool.FindMessageTypeByName(message), number)
            if field.enum_type is not None:
                enums.add(field.enum_type.full_name)
        self.files = []
        for file in schema.files:
            small = descriptor_pb2.FileDescriptorProto(name=file.name, package=file.package, syntax=file.syntax)
            kept_scope(file, file.package, file.message_type, small, (messages, numbers, enums))
            if small.message_type or small.extension or small.enum_type:
                small.dependency.extend(x.name for x in self.files)
                self.files.append(small)
        self.schema = py.Schema(self.files)
        self.sheet = Sheet(py.sheet(self.files[::-1]))
        assert not self.sheet.fault


class Cut:
    """A schema from which everything is left out that can be while python says the same of some bytes: for bytes that are not read."""

    def __init__(self, schema, kind, data):
        wanted = outcome(schema, kind, data)
        files, again = schema.files, True
        while again:
            again = False
            for less in fewer(files):
                try:
                    there = py.Schema(less)
                    if outcome(there, kind, data) != wanted:
                        continue
                except (TypeError, KeyError):
                    # a type that is left out
                    continue
                files, again = less, True
                break
        self.files, self.schema = files, py.Schema(files)
        self.sheet = Sheet(py.sheet(self.files[::-1]))
        assert not self.sheet.fault


def outcome(schema, kind, data):
    """What python and the second implementation come to, where python does not read the bytes as 01 does."""
    told = Listing(Sheet(py.sheet(schema.files[::-1])), kind.encode(), data).refused
    try:
        py.Reading(schema, kind, data)
    except py.Otherwise as otherwise:
        return told, otherwise.number, otherwise.why
    except py.Refuses:
        return told, "refuses"
    return None


def copied(files):
    out = [descriptor_pb2.FileDescriptorProto.FromString(file.SerializeToString()) for file in files]
    names = {file.name for file in out}
    for file in out:
        kept = [name for name in file.dependency if name in names]
        file.ClearField("dependency")
        file.dependency.extend(kept)
    return out


def places(file):
    """Each list of declarations in a file."""
    yield from (file.message_type, file.enum_type, file.extension)
    for message in py.messages_of(file):
        yield from (message.field, message.extension, message.nested_type, message.enum_type, message.oneof_decl)


def fewer(files):
    """The files with one of them left out, or one declaration."""
    for n in range(len(files)):
        yield copied(files[:n] + files[n + 1 :])
    for n, file in enumerate(files):
        for place, items in enumerate(places(file)):
            for i in range(len(items)):
                less = copied(files)
                there = list(places(less[n]))[place]
                del there[i]
                for message in py.messages_of(less[n]):
                    if not message.oneof_decl:
                        for field in message.field:
                            field.ClearField("oneof_index")
                yield less


# ---- cases
def recorded(schema, kind, data, what):
    """A case of the listing, and cases of the query, with python's answers under the smaller schema."""
    if outcome(schema, kind, data):
        small = Cut(schema, kind, data)
        told, *why = outcome(small.schema, kind, data)
        assert why[0] in (told, "refuses"), (told, why)
        case = listing.Case(what, small.sheet, kind.encode(), data)
        if told or why[0] != "refuses":
            what = "%s; python %s" % (what, "refuses" if why[0] == "refuses" else "reads otherwise: " + why[1])
            return Case(what, small, kind, data, ["answer %d" % told, listing.NAMES[told]]), []
        # tags and lengths of more than five bytes
        short = python_options.with_short_headers(case.run.rows, data)
        reading = py.Reading(small.schema, kind, short)
        what += "; python reads it with shorter tags and lengths"
        return Case(what, small, kind, data, case.run.lines() + reading.people), []
    small = Small(schema, kind, data)
    reading = py.Reading(small.schema, kind, data)
    # which names are drawn is the case's own, whatever came before it
    protoc_options.rnd.seed(data)
    queries = []
    for fields in protoc_options.paths(reading.tree):
        row = py.follow(reading.tree, fields)
        name = b"".join(py.part(x, len(queries) % 2 == 0) for x in fields)
        queries.append(Case(what, small, kind, data, ["answer 0", line(row) if row else "absent"], name))
    return Case(what, small, kind, data, answer(reading)), queries


def edge(row):
    """Where a value lies: an end of the type, zero, below zero, or between."""
    kind, value = row[2], row[6] | row[7] << 32
    signed = value - 2**64 if value >> 63 else value
    if kind in python_options.INTEGERS:
        low, high = python_options.INTEGERS[kind]
        n = signed if low else value
        return {low: "least", high: "most", 0: "zero"}.get(n, "below" if n < 0 else "above")
    if kind in (1, 2):
        top = 0x7FF0000000000000 if kind == 1 else 0x7F800000
        size = value % (2 * top) if value else 0
        return "zero" if not size else "infinity" if value % 2**(63 if kind == 1 else 31) == top else "other"
    return (signed > 0) - (signed < 0) if kind in (8, 14) else row[5] > 0


def steps(schema, sheet, kind, data):
    """What a case takes: the steps of the second implementation, what stands in lines for people, which ends of types stand in it, and what
    python says where it does not read as 01 does."""
    case = listing.Case("", sheet, kind.encode(), data)
    told = case.run
    if told.refused:
        # what stands before a refusal does not show
        few = {step[:1] if step[0] == "19" else step for step in told.seen if step[0] in ("18", "19", "3", "reply", "in a record")}
        return few | {outcome(schema, kind, data)}
    left_out = ("records", "options type", "level", "tag bytes", "overlong", "at level 31", "digits")
    few = {step for step in case.seen if step[0] not in left_out}
    few |= {("overlong", step[1]) for step in told.seen if step[0] == "overlong"}
    numbers = [(parent, row[1]) for (_, parent), row in zip(told.by, told.rows)]
    few |= {("several", declared.type) for (declared, parent), row in zip(told.by, told.rows)
            if declared and numbers.count((parent, row[1])) > 1}
    few |= {("level", step[1]) for step in told.seen if step[0] == "level" and step[1] in (0, 1, 2, 3, 4, 8, 16, 30, 31)}
    return few | {("edge", row[2], edge(row)) for row in told.rows}


def from_protoc():
    """All that protoc writes for the file, with its queries."""
    made = Set(compiled(["plant_use.proto"], [FOLDER]))
    for name, kind, data in made.options:
        if name.startswith("/plant_use.proto"):
            yield steps(made.schema, made.sheet, kind, data), recorded(made.schema, kind, data, "protoc, the options of " + name[1:])


def from_python():
    """Of drawn cases, those that take a step which few others of them take in as few bytes."""
    python_options.rnd.seed(SEED)
    sheets.rnd.seed(SEED)
    best = collections.defaultdict(list)
    for _ in range(DRAWN // 16):
        drawn = Drawn()
        for _ in range(16):
            kind = python_options.rnd.choice(drawn.kinds)
            how, data, _ = python_options.some_bytes(drawn, kind)
            if len(data) < MOST:
                taken = steps(drawn.schema, drawn.sheet, kind, data)
                for step in sorted(taken, key=str):
                    there = best[step]
                    there.append((len(data) / len(taken), len(there), taken, drawn.schema, kind, data, "python3-protobuf, " + how))
                    there.sort(key=lambda x: x[:2])
                    del there[CANDIDATES:]
    several = {(x[4], x[5]): x for there in best.values() for x in there}
    for _, _, taken, schema, kind, data, what in several.values():
        yield taken, recorded(schema, kind, data, what)


def chosen():
    """All of protoc's cases, then of python's those that together take every step twice, the fewest bytes for a step first."""
    done, out = collections.Counter(), []
    for taken, case in from_protoc():
        out.append(case)
    left = list(from_python())
    while True:
        def worth(x):
            return sum(1 for step in x[0] if done[step] < TWICE) / x[1][0].size()

        best = max(left, key=worth)
        if not worth(best):
            return out
        left.remove(best)
        done.update(best[0])
        out.append(best[1])


def written(folder, name, cases):
    digits, lines = [], []
    for case in cases:
        text = case.hex()
        digits += [text[i : i + 120] for i in range(0, len(text), 120)]
        lines += case.wanted
        assert case.second() == case.wanted, (case.what, case.hex(), case.second(), case.wanted)
    for end, text in (("stdin", digits), ("stdout", lines)):
        with open(os.path.join(folder, "%s.%s" % (name, end)), "w") as file:
            file.write("\n".join(text) + "\n")
    size, text = sum(case.size() for case in cases), sum(len(line) + 1 for line in digits)
    print("%s: %d cases, %d bytes of input, %d of its text, %d lines expected" % (name, len(cases), size, text, len(lines)))


def main():
    folder = sys.argv[1]
    py.quiet()
    lists, queries, asked = [], [], collections.Counter()
    for case, more in chosen():
        lists.append(case)
        for query in more:
            # of each number of parts and each type answered some, of small sheets
            kind = len(listing.tree(query.name)), *query.wanted[1].split()[3:4]
            if asked[kind] < QUERIES.get(kind[0], 1) and query.size() < 450:
                asked[kind] += 1
                queries.append(query)
    written(folder, "optlist", lists)
    written(folder, "optquery", queries)
    with open(os.path.join(folder, "recorded.md"), "w") as file:
        file.write(NOTE)
        for title, cases in (("optlist", lists), ("optquery", queries)):
            file.write("\n## %s\n\n" % title)
            for n, case in enumerate(cases):
                file.write("%d. %s, on %s: %s\n" % (n + 1, case.what, case.kind.decode(), "; ".join(case.wanted)[:100]))


NOTE = """# Recorded cases

Written by compare/recorded_options.py with libprotoc 3.21.12 and python3-protobuf 4.21.12 (cpp). Bytes of the cases "protoc" are those
that protoc wrote for compare/plant_use.proto, as they stand in its descriptor set; bytes of the cases "python3-protobuf" were built by it,
those of "overlong", "long" and "bits above" with varints changed afterwards, those of "damaged" with bytes changed. What is expected is
python3-protobuf's own reading (compare/python_reading.py); where it refuses, the number is the second implementation's, which gives the
same to every case.
"""

if __name__ == "__main__":
    main()
