"""A second implementation of the two tests of sheets, "clean" and "contained", and of what an older sheet lists of bytes that a newer one
wrote, for compare/evolve.py: written from 01's "Clean: .." and "Contained: .." and the readings in docs/DECISIONS.md, and not from the
definitions.

`clean(sheet)` and `contained(older, newer)` take sheets of steps.py that are in form and answer None for a yes, or the first reason
against it. `Typed(sheet, request)` is a run of steps.py that keeps the records it writes, each with its type and value, and
`listed(records, known)` is what a sheet that declares the numbers `known` has to list of them.
"""
import collections
import functools

import steps
from options_reader import value_of, varint
from steps import WIRE, Declaration, components, fields

MESSAGE, EXTENSION, ENUM, FIELD = 2, 3, 4, 5
KINDS = {MESSAGE: "message", EXTENSION: "extension", ENUM: "enum"}

# ---- the reasons, in the order of the tests of one declaration
SHARED, FIELDS, VALUES = "%s is declared more than once", "%s has two fields %s", "%s has two values %s"
EXTENDEE, NUMBER = "%s extends %s, which is no single message", "%s declares %s by a number that is declared again"
PATH = "%s has the type path %s, which is no single declaration of its kind"
NO_MESSAGE, NO_ENUM = "%s is no message of the newer", "%s is no enum of the newer"
NOT_ALIKE = "%s declares %s, which the newer does not declare alike"


def told(reason, *names):
    """A reason in words; names are full names, paths or single."""
    return reason % tuple((b".".join(name) if isinstance(name, tuple) else name).decode() for name in names)


# ---- the declarations
def declarations(sheet):
    """(kind, full name, what it holds) of each message, enum and extension, in the order of the bytes: a message its fields, an enum the
    names of its values, an extension itself."""
    return read(sheet.data)


@functools.lru_cache(16)
def read(data):
    files = [list(fields(file)) for _, file in fields(data)]
    return [declared for (_, package), *items in files for declared in within(components(package), items)]


def within(outer, items):
    for tag, payload in items:
        if tag == EXTENSION:
            declared = Declaration(payload)
            yield tag, outer + (declared.name,), [declared]
        elif tag != FIELD:
            (_, name), *inside = fields(payload)
            if tag == ENUM:
                yield tag, outer + (name,), [next(fields(value))[1] for _, value in inside]
            else:
                yield tag, outer + (name,), [Declaration(inner) for by, inner in inside if by == FIELD]
                yield from within(outer + (name,), inside)


def numbers(sheet):
    """(full name of the message, declaration) of each number that is declared: by a field of it, or by an extension of that extendee."""
    for kind, full, held in declarations(sheet):
        for declared in held if kind != ENUM else ():
            yield full if kind == MESSAGE else declared.extendee, declared


def twice(names):
    """The first of some names that is there again."""
    many = collections.Counter(names)
    return next((name for name in names if many[name] > 1), None)


# ---- clean
def clean(sheet):
    every = declarations(sheet)
    named = collections.Counter(full for _, full, _ in every)
    of_kind = collections.Counter((kind, full) for kind, full, _ in every)
    numbered = collections.Counter((message, d.number) for message, d in numbers(sheet))
    for kind, full, held in every:
        if named[full] > 1:
            return told(SHARED, full)
        if kind == ENUM:
            again = twice(held)
            if again is not None:
                return told(VALUES, full, again)
            continue
        again = twice([declared.name for declared in held]) if kind == MESSAGE else None
        if again is not None:
            return told(FIELDS, full, again)
        if kind == EXTENSION and of_kind[MESSAGE, held[0].extendee] != 1:
            return told(EXTENDEE, full, held[0].extendee)
        for declared in held:
            if numbered[full if kind == MESSAGE else declared.extendee, declared.number] > 1:
                return told(NUMBER, full, declared.name)
            if declared.path is not None and of_kind[ENUM if declared.type == 14 else MESSAGE, declared.path] != 1:
                return told(PATH, full, declared.path)
    return None


# ---- contained
def contained(older, newer):
    there = {(kind, full) for kind, full, _ in declarations(newer)}
    alike = {(message, d.number, d.name, d.type, d.path) for message, d in numbers(newer)}
    for kind, full, held in declarations(older):
        if kind != EXTENSION and (kind, full) not in there:
            return told(NO_ENUM if kind == ENUM else NO_MESSAGE, full)
        for d in held if kind != ENUM else ():
            if (full if kind == MESSAGE else d.extendee, d.number, d.name, d.type, d.path) not in alike:
                return told(NOT_ALIKE, full, d.name)
    return None


# ---- what the older lists
class Typed(steps.Run):
    """`tree` of it: (the message that it is set in, number, type, value as it is listed, what is inside) of each record, in order."""

    def __init__(self, sheet, data):
        self.here, self.made, self.inside, self.builtins = None, [], [], {}
        super().__init__(sheet, data)
        self.tree = [self.builtins[number] for number in sorted(self.builtins)] + self.made

    def option(self, message, payload):
        self.here = self.kind
        super().option(message, payload)

    def builtin(self, message, name, tag, constant):
        before = len(self.made)
        super().builtin(message, name, tag, constant)
        for record in self.made[before:]:
            self.builtins[record[1]] = record
        del self.made[before:]

    def entered(self, path, write):
        """What `write` writes is all that is inside a message of this full name."""
        outer = self.here, self.made
        self.here, self.made = path, []
        out = write()
        self.inside = self.made
        self.here, self.made = outer
        return out

    def step(self, message, path, parts, at, tag, constant):
        def write():
            return super(Typed, self).step(message, path, parts, at, tag, constant)

        return self.entered(path, write) if at else write()

    def pairs(self, path, constant):
        return self.entered(path, lambda: super(Typed, self).pairs(path, constant))

    def record(self, number, kind, payload):
        inside, self.inside = (self.inside if kind == 11 else []), []
        self.made.append((self.here, number, kind, value(kind, payload), inside))
        return super().record(number, kind, payload)


def value(kind, payload):
    """The 64 bits that are listed of a payload that was written for this type."""
    if WIRE[kind] == 2:
        return 0
    return value_of(kind, varint(payload, 0, len(payload), "value")[0] if WIRE[kind] == 0 else int.from_bytes(payload, "little"))


def listed(records, known, level=0):
    """(level, number, type, value) of each record: those of numbers that are not known have type and value 0, and nothing inside."""
    for message, number, kind, bits, inside in records:
        if (message, number) in known:
            yield level, number, kind, bits
            yield from listed(inside, known, level + 1)
        else:
            yield level, number, 0, 0
