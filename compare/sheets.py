"""Sheets for compare/resolve.py, as objects.

A plan is a sheet that is clean by construction, of few names so that they meet. `spoiled` takes a plan's cleanness away, `crossed` lets
only names of extensions meet. Everything is drawn from `rnd`, which the caller seeds.
"""
import random
import struct

import descriptor
from steps import EIGHT

rnd = random.Random()


def f(tag, payload=b""):
    return bytes([tag]) + struct.pack(">H", len(payload)) + payload


def dotted(path):
    return b".".join(path)


# ---- sheets as objects
class Declared:
    """A field, or an extension where it has an extendee."""

    def __init__(self, name, number, kind, label=1, path=None, extendee=None):
        self.name, self.number, self.kind, self.label, self.path, self.extendee = name, number, kind, label, path, extendee

    def encoded(self):
        leaves = f(0x11, self.name) + (f(0x12, dotted(self.extendee)) if self.extendee else b"")
        leaves += f(0x13, struct.pack(">I", self.number)) + f(0x14, bytes([self.kind])) + f(0x15, bytes([self.label]))
        return f(3 if self.extendee else 5, leaves + (f(0x16, dotted(self.path)) if self.kind in (10, 11, 14) else b""))


class Enum:
    def __init__(self, name, values):
        self.name, self.values = name, values

    def encoded(self):
        values = b"".join(f(6, f(0x11, name) + f(0x17, struct.pack(">i", number))) for name, number in self.values)
        return f(4, f(0x11, self.name) + values)


class Message:
    """A message, or a file where it has no name; `full` is its full name or the package."""

    def __init__(self, name, full):
        self.name, self.full = name, full
        self.messages, self.extensions, self.enums, self.fields = [], [], [], []

    def encoded(self, shuffle):
        items = [m.encoded(shuffle) for m in self.messages] + [d.encoded() for d in self.extensions + self.enums + self.fields]
        if shuffle:
            shuffle(items)
        if self.name is None:
            return f(1, f(0x10, dotted(self.full)) + b"".join(items))
        return f(2, f(0x11, self.name) + b"".join(items))


def google_messages():
    """descriptor.py's table as messages."""
    top, stack = [], []
    for line in descriptor.TABLE.strip().splitlines():
        words = line.split()
        stack = stack[: (len(line) - len(line.lstrip())) // 2]
        if words[0] == "message":
            name = words[1].encode()
            message = Message(name, (stack[-1].full if stack else descriptor.PACKAGE) + (name,))
            (stack[-1].messages if stack else top).append(message)
            stack.append(message)
        elif words[0] == "enum":
            values = [value.split("=") for value in words[2:]]
            stack[-1].enums.append(Enum(words[1].encode(), [(name.encode(), int(number)) for name, number in values]))
        else:
            label, kind, name, _, number = words
            stack[-1].fields.append(google_field(label, kind, name.encode(), int(number)))
    return top


def google_field(label, kind, name, number):
    label = 1 + ["optional", "required", "repeated"].index(label)
    plain = {"double": 1, "int64": 3, "uint64": 4, "bool": 8, "string": 9, "bytes": 12}
    if kind in plain:
        return Declared(name, number, plain[kind], label)
    is_message = kind.split(".")[0] == "UninterpretedOption"
    return Declared(name, number, 11 if is_message else 14, label, descriptor.PACKAGE + tuple(kind.encode().split(b".")))


WORDS = [[b"a", b"b", b"c", b"M"], [b"plant", b"fleet", b"Dispatch", b"north"]]
EXTENSIONS = [[b"x", b"y", b"z", b"a"], [b"order", b"rank", b"plant", b"note"]]
FIELDS = [b"a", b"b", b"v", b"w", b"x", b"y", b"order", b"default", b"json_name"]
KINDS = list(range(1, 19)) + [11] * 5 + [14] * 2 + [10]
LABELS = [1] * 7 + [2, 3, 3]
VALUES = [0, 1, 2, -1, -2, 127, 128, -(2**31), 2**31 - 1]
EDGES = [1, 15, 16, 2047, 2048, 262143, 262144, 33554431, 33554432, 536870911]


class Plan:
    def __init__(self, google=False, wide=False):
        which = rnd.randrange(2)
        self.words, self.names = WORDS[which], EXTENSIONS[which]
        self.files, self.messages, self.enums, self.on, self.numbers, self.taken = [], {}, {}, {}, {}, set()
        self.extensions = []
        chain = rnd.random() < 0.04
        for _ in range(rnd.choice((1, 1, 2, 2, 2, 3, 3, 4, 5, 6))):
            self.files.append(Message(None, self.package()))
            self.grow(self.files[-1], 16 if chain else rnd.choice((1, 2, 2, 3, 4)), chain)
        self.kind = self.options(google)
        rnd.shuffle(self.files)
        if not self.enums:
            self.enum(rnd.choice(self.files))
        if rnd.random() < 0.35 or wide:
            self.turn_back()
        if wide:
            self.all_kinds()
        self.declare()
        self.scopes = [x.full for x in self.files] + list(self.messages)
        self.data = self.encoded()

    def encoded(self):
        return b"".join(x.encoded(rnd.shuffle) for x in self.files)

    # ---- names
    def package(self):
        if self.files and rnd.random() < 0.35:
            last = rnd.choice(self.files).full
            return rnd.choice((last, last + (rnd.choice(self.words),), last[:-1]))
        return tuple(rnd.choice(self.words) for _ in range(rnd.choice((0, 1, 1, 2, 2, 3))))

    def free(self, path, names):
        found = [name for name in names if path + (name,) not in self.taken]
        return rnd.choice(found) if found else None

    def message(self, outer, name):
        message = Message(name, outer.full + (name,))
        outer.messages.append(message)
        self.taken.add(message.full)
        self.messages[message.full] = message
        return message

    def grow(self, outer, depth, chain):
        for _ in range(1 if chain else rnd.choice((0, 1, 1, 2) if depth else (0,))):
            name = self.free(outer.full, self.words) if depth else None
            if name:
                self.grow(self.message(outer, name), depth - 1, chain)
        if rnd.random() < (0.05 if chain else 0.2):
            self.enum(outer)

    def enum(self, outer):
        name = self.free(outer.full, [b"E", b"D"] + self.words)
        if name:
            values = rnd.sample([b"A", b"B", b"C", b"x", b"true", b"inf"], rnd.choice((0, 1, 2, 2, 3, 4)))
            enum = Enum(name, [(v, rnd.choice(VALUES)) for v in values])
            outer.enums.append(enum)
            self.taken.add(outer.full + (name,))
            self.enums[outer.full + (name,)] = enum

    # ---- what is declared
    def options(self, google):
        """The options type: one of descriptor.proto's with its own fields, of a file `o`, or any message."""
        if not google:
            self.files.append(Message(None, (b"o",)))
            made = [self.message(self.files[-1], name) for name in (b"F", b"G") if self.free((b"o",), [name])]
            if rnd.random() < 0.5:
                self.enum(self.files[-1])
            return rnd.choice(list(self.messages)) if rnd.random() < 0.3 else made[0].full
        kept = {rnd.choice([b"FieldOptions"] * 4 + EIGHT), rnd.choice(EIGHT)}
        kind = rnd.choice(sorted(kept))
        file = Message(None, descriptor.PACKAGE)
        for message in google_messages():
            if message.name in kept or message.name == b"UninterpretedOption":
                file.messages.append(message)
                self.adopt(message)
        self.files.append(file)
        return descriptor.PACKAGE + (kind,)

    def adopt(self, message):
        self.taken.add(message.full)
        self.messages[message.full] = message
        self.numbers[message.full] = {d.number for d in message.fields}
        for enum in message.enums:
            self.taken.add(message.full + (enum.name,))
            self.enums[message.full + (enum.name,)] = enum
        for inner in message.messages:
            self.adopt(inner)

    def own(self, path):
        return path[:2] != descriptor.PACKAGE

    def number(self, message):
        used = self.numbers.setdefault(message, set())
        while True:
            number = rnd.choice(EDGES) if rnd.random() < 0.3 else 1 + rnd.getrandbits(rnd.choice((4, 4, 11, 16, 18, 25, 28)))
            if not self.own(message):
                number = number % 536869911 + 1000
            if number not in used:
                used.add(number)
                return number

    def shape(self, message, kind=None):
        kind = kind or rnd.choice(KINDS)
        path = None
        if kind in (10, 11):
            path = rnd.choice(list(self.messages))
        elif kind == 14:
            path = rnd.choice(list(self.enums)) if self.enums else None
        if kind == 14 and path is None:
            kind = 13
        return self.number(message), kind, rnd.choice(LABELS), path

    def field(self, message, name, kind=None):
        if name not in {d.name for d in message.fields}:
            message.fields.append(Declared(name, *self.shape(message.full, kind)))

    def extension(self, outer, extendee, kind=None, name=None):
        name = name or self.free(outer.full, self.names)
        if name and outer.full + (name,) not in self.taken:
            declared = Declared(name, *self.shape(extendee, kind), extendee)
            outer.extensions.append(declared)
            self.taken.add(outer.full + (name,))
            self.on.setdefault(extendee, []).append((outer.full, declared))
            self.extensions.append((outer.full, declared))

    def place(self):
        """Where an extension stands: a file or a message of the plan."""
        own = [m for path, m in self.messages.items() if self.own(path)]
        return rnd.choice([x for x in self.files if self.own(x.full)] + own + own) if rnd.random() < 0.97 else rnd.choice(self.files)

    def declare(self):
        for path, message in self.messages.items():
            if self.own(path):
                for _ in range(rnd.choice((0, 0, 1, 1, 2, 3)) + (2 if path == self.kind else 0)):
                    self.field(message, rnd.choice(FIELDS))
        if rnd.random() < 0.25:
            self.shadows()
        for _ in range(rnd.choice((1, 2, 3, 4, 5, 6, 8))):
            self.extension(self.place(), self.kind if rnd.random() < 0.65 else rnd.choice(list(self.messages)))

    def shadows(self):
        """One name in every scope on the way to a message, mostly of the options type."""
        deepest, name = max(self.messages, key=len), rnd.choice(self.names)
        for outer in self.files + list(self.messages.values()):
            if outer.full == deepest[: len(outer.full)] and self.own(outer.full):
                self.extension(outer, self.kind if rnd.random() < 0.8 else rnd.choice(list(self.messages)), None, name)

    def turn_back(self):
        """A message that holds itself, so that names and constants can go as deep as they may."""
        outer = rnd.choice([x for x in self.files if self.own(x.full)] or self.files)
        name = self.free(outer.full, [b"R"])
        if name:
            message = self.message(outer, name)
            message.fields.append(Declared(b"r", self.number(message.full), 11, rnd.choice(LABELS), message.full))
            self.extension(outer, message.full, rnd.choice((10, 11, 11)), b"rr")
            for declared in message.extensions + outer.extensions:
                if declared.name == b"rr":
                    declared.path = message.full
            outer.extensions.append(Declared(b"rx", self.number(self.kind), 11, 1, message.full, self.kind))
            self.taken.add(outer.full + (b"rx",))
            self.on.setdefault(self.kind, []).append((outer.full, outer.extensions[-1]))
            self.extensions.append((outer.full, outer.extensions[-1]))
            if self.own(self.kind) and b"r" not in {d.name for d in self.messages[self.kind].fields}:
                self.messages[self.kind].fields.append(Declared(b"r", self.number(self.kind), 11, 1, message.full))

    def all_kinds(self):
        """Of every type an extension of the options type, a builtin, and a field inside a message."""
        outer = rnd.choice(self.files)
        inside = self.message(outer, b"W") if self.free(outer.full, [b"W"]) else None
        for kind in range(1, 19):
            if rnd.random() < 0.5:
                self.extension(self.place(), self.kind, kind, b"x%d" % kind)
            if self.own(self.kind) and rnd.random() < 0.5:
                self.field(self.messages[self.kind], b"f%d" % kind, kind)
            if inside and rnd.random() < 0.5:
                self.field(inside, b"w%d" % kind, kind)
        if inside:
            self.extension(self.place(), self.kind, 11, b"xw")
            for _, declared in self.extensions:
                if declared.name == b"xw":
                    declared.path = inside.full

    # ---- what a request can name
    def inside(self, declared):
        return self.messages.get(declared.path)


# ---- sheets that are not clean
def spoiled(plan):
    """A plan whose sheet breaks one or two of the rules of "Clean"; what the plan says of it still guides the requests."""
    for _ in range(rnd.choice((1, 1, 2, 3, 4))):
        rnd.choice((double_message, double_enum, double_extension, double_extension, double_field, other_path, other_extendee, double_value,
                    same_number, other_path, other_path, double_message))(plan)
    plan.data = plan.encoded()
    return plan


def crossed(plan):
    """A plan that is clean but for the full names of extensions: 01's search decides among them as the original's does."""
    for _ in range(rnd.choice((1, 1, 2))):
        double_extension(plan, rename=True)
    plan.data = plan.encoded()
    return plan


def double_message(plan):
    """A message of the same full name: in the same file, in another one of that package, or by another package."""
    full, message = rnd.choice(list(plan.messages.items()))
    outer = Message(None, full[:-1] if rnd.random() < 0.6 else full[: rnd.randrange(len(full))])
    inner, at = outer, len(outer.full)
    for part in full[at:]:
        inner.messages.append(Message(part, inner.full + (part,)))
        inner = inner.messages[-1]
    inner.fields = [d for d in message.fields if rnd.random() < 0.6]
    if rnd.random() < 0.5:
        same = [x for x in plan.files if x.full == outer.full]
        if same:
            same[0].messages.append(outer.messages[0])
            return
    plan.files.insert(rnd.randrange(len(plan.files) + 1), outer)


def double_enum(plan):
    if plan.enums:
        full, enum = rnd.choice(list(plan.enums.items()))
        places = [x for x in plan.files if x.full == full[:-1]] + [m for path, m in plan.messages.items() if path == full[:-1]]
        other = Enum(enum.name, [(name, number + 1) for name, number in enum.values if number < 2**31 - 1])
        if places and rnd.random() < 0.4:
            rnd.choice(places).enums.append(other)
        else:
            plan.files.append(Message(None, full[:-1]))
            plan.files[-1].enums.append(other)


def double_extension(plan, rename=False):
    if plan.extensions:
        outer, declared = rnd.choice(plan.extensions)
        kind = rnd.choice((5, 8, 9, 13))
        extendee = rnd.choice((declared.extendee, plan.kind, rnd.choice(list(plan.messages))))
        again = Declared(declared.name, plan.number(extendee) if rename else declared.number, kind, 1, None, extendee)
        places = [x for x in plan.files if x.full == outer] + [m for path, m in plan.messages.items() if path == outer]
        if rnd.random() < 0.4 or not places:
            places = [Message(None, outer)]
            plan.files.insert(rnd.randrange(len(plan.files) + 1), places[0])
        rnd.choice(places).extensions.append(again)


def double_field(plan):
    message = rnd.choice(list(plan.messages.values()))
    if message.fields:
        declared = rnd.choice(message.fields)
        message.fields.append(Declared(declared.name, plan.number(message.full), rnd.choice((5, 8, 9, 13)), rnd.choice(LABELS)))


def same_number(plan):
    message = rnd.choice(list(plan.messages.values()))
    if message.fields:
        declared = rnd.choice(message.fields)
        message.fields.append(Declared(b"again", declared.number, rnd.choice((8, 8, 9, 13)), 1))


def other_path(plan):
    every = [d for m in plan.messages.values() for d in m.fields] + [d for _, d in plan.extensions]
    every = [d for d in every if d.path is not None]
    for declared in rnd.sample(every, min(len(every), rnd.choice((1, 2, 3)))):
        path, any_enum = declared.path, list(plan.enums) or [(b"none",)]
        declared.path = rnd.choice((path + (b"none",), path[1:] or (b"none",), (b"none",), rnd.choice(plan.scopes) or (b"o",),
                                    rnd.choice(any_enum)))


def other_extendee(plan):
    if plan.extensions:
        _, declared = rnd.choice(plan.extensions)
        declared.extendee = rnd.choice((declared.extendee[1:] or (b"none",), declared.extendee + (b"none",), (b"none",)))


def double_value(plan):
    if plan.enums:
        enum = rnd.choice(list(plan.enums.values()))
        if enum.values:
            name, number = rnd.choice(enum.values)
            enum.values.append((name, number // 2 + 1))
