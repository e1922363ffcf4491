#!/usr/bin/env python3
"""A second implementation of the listing and of the value query, for compare/listing.py: written from 01's rules and the readings in
docs/DECISIONS.md, and not from the definitions. The form is form.py's.

`Sheet(data)` reads a sheet and keeps every declaration with its place. `Listing(sheet, kind, data)` reads option bytes under an options
type; `Query(sheet, kind, name, data)` asks them for the value of a name. `lines()` of either is what optlist or optquery has to print,
lines for people apart, and `seen` holds every step that was taken. `rows(sheet, kind, data)` is the listing alone, as tuples of eight.

Where a query is refused: before each thing that the steps of its name judge it is noted what that is and which part would be refused, so
that the last note is the place. Nothing else that is refused has one.
"""
import form
from steps import NAMES as STEP_NAMES

NAMES = {**STEP_NAMES, 17: "NoRoom", 18: "BadBytes", 19: "WireMismatch"}
VARINT, I64, LEN, GROUP, I32 = 0, 1, 2, 3, 5
# the wire type of each of the 18 types, from 1 on
WIRE = {1: I64, 2: I32, 3: VARINT, 4: VARINT, 5: VARINT, 6: I64, 7: I32, 8: VARINT, 9: LEN, 10: GROUP, 11: LEN, 12: LEN, 13: VARINT,
        14: VARINT, 15: I32, 16: I64, 17: VARINT, 18: VARINT}
MESSAGE, GROUP_TYPE = 11, 10
MOST_NUMBER, MOST_BYTES, LAST_LEVEL = 536870911, 65536, 31


class Refused(Exception):
    """`place` is what refused and the part of a name that it did so at, where there is one."""

    def __init__(self, number):
        self.number, self.place = number, None


# ---- the sheet
class Declared:
    """A field, or an extension where it has an extendee. `place` is where it stands in the sheet, and tells it from all others; `outer` is
    the full name of the file or message that it stands in, and `reached` whether a path leads there."""

    __slots__ = ("place", "outer", "reached", "name", "extendee", "number", "type", "label", "path")

    def __init__(self, place, outer, reached, leaves):
        self.place, self.outer, self.reached, self.extendee, self.path = place, outer, reached, None, None
        for tag, at, payload in leaves:
            if tag == 0x11:
                self.name = payload
            elif tag == 0x12:
                self.extendee = payload
            elif tag == 0x13:
                self.number = int.from_bytes(payload, "big")
            elif tag == 0x14:
                self.type = payload[0]
            elif tag == 0x15:
                self.label = payload[0]
            elif tag == 0x16:
                self.path = payload


class Scope:
    """A message, or a file: what it declares itself, in the order of the bytes. Of messages of one name the first is kept."""

    def __init__(self, is_message):
        self.is_message, self.messages, self.fields, self.extensions = is_message, {}, [], []


def fields(data, at):
    """Tag, place and payload of each field of well-formed bytes that stand at that place of the sheet."""
    i = 0
    while i < len(data):
        size = data[i + 1] * 256 + data[i + 2]
        yield data[i], at + i, data[i + 3 : i + 3 + size]
        i += 3 + size


class Sheet:
    def __init__(self, data):
        self.data, self.fault, self.files, self.extensions, self.cache = data, None, [], [], {}
        try:
            form.sheet(data)
        except form.Fault as fault:
            self.fault = fault.args[0]
            return
        for _, at, payload in fields(data, 0):
            (_, _, package), *inside = fields(payload, at + 3)
            names = package.split(b".") if package else []
            self.files.append((names, self.scope(False, names, True, inside)))

    def scope(self, is_message, full, reached, inside):
        here = Scope(is_message)
        for tag, at, payload in inside:
            inner = list(fields(payload, at + 3))
            if tag == 2:
                # extensions in a message that no path leads to are kept too, among all extensions
                name = inner[0][2]
                message = self.scope(True, full + [name], reached and name not in here.messages, inner[1:])
                here.messages.setdefault(name, message)
            elif tag == 3:
                declared = Declared(at, full, reached, inner)
                here.extensions.append(declared)
                self.extensions.append(declared)
            elif tag == 5:
                here.fields.append(Declared(at, full, reached, inner))
        return here

    def scopes(self, names):
        """The scopes at a path: of each file whose package leads it one at most; fewest package components first, then in file order."""
        found = []
        for package, here in self.files:
            if names[: len(package)] == package:
                for name in names[len(package) :]:
                    here = here.messages.get(name) if here else None
                if here:
                    found.append((len(package), here))
        return [scope for _, scope in sorted(found, key=lambda pair: pair[0])]

    def message(self, path):
        """The message of a full name; 7 for none, 8 for more than one."""
        found = [scope for scope in self.scopes(path.split(b".")) if scope.is_message]
        if len(found) != 1:
            raise Refused(8 if found else 7)
        return found[0]

    def extension(self, text):
        """The extension of a name from an empty scope, or None: one candidate, with a leading dot or without."""
        *outer, last = text.lstrip(b".").split(b".")
        for scope in self.scopes(outer):
            for declared in scope.extensions:
                if declared.name == last:
                    return declared
        return None

    def numbered(self, message, path, number):
        """All that declares a number at a message, the one that counts first: fields of the message, then extensions of it by the order of
        the bytes of the sheet. Extendees are compared with the path that the message was reached by."""
        key = id(message), path
        if key not in self.cache:
            known = {}
            for declared in message.fields + [e for e in self.extensions if e.extendee == path]:
                known.setdefault(declared.number, []).append(declared)
            self.cache[key] = known
        return self.cache[key].get(number, [])


# ---- varints
def varint(data, at, end, what):
    """The value and where it ends; `what` says whose fault it is."""
    value = 0
    for i in range(10):
        if at + i >= end:
            raise Fault(what + " cut")
        byte = data[at + i]
        if i == 9 and byte > 1:
            raise Fault(what + (" of eleven bytes" if byte > 127 else " above 64 bits"))
        value |= (byte & 127) << (7 * i)
        if byte < 128:
            return value, at + i + 1
    raise AssertionError


def shortest(value):
    return max(1, (value.bit_length() + 6) // 7)


class Fault(Exception):
    """Of the bytes: 18."""


def widened(bits, width):
    """A number of so many bits as 64, by its sign."""
    return bits - (1 << width) + (1 << 64) if bits >> (width - 1) else bits


def value_of(kind, bits):
    """The 64 bits that are listed, of the 64 or fewer that the record has."""
    low = bits % 2**32
    if kind in (5, 14, 15):
        return widened(low, 32)
    if kind == 17:
        return widened(low >> 1 if low % 2 == 0 else 2**32 - 1 - (low >> 1), 32)
    if kind in (13, 2, 7):
        return low
    if kind == 18:
        return bits >> 1 if bits % 2 == 0 else 2**64 - 1 - (bits >> 1)
    return int(bits != 0) if kind == 8 else bits


# ---- the listing
class Listing:
    def __init__(self, sheet, kind, data):
        self.sheet, self.kind, self.data = sheet, kind, data
        self.seen, self.refused, self.rows, self.by, self.message, self.place, self.stage = set(), None, [], [], None, None, None
        try:
            self.run()
        except Refused as refused:
            self.refused, self.place = refused.number, refused.place
        self.note("reply", self.refused or 0)

    def note(self, *what):
        self.seen.add(what)

    def lines(self):
        if self.refused:
            return ["answer %d" % self.refused, NAMES[self.refused]]
        return ["answer 0"] + ["record " + " ".join(map(str, row)) for row in self.rows]

    def stages(self):
        """What is judged, in the order of the call."""
        return [("sheet", self.sheet_form), ("form of the type", self.type_form), ("type", self.options_type), ("bytes", self.read)]

    def run(self):
        """The stages in order, and the first fault. Those behind it are judged too, as far as they can be by themselves, only to see where
        several are at fault: what they note is dropped."""
        first = None
        for what, stage in self.stages():
            kept = set(self.seen)
            try:
                stage()
            except Refused as refused:
                if first:
                    kept.add(("order", self.stage, what))
                else:
                    first, self.stage = refused, what
                    continue
            if first:
                self.seen = kept
        if first:
            raise first

    def sheet_form(self):
        if self.sheet.fault:
            self.note("sheet", self.sheet.fault)
            raise Refused(self.sheet.fault)

    def type_form(self):
        if not form.rel(self.kind):
            self.note("options type", 2)
            raise Refused(2)

    def options_type(self):
        if len(self.data) > MOST_BYTES:
            raise Refused(3)
        if not self.sheet.fault and form.rel(self.kind):
            self.message = self.looked_up(self.kind, "options type")

    def read(self):
        if self.message is None:
            # whatever the type is
            if self.data:
                try:
                    varint(self.data, 0, len(self.data), "tag")
                except Fault:
                    raise Refused(18) from None
            return
        self.inside(self.message, self.kind, 0, len(self.data), 0, None)
        self.note("records", len(self.rows) if len(self.rows) < 5 else "5 and more" if len(self.rows) < 1000 else "1000 and more")

    def looked_up(self, path, what):
        try:
            found = self.sheet.message(path)
        except Refused as refused:
            self.note(what, refused.number)
            raise
        self.note(what, 0)
        return found

    def bad(self, what, level):
        self.note("18", what)
        self.note("18 at", "level 0" if level == 0 else "further in")
        raise Refused(18)

    def inside(self, message, path, at, end, level, parent):
        """The records of a message between two places."""
        while at < end:
            at = self.record(message, path, at, end, level, parent)

    def record(self, message, path, at, end, level, parent):
        start = at
        try:
            tag, at = varint(self.data, at, end, "tag")
        except Fault as fault:
            self.bad(fault.args[0], level)
        number, wire = divmod(tag, 8)
        if not 1 <= number <= MOST_NUMBER:
            self.bad("number 0" if number == 0 else "number %s" % ("a bit too large" if number < 2**32 else "above 32 bits"), level)
        all_of_it = self.sheet.numbered(message, path, number)
        declared = all_of_it[0] if all_of_it else None
        if wire in (3, 4, 6, 7):
            self.bad("wire type %d, %s" % (wire, "unknown" if not declared else "group" if declared.type == 10 else "known"), level)
        if at - start > shortest(tag):
            self.note("overlong", "tag", at - start)
        self.note("tag bytes", at - start)
        kind = declared.type if declared else 0
        if declared and WIRE[declared.type] != wire:
            self.note("19", declared.type, wire)
            self.both("19 and payload", lambda: self.payload(wire, kind, at, end, level))
            raise Refused(19)
        try:
            bits, place, after = self.payload(wire, kind, at, end, level)
        except Refused:
            if kind == MESSAGE:
                self.both("payload and type path", lambda: self.sheet.message(declared.path))
                self.both("payload and level", lambda: self.last_level(level, at, end))
            raise
        value = value_of(kind, bits) if declared and wire != LEN else 0
        if kind == MESSAGE:
            try:
                inner = self.looked_up(declared.path, "type path")
            except Refused:
                self.both("type path and level", lambda: self.last_level(level, place, after))
                raise
            self.last_level(level, place, after)
        self.noted(declared, all_of_it, wire, level, bits, value, after - place)
        self.rows.append((level, number, kind, wire, place, after - place, value % 2**32, value >> 32))
        self.by.append((declared, parent))
        if kind == MESSAGE:
            self.inside(inner, declared.path, place, after, level + 1, len(self.rows) - 1)
        return after

    def last_level(self, level, place, after):
        if level == LAST_LEVEL:
            self.note("3", "level 31, empty" if place == after else "level 31")
            raise Refused(3)

    def both(self, what, other):
        """A record that is refused has another fault, which comes later."""
        kept = set(self.seen)
        try:
            other()
        except Refused:
            kept.add(("in a record", what))
        self.seen = kept

    def payload(self, wire, kind, at, end, level):
        """The bits of a scalar, and where the payload lies."""
        if wire in (I64, I32):
            size = 8 if wire == I64 else 4
            if end - at < size:
                self.bad("%d bytes cut" % size, level)
            return int.from_bytes(self.data[at : at + size], "little"), at, at + size
        try:
            bits, after = varint(self.data, at, end, "value" if wire == VARINT else "length")
        except Fault as fault:
            self.bad(fault.args[0], level)
        if after - at > shortest(bits):
            self.note("overlong", "value" if wire == VARINT else "length", after - at)
            if wire == VARINT:
                self.note("overlong value of", kind)
        if wire == VARINT:
            return bits, at, after
        if bits > end - after:
            self.bad("length past its message" if bits <= len(self.data) - after else "length past the bytes", level)
        return 0, after, after + bits

    def noted(self, declared, all_of_it, wire, level, bits, value, size):
        self.note("level", level)
        if declared is None:
            return self.note("unknown", wire)
        self.note("listed", declared.type)
        if level == 31:
            self.note("at level 31", declared.type)
        how = "extension" if declared.reached else "extension that no path leads to"
        self.note("known by", "field" if declared.extendee is None else how)
        if len(all_of_it) > 1:
            other = all_of_it[1]
            kinds = ["field" if d.extendee is None else "extension" for d in (declared, other)]
            self.note("number twice", *kinds, "before" if declared.place < other.place else "after")
        if wire == LEN:
            return self.note("payload", declared.type, "empty" if size == 0 else "1 to 127" if size < 128 else "128 and more")
        if wire == VARINT and declared.type in (5, 13, 14, 17) and bits >> 32:
            self.note("low 32 bits kept of", declared.type, "a widened number" if bits >> 31 == 2**33 - 1 else "others")
        if declared.type in (3, 5, 14, 15, 16, 17, 18):
            self.note("sign", declared.type, "below zero" if value >> 63 else "above zero" if value else "zero")
        if declared.type in (4, 6, 7, 13):
            self.note("high bit", declared.type, "set" if value >> (31 if declared.type in (7, 13) else 63) else "not set")
        if declared.type == 8:
            self.note("bool of", "0" if not bits else "1" if bits == 1 else "high bits alone" if not bits % 2**32 else "another number")


def rows(sheet, kind, data):
    """The listing as tuples of eight; Refused if there is none."""
    told = Listing(sheet, kind, data)
    if told.refused:
        raise Refused(told.refused)
    return told.rows


# ---- the query
def few(n):
    """A position as the tables count it."""
    return n if n < 2 else "later"


class Query(Listing):
    def __init__(self, sheet, kind, name, data):
        self.name, self.answer, self.split = name, None, None
        super().__init__(sheet, kind, data)
        if not self.refused:
            self.note("answer", "record" if self.answer else "absent")
        if self.place:
            what, part = self.place
            self.note("refused by", what, self.refused)
            self.note("at part", what, few(part))
        else:
            self.note("nowhere", self.stage or ("done" if self.answer else "absent"), self.refused or 0)
        self.note("at part", few(self.place[1]) if self.place else "none")

    def lines(self):
        if self.refused:
            return ["answer %d" % self.refused, NAMES[self.refused]] + (["part %d" % self.place[1]] if self.place else [])
        return ["answer 0", "record " + " ".join(map(str, self.answer)) if self.answer else "absent"]

    def stages(self):
        sheet, type_form, options_type, read = super().stages()
        return [sheet, type_form, ("form of the name", self.name_form), options_type, read, ("name", self.name_steps)]

    def name_form(self):
        self.split = self.parts()
        self.note("parts", len(self.split))

    def name_steps(self):
        if self.message is not None and self.split:
            try:
                steps, on_group = self.steps(self.split)
            except Refused as refused:
                refused.place = self.judged
                raise
            self.answer = None if on_group else self.followed(steps)

    def parts(self):
        """A name as in 08: one or more parts and nothing else; the header before the tag, the tag before the limit."""
        reader, parts = form.Reader(self.name, 2), []
        try:
            while reader.more():
                tag, payload = reader.field()
                if tag not in (0x1A, 0x1B):
                    raise form.Fault(2)
                if len(parts) == 16:
                    raise form.Fault(3)
                if not (form.ident if tag == 0x1A else form.dotted)(payload):
                    raise form.Fault(2)
                parts.append((tag, payload))
            if not parts:
                raise form.Fault(2)
        except form.Fault as fault:
            self.note("name", fault.args[0], "empty" if not self.name else "more")
            raise Refused(fault.args[0]) from None
        return parts

    def steps(self, parts):
        """The declaration of each part, and whether parts are left on a group. Only what a part has to be is judged, not what is there."""
        message, path, out = self.message, self.kind, []
        for i, (tag, text) in enumerate(parts):
            where = "first" if i == 0 else "later"
            self.judged = "direct part" if tag == 0x1A else "extension part", i
            if tag == 0x1A:
                found = next((d for d in message.fields if d.name == text), None)
                reply = 0 if found else 9
            else:
                found = self.sheet.extension(text)
                reply = 4 if found is None else 5 if found.extendee != path else 0
            self.note("part", "direct" if tag == 0x1A else "absolute" if text[:1] == b"." else "relative", where, reply)
            if reply:
                raise Refused(reply)
            out.append(found)
            if i + 1 == len(parts):
                return out, False
            if found.type == GROUP_TYPE:
                self.note("parts left", GROUP_TYPE)
                return out, True
            self.note("parts left", found.type)
            self.judged = "type with parts left", i
            if found.type != MESSAGE:
                raise Refused(6)
            message, path = self.looked_up(found.path, "path of a part"), found.path
        raise AssertionError

    def followed(self, steps):
        """The last record of each part's number, in the one before it."""
        inside = None
        for i, declared in enumerate(steps):
            where = "first" if i == 0 else "last" if i + 1 == len(steps) else "between"
            same = [n for n, (_, parent) in enumerate(self.by) if parent == inside and self.rows[n][1] == declared.number]
            if not same:
                self.note("none at", where, "nothing set" if inside is None or any(p == inside for _, p in self.by) else "empty message")
                return None
            last = same[-1]
            if self.by[last][0] is not declared:
                self.note("another declaration's at", where)
                return None
            self.note("records of it", "one" if len(same) == 1 else "several", where)
            inside = last
        self.note("answered", steps[-1].type)
        self.note("answered at level", self.rows[inside][0])
        return self.rows[inside]
