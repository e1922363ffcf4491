#!/usr/bin/env python3
"""A second implementation of the resolver, for compare/resolve.py: written from 01's rules and the readings in docs/DECISIONS.md, and not
from the definitions. The form is form.py's.

`Sheet(data)` reads a sheet and lists every scope under its full path; `Run(sheet, request).lines()` is what optlower has to print, and
`Run.seen` holds every step that was taken. `Run(sheet, request, crate=True)` does what the original does at the three points of
docs/DIFFERENCES.md where the two answer differently on sheets that are clean: float constants on integer types, pairs of one name, NaN.

Where a request is refused: before each thing that is judged a run notes what that is and which part would be refused (`judge`), so that the
last note is the place. `Run.where` is then (option, part), or None; `Run.answer()` has the lines without it, as the original knows no
places.
"""
import form

NAMES = {
    1: "BadSheet", 2: "BadRequest", 3: "BeyondLimit", 4: "ExtensionNotFound", 5: "WrongExtensionType", 6: "ExtensionIsNotMessage",
    7: "MessageNotFound", 8: "MessageFoundMoreThanOnce", 9: "UnknownFieldName", 10: "BuiltinOptionNotFound",
    11: "MessageFieldRequiresMessageConstant", 12: "UnsupportedExtensionType", 13: "UnknownEnumValue", 14: "ValueRange",
    15: "StrLitDecodeError",
}
NOT_SINGULAR = "BuiltinOptionPointsToNonSingularField"
BOOL, UNSIGNED, SIGNED, FLOAT, STRING, IDENT, MESSAGE, LIST = CONSTANTS = (0x20, 0x21, 0x22, 0x23, 0x24, 0x25, 0x26, 0x2A)
# descriptor.proto's types: their names, the wire type of each, and what the integer types hold
TYPES = (
    "- double float int64 uint64 int32 fixed64 fixed32 bool string group message bytes uint32 enum sfixed32 sfixed64 sint32 sint64"
).split()
WIRE = {1: 1, 2: 5, 3: 0, 4: 0, 5: 0, 6: 1, 7: 5, 8: 0, 9: 2, 11: 2, 12: 2, 13: 0, 14: 0, 15: 5, 16: 1, 17: 0, 18: 0}
I32, U32, I64, U64 = (-(2**31), 2**31 - 1), (0, 2**32 - 1), (-(2**63), 2**63 - 1), (0, 2**64 - 1)
HOLDS = {3: I64, 4: U64, 5: I32, 6: U64, 7: U32, 13: U32, 15: I32, 16: I64, 17: I32, 18: I64}
FIELD_OPTIONS = (b"google", b"protobuf", b"FieldOptions")
EIGHT = [b"FileOptions", b"MessageOptions", b"FieldOptions", b"OneofOptions", b"EnumOptions", b"EnumValueOptions", b"ServiceOptions",
         b"MethodOptions"]


def fields(data):
    at, end = 0, len(data)
    while at < end:
        stop = at + 3 + (data[at + 1] << 8 | data[at + 2])
        yield data[at], data[at + 3 : stop]
        at = stop


def components(text):
    return tuple(text.split(b".")) if text else ()


# ---- the sheet
class Declaration:
    """A field or an extension."""

    __slots__ = ("name", "extendee", "number", "type", "label", "path")

    def __init__(self, payload):
        self.extendee = self.path = None
        for tag, value in fields(payload):
            if tag == 0x11:
                self.name = value
            elif tag == 0x12:
                self.extendee = components(value)
            elif tag == 0x13:
                self.number = int.from_bytes(value, "big")
            elif tag == 0x14:
                self.type = value[0]
            elif tag == 0x15:
                self.label = value[0]
            else:
                self.path = components(value)


class Scope:
    """What a file or a message declares: of each kind the first of a name, and everything in order."""

    __slots__ = ("is_message", "package", "file", "path", "extensions", "fields", "enums", "all_fields", "all_extensions", "all_enums")

    def __init__(self, is_message, package, file, path):
        self.is_message, self.package, self.file, self.path = is_message, package, file, path
        self.extensions, self.fields, self.enums = {}, {}, {}
        self.all_fields, self.all_extensions, self.all_enums = [], [], []


class Sheet:
    def __init__(self, data):
        self.data, self.fault, self.at = data, None, {}
        try:
            form.sheet(data)
        except form.Fault as fault:
            self.fault = fault.args[0]
            return
        self.every = []
        for file, (_, payload) in enumerate(fields(data)):
            inner = list(fields(payload))
            package = components(inner[0][1])
            self.scope(False, len(package), file, package, inner[1:], True)
        for found in self.at.values():
            found.sort(key=lambda scope: (scope.package, scope.file))

    def scope(self, is_message, package, file, path, items, reached):
        """`reached` is false inside a message of a name that stood before at its level: no path leads there."""
        here = Scope(is_message, package, file, path)
        self.every.append(here)
        if reached:
            self.at.setdefault(path, []).append(here)
        inside = set()
        for tag, payload in items:
            if tag == 2:
                inner = list(fields(payload))
                name = inner[0][1]
                self.scope(True, package, file, path + (name,), inner[1:], reached and name not in inside)
                inside.add(name)
            elif tag == 3:
                declared = Declaration(payload)
                here.extensions.setdefault(declared.name, declared)
                here.all_extensions.append(declared)
            elif tag == 5:
                declared = Declaration(payload)
                here.fields.setdefault(declared.name, declared)
                here.all_fields.append(declared)
            else:
                inner = list(fields(payload))
                values = [tuple(value for _, value in fields(v)) for _, v in inner[1:]]
                values = [(name, int.from_bytes(number, "big", signed=True)) for name, number in values]
                here.enums.setdefault(inner[0][1], values)
                here.all_enums.append((inner[0][1], values))

    def messages(self, path):
        return [scope for scope in self.at.get(path, ()) if scope.is_message]

    def enums(self, path):
        return [scope.enums[path[-1]] for scope in self.at.get(path[:-1], ()) if path[-1] in scope.enums]

    def clean(self, extensions=True):
        """01: "no two of all messages, enums and extensions share a full name, nor two fields of a message or values of an enum a name;
        no number is declared twice for one message, extensions counted; every extendee and type path names exactly one declaration of its
        kind". Without `extensions` their full names may be equal."""
        messages, enums, names, numbers, wanted = [], [], [], [], []
        for scope in self.every:
            if scope.is_message:
                messages.append(scope.path)
            names += [scope.path + (e.name,) for e in scope.all_extensions] if extensions else []
            enums += [scope.path + (name,) for name, _ in scope.all_enums]
            if len(scope.fields) < len(scope.all_fields):
                return False
            if any(len({name for name, _ in values}) < len(values) for _, values in scope.all_enums):
                return False
            numbers += [(scope.path, f.number) for f in scope.all_fields] + [(e.extendee, e.number) for e in scope.all_extensions]
            for declared in scope.all_fields + scope.all_extensions:
                if declared.path is not None:
                    wanted.append((declared.type == 14, declared.path))
                if declared.extendee is not None:
                    wanted.append((False, declared.extendee))
        every = messages + enums + names
        if len(set(every)) < len(every) or len(set(numbers)) < len(numbers):
            return False
        # no two share a name, so a path that is among them names one
        messages, enums = set(messages), set(enums)
        return all(path in (enums if is_enum else messages) for is_enum, path in wanted)


# ---- numbers and bytes
def varint(n):
    out = bytearray()
    while n > 127:
        out.append(n & 127 | 128)
        n >>= 7
    out.append(n)
    return bytes(out)


def zigzag(n):
    return 2 * n if n >= 0 else -2 * n - 1


def nearest(negative, size, exponent, width, least):
    """The bits of the float nearest to size * 2^exponent, ties to even: `width` bits of fraction, the smallest place 2^least."""
    place = max(exponent + size.bit_length() - 1 - width, least) if size else least
    move = place - exponent
    if move <= 0:
        units, rest, half = size << -move, 0, 1
    else:
        units, rest, half = size >> move, size & ((1 << move) - 1), 1 << (move - 1)
    kind = "exact" if rest == 0 else "down" if rest < half else "up" if rest > half else "tie up" if units & 1 else "tie down"
    if kind in ("up", "tie up"):
        units += 1
    bits = ((place - least) << width) + units
    bound = (1 << (31 if width == 23 else 63)) - (1 << width)  # the bits of infinity
    if bits >= bound:
        bits, kind = bound, "overflow"
    elif place == least and units < 1 << width and size:
        kind = ("to zero" if units == 0 else "subnormal") + ("" if rest == 0 else " " + kind)
    return bits | (negative << (31 if width == 23 else 63)), kind


def as_float(width, least, n):
    return nearest(n < 0, abs(n), 0, width, least)


def double_parts(bits):
    """Sign, size and exponent of a double that is no infinity and no NaN."""
    power, fraction = bits >> 52 & 2047, bits & (1 << 52) - 1
    return bits >> 63, fraction | (1 << 52 if power else 0), max(power, 1) - 1075


def float_of(bits, crate):
    """A double's bits as a float's, and what kind of a case it is."""
    power, fraction = bits >> 52 & 2047, bits & (1 << 52) - 1
    if power == 2047 and fraction:
        return (bits >> 63 << 31 | 0x7FC00000 | fraction >> 29 & 0x3FFFFF) if crate else 0x7FC00000, "NaN"
    if power == 2047:
        return bits >> 63 << 31 | 0x7F800000, "minus infinity" if bits >> 63 else "infinity"
    if bits == 1 << 63:
        return 1 << 31, "minus zero"
    return nearest(*double_parts(bits), 23, -149)


def cast(bits, low, high):
    """The original's cast of a double to an integer: towards zero, a NaN to 0, and not past the limits."""
    if bits >> 52 & 2047 == 2047:
        return 0 if bits & (1 << 52) - 1 else low if bits >> 63 else high
    negative, size, exponent = double_parts(bits)
    whole = size << exponent if exponent >= 0 else size >> -exponent
    return max(low, min(high, -whole if negative else whole))


def text_kind(data):
    """What a string is: of how long characters, or why it is not UTF-8. Python's strict decoder is RFC 3629's."""
    try:
        text = data.decode("utf-8", "strict")
        return "%d bytes a character" % max(len(c.encode()) for c in text) if text else "empty"
    except UnicodeDecodeError as fault:
        first, second = data[fault.start], data[fault.start + 1] if fault.start + 1 < len(data) else 0
    if first in (0xC0, 0xC1) or (first == 0xE0 and 0x80 <= second < 0xA0) or (first == 0xF0 and 0x80 <= second < 0x90):
        return "overlong"
    if first == 0xED and 0xA0 <= second < 0xC0:
        return "surrogate"
    if first > 0xF4 or (first == 0xF4 and 0x90 <= second < 0xC0):
        return "above 10FFFF"
    return "stray" if first < 0xC0 else "cut"


def depth(tag, payload):
    """How deep a constant is: every constant counts, the constants of all pairs too."""
    if tag == LIST:
        return 1 + max((depth(*c) for c in fields(payload)), default=0)
    if tag == MESSAGE:
        return 1 + max((depth(*c) for c in list(fields(payload))[1::2]), default=0)
    return 1


def option_at_fault(data):
    """Of a request that is refused for its form the position of the option that holds the fault; None where none does."""
    reader = form.Reader(data, 2)
    try:
        reader.leaf(0x18, form.rel_or_empty)
        reader.leaf(0x19, form.rel)
        head = data[: reader.at]
        for n in range(128 if len(data) <= 8192 else 0):
            start = reader.at
            if reader.field()[0] != 8:
                return None
            if not in_form(head + data[start : reader.at]):
                return n
    except form.Fault:
        pass
    return None


def in_form(request):
    try:
        form.request(request)
    except form.Fault:
        return False
    return True


def few(n):
    """A position as the tables count it."""
    return "none" if n is None else n if n < 3 else "later"


# ---- the resolver
class Refused(Exception):
    """`constants` are the tags of the constant that is refused and those around it, the innermost first."""

    def __init__(self, number, second=0):
        self.number, self.second, self.constants = number, second, []


class Run:
    def __init__(self, sheet, data, crate=False):
        self.sheet, self.data, self.crate = sheet, data, crate
        self.seen, self.kinds = set(), set()
        self.refused = self.bytes = self.where = None
        try:
            self.bytes = self.resolve()
            self.judge("absent" if self.bytes is None else "done")
            self.note("reply", "absent" if self.bytes is None else 0 if self.bytes else "no bytes")
        except Refused as refused:
            self.refused = refused
            self.note("reply", (refused.number, refused.second))
        self.note_place(*self.where or (None, None))

    def note(self, *what):
        self.seen.add(what)

    def answer(self):
        if self.refused:
            return ["answer %d" % self.refused.number, NOT_SINGULAR if self.refused.second else NAMES[self.refused.number]]
        if self.bytes is None:
            return ["answer 0", "absent"]
        return ["answer 0", ("bytes " + self.bytes.hex().upper()).rstrip()]

    def place(self):
        return ["option %d part %d" % self.where] if self.where else []

    def lines(self):
        return self.answer() + self.place()

    # ---- where it is refused
    def judge(self, what, part=None):
        """What is judged from here on, and the part that a refusal of it names; without one it has no place."""
        self.judged, self.where = what, None if part is None else (self.at, part)

    def note_place(self, option, part):
        self.note("at option", few(option))
        self.note("at part", few(part))
        reply = (self.refused.number, self.refused.second) if self.refused else 0
        if option is None:
            self.note("nowhere", self.judged, reply)
            return
        self.note("refused by", self.judged, reply)
        self.note("at option", self.judged, few(option))
        self.note("at part", self.judged, few(part))
        if self.judged == "constant":
            around = {"lists" if tag == LIST else "messages" for tag in self.refused.constants[1:]}
            self.note("constant refused", "itself" if not around else "in both" if len(around) > 1 else "in " + around.pop())
            self.note("constant refused at depth", min(len(self.refused.constants), 5))

    def resolve(self):
        self.judge("sheet")
        if self.sheet.fault:
            self.note("form", "sheet", self.sheet.fault)
            raise Refused(self.sheet.fault)
        try:
            form.request(self.data)
        except form.Fault as fault:
            self.note("form", "request", fault.args[0])
            inside = option_at_fault(self.data)
            self.judge("request" if inside is None else "form of option %s" % few(inside))
            raise Refused(fault.args[0]) from None
        (_, scope), (_, kind), *options = fields(self.data)
        self.scope, self.kind = components(scope), components(kind)
        self.known, self.others = {}, []
        self.note("options", min(len(options), 5) if len(options) < 127 else len(options))
        if not options:
            return None
        google = self.kind[:-1] == FIELD_OPTIONS[:2] and self.kind[-1] in EIGHT
        self.note("options type", self.kind[-1].decode() if google else "another")
        self.judge("options type")
        message = self.message(self.kind, "options type")
        for self.at, (_, payload) in enumerate(options):
            self.option(message, payload)
        self.note("written", ("builtins" if self.known else "") + (" others" if self.others else ""))
        return b"".join(self.known[n] for n in sorted(self.known)) + b"".join(self.others)

    def option(self, message, payload):
        *parts, (tag, constant) = fields(payload)
        self.note("name depth", len(parts))
        self.note("constant depth", depth(tag, constant))
        if len(parts) == 1 and parts[0][0] == 0x1A:
            self.builtin(message, parts[0][1], tag, constant)
        else:
            self.others.append(self.step(message, self.kind, parts, 0, tag, constant))

    # ---- look-ups
    def message(self, path, where):
        found = self.sheet.messages(path)
        reply = 0 if len(found) == 1 else 8 if found else 7
        self.note("look-up", "message", where, reply)
        if reply:
            raise Refused(reply)
        return found[0]

    def number(self, path, name, where, unlisted):
        found = self.sheet.enums(path)
        reply = 0 if len(found) == 1 else 8 if found else 7
        self.note("look-up", "enum", where, reply)
        if reply:
            raise Refused(reply)
        for listed, number in found[0]:
            if listed == name:
                self.note("enum value", "below zero" if number < 0 else "above zero" if number else "zero")
                return number
        raise Refused(unlisted)

    def find(self, text):
        if text[:1] == b".":
            candidates = [components(text[1:])]
        else:
            candidates = [self.scope[:n] + components(text) for n in range(len(self.scope), -1, -1)]
        for position, candidate in enumerate(candidates):
            scopes = self.sheet.at.get(candidate[:-1], ())
            for place, scope in enumerate(scopes):
                if candidate[-1] in scope.extensions:
                    if text[:1] != b".":
                        self.note("candidate", min(position, 16))
                        later = candidates[position + 1 :]
                        self.note("hides", min(3, sum(any(c[-1] in s.extensions for s in self.sheet.at.get(c[:-1], ())) for c in later)))
                    self.note("scope of the path", min(place, 2), "of", min(len(scopes), 3))
                    self.note("found in", "message" if scope.is_message else "file")
                    return scope.extensions[candidate[-1]]
        return None

    # ---- builtins
    def builtin(self, message, name, tag, constant):
        if self.kind == FIELD_OPTIONS and name in (b"default", b"json_name"):
            return self.note("skipped", name.decode(), tag)
        if name in (b"default", b"json_name"):
            self.note("not skipped", name.decode())
        self.judge("builtin", 0)
        field = message.fields.get(name)
        if field is None:
            self.note("builtin", "unknown")
            raise Refused(10)
        if field.label == 3:
            self.note("builtin", "repeated")
            raise Refused(10, 1)
        self.note("builtin constant", field.type, tag)
        try:
            payload = self.builtin_payload(field, tag, constant)
        except Refused as refused:
            self.note("builtin", field.type, tag, refused.number)
            raise
        self.note("builtin", field.type, tag, 0)
        if field.number in self.known:
            self.note("set again")
        if any(n > field.number for n in self.known):
            self.note("set after a greater number")
        if self.others:
            self.note("set after another option")
        self.known[field.number] = self.record(field.number, field.type, payload)

    def builtin_payload(self, field, tag, constant):
        if (field.type, tag) not in ((8, BOOL), (14, IDENT), (9, STRING)):
            raise Refused(12)
        if tag == IDENT:
            return varint(self.number(field.path, constant, "builtin", 12) % 2**64)
        if tag == STRING:
            self.note("string", "builtin", text_kind(constant))
            return self.utf8(constant)
        return varint(constant[0])

    def utf8(self, constant):
        try:
            constant.decode("utf-8", "strict")
        except UnicodeDecodeError:
            raise Refused(15) from None
        return varint(len(constant)) + constant

    # ---- names
    def step(self, message, path, parts, at, tag, constant):
        self.judge("direct part" if parts[at][0] == 0x1A else "extension part", at)
        declared = self.part(message, path, *parts[at], at)
        if at + 1 == len(parts):
            self.judge("constant", at)
            return self.value(declared, tag, constant)
        self.judge("type with parts left", at)
        left = {11: "message", 10: "group"}.get(declared.type, declared.type)
        self.note("parts left", left)
        if left == "group":
            return b""
        if left != "message":
            raise Refused(6)
        inside = self.message(declared.path, "parts left")
        return self.record(declared.number, 11, self.long(self.step(inside, declared.path, parts, at + 1, tag, constant)))

    def part(self, message, path, by, name, at):
        place = "first" if at == 0 else "later"
        if by == 0x1A:
            found = message.fields.get(name)
            self.note("part", "direct", place, 9 if found is None else 0)
            if found is None:
                raise Refused(9)
            return found
        found = self.find(name)
        reply = 4 if found is None else 5 if found.extendee != path else 0
        self.note("part", "absolute" if name[:1] == b"." else "relative", place, reply)
        if reply:
            raise Refused(reply)
        return found

    # ---- values
    def value(self, declared, tag, constant):
        """The records of a constant."""
        self.note("constant", declared.type, tag)
        try:
            told = self.records(declared, tag, constant)
        except Refused as refused:
            self.note("value", declared.type, tag, refused.number)
            refused.constants.append(tag)
            raise
        self.note("value", declared.type, tag, 0)
        return told

    def records(self, declared, tag, constant):
        if tag == LIST:
            return b"".join(self.value(declared, *self.within(LIST, *element)) for element in self.elements("list", constant))
        if tag == MESSAGE:
            if declared.type != 11:
                raise Refused(11)
            return self.record(declared.number, 11, self.long(self.pairs(declared.path, constant)))
        if tag in (UNSIGNED, SIGNED):
            payload = self.integer(declared.type, int.from_bytes(constant, "big", signed=tag == SIGNED), tag)
        elif tag == FLOAT:
            payload = self.float(declared.type, int.from_bytes(constant, "big"))
        elif tag == STRING and declared.type in (9, 12):
            self.note("string", TYPES[declared.type], text_kind(constant))
            payload = self.utf8(constant) if declared.type == 9 else self.long(constant)
        elif tag == BOOL and declared.type == 8:
            payload = varint(constant[0])
        elif tag == IDENT and declared.type == 14:
            payload = varint(self.number(declared.path, constant, "constant", 13) % 2**64)
        else:
            raise Refused(12)
        return self.record(declared.number, declared.type, payload)

    def elements(self, what, constant):
        found = list(fields(constant))
        if not found:
            self.note("empty", what)
        return found

    def within(self, outer, tag, constant):
        if tag in (LIST, MESSAGE):
            self.note("within", outer, tag)
        return tag, constant

    def pairs(self, path, constant):
        message = self.message(path, "constant")
        found = self.elements("message", constant)
        pairs = [(by, name, tag, value) for (by, name), (tag, value) in zip(found[::2], found[1::2])]
        names = [name for by, name, _, _ in pairs if by == 0x27]
        if len(set(names)) < len(names):
            self.kinds.add("pairs of one name")
            if self.crate:
                last = {}
                for by, name, tag, value in pairs:
                    last[by, name] = tag, value
                pairs = [key + value for key, value in last.items()]
        out = b""
        for by, name, tag, value in pairs:
            self.note("pair", by)
            if by != 0x27:
                continue
            if name not in message.fields:
                self.note("pair", "unknown")
                raise Refused(9)
            out += self.value(message.fields[name], *self.within(MESSAGE, tag, value))
        return out

    def integer(self, kind, n, tag):
        if kind in (1, 2):
            bits, how = as_float(*((52, -1074) if kind == 1 else (23, -149)), n)
            self.note("rounded", "integer", TYPES[kind], how)
            if kind == 2 and bits != float_of(as_float(52, -1074, n)[0], False)[0]:
                self.note("rounded", "integer", "float", "by way of a double another")
            return bits.to_bytes(8 if kind == 1 else 4, "little")
        if kind not in HOLDS:
            raise Refused(12)
        low, high = HOLDS[kind]
        edges = {low - 1: "least - 1", low: "least", high: "most", high + 1: "most + 1"}
        self.note("integer", kind, tag, edges.get(n, "between" if low < n < high else "far"))
        if not low <= n <= high:
            raise Refused(14)
        return self.packed(kind, n)

    def packed(self, kind, n):
        if kind in (7, 15):
            return (n % 2**32).to_bytes(4, "little")
        if kind in (6, 16):
            return (n % 2**64).to_bytes(8, "little")
        out = varint(zigzag(n) if kind in (17, 18) else n % 2**64)
        self.note("varint bytes", len(out))
        return out

    def float(self, kind, bits):
        if kind == 1:
            is_nan = bits & ~(1 << 63) > 0x7FF << 52
            self.note("rounded", "float constant", "double", "NaN" if is_nan else "exact")
            if is_nan:
                self.kinds.add("NaN")
            return bits.to_bytes(8, "little")
        if kind == 2:
            told, how = float_of(bits, self.crate)
            self.note("rounded", "float constant", "float", how)
            if how == "NaN":
                self.kinds.add("NaN")
            return told.to_bytes(4, "little")
        if kind in HOLDS:
            self.kinds.add("float constant on an integer type")
            if self.crate:
                # the original casts to 64 bits for int32 and uint32 too
                return self.packed(kind, cast(bits, *(I64 if kind == 5 else U64 if kind == 13 else HOLDS[kind])))
        raise Refused(12)

    # ---- bytes
    def long(self, payload):
        size = varint(len(payload))
        self.note("length bytes", len(size))
        return size + payload

    def record(self, number, kind, payload):
        tag = varint(number * 8 + WIRE[kind])
        self.note("tag bytes", len(tag))
        return tag + payload
