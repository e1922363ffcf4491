"""The lines for people that optlist prints behind its records, a second time, for compare/listing.py: from a sheet, an options type, option
bytes and the rows of their listing. Written from docs/RULES.md, [PROG-6], with a reader of its own for sheets.

`Names(sheet)` reads a sheet that is fine. `lines(kind, data, rows)` of it are the lines, and `seen` then holds what stood in them. A line
begins with two blanks and two more for each level; then the name, the number, the type, and but for messages the value.
"""
import functools

SCALARS = {1: "double", 2: "float", 3: "int64", 4: "uint64", 5: "int32", 6: "fixed64", 7: "fixed32", 8: "bool", 9: "string", 12: "bytes",
           13: "uint32", 15: "sfixed32", 16: "sfixed64", 17: "sint32", 18: "sint64"}
WIRES = {0: "varint", 1: "i64", 2: "len", 5: "i32"}
ESCAPES = {10: "\\n", 13: "\\r", 9: "\\t", 34: '\\"', 39: "\\'", 92: "\\\\"}
KINDS_OF_BYTES = ("plain", "below 0x20", "0x7F", "above 0x7F", *ESCAPES.values())


def nodes(data):
    """(tag, payload) of each field."""
    out, i = [], 0
    while i < len(data):
        end = i + 3 + int.from_bytes(data[i + 1 : i + 3], "big")
        out.append((data[i], data[i + 3 : end]))
        i = end
    return out


def signed(value, width):
    return value - (1 << width) if value >> (width - 1) else value


class Names:
    """What a sheet calls things. Of a message or an enum by its full name each file has one at the most: of one name in one place the first
    counts, and only what stands in messages that count themselves."""

    def __init__(self, data):
        self.fields, self.enums, self.extensions, self.seen = {}, {}, {}, set()
        for _, payload in nodes(data):
            (_, package), *items = nodes(payload)
            self.scope(package, items, True)

    def scope(self, full, items, counts):
        """What stands in a file or a message. Every extension of the sheet is kept by the text of its extendee, in order of the bytes."""
        there = set()
        for tag, payload in items:
            (_, name), *inside = nodes(payload)
            inner = full + b"." + name if full else name
            first = counts and (tag, name) not in there
            there.add((tag, name))
            if tag == 2:
                if first:
                    own = [dict(nodes(p)) for t, p in inside if t == 5]
                    self.fields.setdefault(inner, []).append(own)
                self.scope(inner, inside, first)
            elif tag == 3:
                leaves = dict(inside)
                self.extensions.setdefault(leaves[0x12], []).append((leaves, inner))
            elif tag == 4 and first:
                values = [dict(nodes(p)) for _, p in inside]
                self.enums.setdefault(inner, []).append([(int.from_bytes(v[0x17], "big", signed=True), v[0x11]) for v in values])

    def declared(self, message, number):
        """The leaves of the declaration that a number has at a message, and its name."""
        wanted = number.to_bytes(4, "big")
        (fields,) = self.fields[message]
        for leaves in fields:
            if leaves[0x13] == wanted:
                return leaves, leaves[0x11].decode()
        for leaves, full in self.extensions.get(message, []):
            if leaves[0x13] == wanted:
                return leaves, "(%s)" % full.decode()
        raise KeyError

    def enum_value(self, path, number):
        """By its name where the one enum of that full name lists the number."""
        enums = self.enums.get(path, [])
        if len(enums) != 1:
            self.seen.add(("enum", "more than one" if enums else "none"))
            return str(number)
        names = [name for n, name in enums[0] if n == number]
        how = "not listed" if not names else "listed" if len(names) == 1 else "listed more than once"
        self.seen.add(("enum", how + (", below zero" if number < 0 else "")))
        return names[0].decode() if names else str(number)

    def text(self, payload):
        out = '"'
        for byte in payload:
            plain = 0x20 <= byte < 0x7F
            out += ESCAPES.get(byte, chr(byte) if plain else "\\%03o" % byte)
            how = "plain" if plain else "below 0x20" if byte < 0x20 else "0x7F" if byte == 0x7F else "above 0x7F"
            self.seen.add(("byte", ESCAPES.get(byte, how)))
        return out + '"'

    def value(self, kind, path, payload, bits):
        if kind == 14:
            return self.enum_value(path, signed(bits, 64))
        if kind == 8:
            self.seen.add(("bool", bits))
            return ("false", "true")[bits]
        if kind in (9, 12):
            return self.text(payload)
        if kind in (1, 2):
            return "0x%0*X" % (16 if kind == 1 else 8, bits)
        number = signed(bits, 64) if kind in (3, 5, 15, 16, 17, 18) else bits
        self.seen.add(("digits", kind, "minus" if number < 0 else "0" if number == 0 else "1 to 9" if number < 10 else "more"))
        return str(number)

    def lines(self, kind, data, rows):
        out, inside, self.seen = [], [kind], set()
        for level, number, of, wire, place, size, low, high in rows:
            del inside[level + 1 :]
            start = "  " * (level + 1)
            if of == 0:
                self.seen.add(("line", "?", WIRES[wire]))
                out.append("%s? %d %s" % (start, number, WIRES[wire]))
                continue
            leaves, name = self.declared(inside[level], number)
            path = leaves.get(0x16)
            line = "%s%s %d %s" % (start, name, number, SCALARS[of] if of in SCALARS else path.decode())
            by = "extension" if name[0] == "(" else "field"
            self.seen.add(("line", by, "scalar" if of in SCALARS else "enum" if of == 14 else "message"))
            if of == 11:
                inside.append(path)
            else:
                line += " = " + self.value(of, path, data[place : place + size], low | high << 32)
            out.append(line)
        return out


@functools.lru_cache(64)
def names(data):
    return Names(data)


def steps():
    """What a comparison has to hit, for a table."""
    yield "lines for people, unknown", [("line", "?", wire) for wire in WIRES.values()]
    yield "lines for people, known", [("line", by, of) for by in ("field", "extension") for of in ("scalar", "enum", "message")]
    hows = ("listed", "listed more than once", "not listed")
    yield "enum values", [("enum", how + sign) for how in hows for sign in ("", ", below zero")]
    yield "enum values whose enum is", [("enum", how) for how in ("none", "more than one")]
    yield "bytes of strings and bytes", [("byte", how) for how in KINDS_OF_BYTES]
    yield "bools for people", [("bool", n) for n in (0, 1)]
    yield "numbers for people", [("digits", n, how) for n in (3, 4, 5, 6, 7, 13, 15, 16, 17, 18) for how in ("minus", "0", "1 to 9", "more")
                                 if how != "minus" or n in (3, 5, 15, 16, 17, 18)]
