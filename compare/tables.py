"""The tables that compare/resolve.py prints: how many cases came by each step, and how they agree with the original."""
from steps import CONSTANTS, EIGHT, HOLDS, LIST, MESSAGE, SIGNED, TYPES, UNSIGNED

CONSTANT = dict(zip(CONSTANTS, "bool unsigned signed float string ident message list".split()))
ROUNDED = ["exact", "down", "up", "tie down", "tie up"]
SMALL = ["subnormal", "subnormal down", "subnormal up", "subnormal tie down", "subnormal tie up", "to zero down", "to zero tie down"]
SPECIAL = ["overflow", "infinity", "minus infinity", "minus zero", "NaN"]
UTF8 = ["empty"] + ["%d bytes a character" % n for n in (1, 2, 3, 4)]
NO_UTF8 = ["overlong", "surrogate", "above 10FFFF", "stray", "cut"]


def can_be_written(n, tag):
    return 0 <= n < 2**64 if tag == UNSIGNED else -(2**63) <= n < 2**63


def integers():
    """Each integer type by each of the two tags: the limits, one past, between, and further out, where the tag can write it."""
    for kind, (low, high) in HOLDS.items():
        for tag in (UNSIGNED, SIGNED):
            edges = [(low - 1, "least - 1"), (low, "least"), (high, "most"), (high + 1, "most + 1"), (7, "between")]
            for n, name in edges:
                if can_be_written(n, tag):
                    yield "integer", kind, tag, name
            if can_be_written(low - 2, tag) or can_be_written(high + 2, tag):
                yield "integer", kind, tag, "far"


def groups():
    """The steps that can occur, under a title each, but for the two tables of types by constants."""
    yield "parts", [("part", kind, place, reply) for kind in ("direct", "absolute", "relative") for place in ("first", "later")
                    for reply in ((0, 9) if kind == "direct" else (0, 4, 5))]
    yield "answering candidate, from 0", [("candidate", n) for n in range(17)]
    yield "extensions of that name further out", [("hides", n) for n in range(4)]
    yield "scope that has it, of those at the path", [("scope of the path", n, "of", of) for of in (1, 2, 3) for n in range(of)]
    yield "found in", [("found in", "file"), ("found in", "message")]
    yield "parts left on", [("parts left", left) for left in ["message", "group"] + [n for n in range(1, 19) if n not in (10, 11)]]
    yield "parts of a name", [("name depth", n) for n in range(1, 17)]
    yield "depth of a constant", [("constant depth", n) for n in range(1, 17)]
    yield "pairs", [("pair", 0x27), ("pair", 0x28), ("pair", 0x29), ("pair", "unknown")]
    yield "constants inside constants", [("within", a, b) for a in (MESSAGE, LIST) for b in (MESSAGE, LIST)]
    yield "empty", [("empty", "list"), ("empty", "message")]
    where = [("message", "options type"), ("message", "parts left"), ("message", "constant"), ("enum", "constant"), ("enum", "builtin")]
    yield "look-ups", [("look-up", *w, reply) for w in where for reply in (0, 7, 8)]
    yield "enum values", [("enum value", n) for n in ("below zero", "zero", "above zero")]
    yield "integers", list(integers())
    both = [("integer", "double", ROUNDED), ("integer", "float", ROUNDED + ["by way of a double another"])]
    both += [("float constant", "double", ["exact", "NaN"]), ("float constant", "float", ROUNDED + SMALL + SPECIAL)]
    yield "rounding", [("rounded", what, kind, how) for what, kind, hows in both for how in hows]
    yield "strings", [("string", on, how) for on in ("string", "bytes", "builtin") for how in UTF8 + NO_UTF8]
    yield "bytes of a varint", [("varint bytes", n) for n in range(1, 11)]
    yield "bytes of a tag", [("tag bytes", n) for n in range(1, 6)]
    yield "bytes of a length", [("length bytes", n) for n in (1, 2, 3)]
    yield "options (5 is 5 to 126)", [("options", n) for n in (0, 1, 2, 3, 4, 5, 127, 128)]
    yield "options types", [("options type", n.decode()) for n in EIGHT] + [("options type", "another")]
    yield "written", [("written", "builtins"), ("written", " others"), ("written", "builtins others"), ("written", "")]
    yield "builtins", [("builtin", "unknown"), ("builtin", "repeated"), ("set again",), ("set after a greater number",),
                       ("set after another option",), ("not skipped", "default"), ("not skipped", "json_name")]
    yield "skipped on FieldOptions", [("skipped", name, tag) for name in ("default", "json_name") for tag in CONSTANTS]
    replies = [0, "no bytes", "absent"] + [(n, 0) for n in range(1, 11)] + [(10, 1)] + [(n, 0) for n in range(11, 16)]
    yield "replies", [("reply", n) for n in replies]
    yield "refused by form", [("form", "sheet", 1), ("form", "sheet", 3), ("form", "request", 2), ("form", "request", 3)]
    yield from places()


# what a refusal with a place is of, and its replies
PLACED = {"extension part": [(4, 0), (5, 0)], "direct part": [(9, 0)], "type with parts left": [(6, 0), (7, 0), (8, 0)],
          "constant": [(7, 0), (8, 0), (9, 0)] + [(n, 0) for n in range(11, 16)],
          "builtin": [(10, 0), (10, 1), (12, 0), (15, 0), (7, 0), (8, 0)]}
POSITIONS = [0, 1, 2, "later"]
NOWHERE = {"done": [0], "absent": [0], "sheet": [1, 3], "request": [2, 3], "options type": [7, 8]}
NOWHERE.update({"form of option %s" % n: [2, 3] for n in POSITIONS})


def places():
    """Where requests are refused: each row of the table of positions, with its replies."""
    yield "refused at option", [("at option", n) for n in POSITIONS + ["none"]]
    yield "refused at part", [("at part", n) for n in POSITIONS + ["none"]]
    for what, replies in PLACED.items():
        yield "refused by: %s" % what, [("refused by", what, reply) for reply in replies]
        yield "refused by: %s, at option" % what, [("at option", what, n) for n in POSITIONS]
        yield "refused by: %s, at part" % what, [("at part", what, n) for n in (POSITIONS if what != "builtin" else [0])]
    yield "refused constants", [("constant refused", how) for how in ("itself", "in lists", "in messages", "in both")]
    yield "refused constants at depth (5 is 5 and more)", [("constant refused at depth", n) for n in range(1, 6)]
    for what, replies in NOWHERE.items():
        yield "nowhere: %s" % what, [("nowhere", what, (reply, 0) if reply else 0) for reply in replies]


def word(key):
    """A step in a few words."""
    if key[0] in ("reply", "refused by", "nowhere") and isinstance(key[-1], tuple):
        return "%d%s" % (key[-1][0], ", 1" if key[-1][1] else "")
    if key[0] in ("at option", "at part", "nowhere"):
        return str(key[-1])
    if key[0] in ("parts left", "integer") and isinstance(key[1], int):
        key = (key[0], TYPES[key[1]]) + key[2:]
    rest = [CONSTANT.get(x, x) if isinstance(x, int) and x >= 0x20 and key[0] in ("within", "skipped", "integer") else x for x in key[1:]]
    rest = ["%02X" % x if key[0] == "pair" and isinstance(x, int) else str(x).strip() or "nothing" for x in rest]
    return " ".join(rest) or key[0]


def by_type(title, name, seen):
    """18 types by 8 constants: how many cases, and in brackets the answers that came."""
    print("\n" + title)
    print("%-10s" % "" + "".join("%16s" % CONSTANT[tag] for tag in CONSTANTS))
    missing = []
    for kind in range(1, 19):
        cells = []
        for tag in CONSTANTS:
            told = sorted(key[3] for key in seen if key[0] == name and len(key) == 4 and key[1] == kind and key[2] == tag)
            many = seen[("builtin constant" if name == "builtin" else "constant", kind, tag)]
            cells.append("%d (%s)" % (many, " ".join(map(str, told))))
            missing += [] if many else ["%s %s on %s" % (name, CONSTANT[tag], TYPES[kind])]
        print("%-10s" % TYPES[kind] + "".join("%16s" % c if len(c) < 16 else " " + c for c in cells))
    return missing


def steps_taken(seen):
    missing = by_type("Cases by type and constant, and the answers to that constant:", "value", seen)
    missing += by_type("Builtins that are not repeated, by type and constant:", "builtin", seen)
    print("\nSteps, each with the number of cases that took it:")
    known = set()
    for title, keys in groups():
        known.update(keys)
        line, words = title + ": ", ["%s %d" % (word(key), seen[key]) for key in keys]
        for text in words:
            if len(line) + len(text) > 138:
                print(line)
                line = "    "
            line += text + "; "
        print(line.rstrip("; "))
        missing += [title + ": " + word(key) for key in keys if not seen[key]]
    # a step that no table has
    for key in sorted(seen, key=str):
        if key not in known and key[0] not in ("value", "constant", "builtin constant") and not (key[0] == "builtin" and len(key) == 4):
            print("not in a table: %s %d" % (key, seen[key]))
    print("\nnever taken: %s" % ("; ".join(missing) or "none"))
    return missing


HOWS = ["the same bytes", "the same per number", "absent", "refused, the same", "refused, another error"]


def original(rows, changed, other, not_asked):
    print("\nAnswers of the original, by what the input has, and how they agree with the second implementation's:")
    print("%-60s" % "" + "".join("%24s" % how for how in HOWS) + "%20s" % "not 01's answer")
    for name in sorted(rows, key=lambda r: (not r.startswith("01"), r)):
        print("%-60s" % name + "".join("%24d" % rows[name][how] for how in HOWS) + "%20d" % changed[name])
    print("another error, or none: " + "; ".join("%s: %d" % x for x in sorted(other.items())))
    print("not asked: " + "; ".join("%s: %d" % x for x in sorted(not_asked.items())))


def places_there(named, first):
    for is_named, title in ((True, "refused, with the part in the original's error"), (False, "and with none in it")):
        print("%s: %s" % (title, "; ".join("%s: %d" % (what, many) for (it, what), many in sorted(named.items()) if it == is_named)))
    print("refused at the first option that the original refuses alone: %d" % first)
