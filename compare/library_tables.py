"""The tables that compare/library.py prints: what the calls answered, where memory lay and how much room there was, how sheets were drawn,
and of the payload and the lowerings what was hit. The tables of the resolver, of listing and query and of pairs are those of the scripts
that compare the programs.
"""
import collections

import evolve
import listing
import tables
from library_calls import CALLS, unpacked

# the replies that can be: of one with a second word that as well; NoRoom (17) is counted of calls
REPLIES = {"sheet": [0, 1, 3], "request": [0, 2, 3], "resolve": [0, "absent", *range(1, 11), "10, 1", *range(11, 16)],
           "find": [0, 1, 2, 3, 4], "list": [0, 1, 2, 3, 7, 8, 18, 19], "query": [0, "absent", *range(1, 10), 18, 19], "payload": [0, 2, 3],
           "ranges": [0, 2, 3, 16], "fields": [0, 2, 3], "fields_by": [0, 2, 3], "clean": ["yes", "no", 1, 3],
           "contained": ["yes", "no", 1, 3]}
LENDS = ("resolve", "find", "list", "query", "ranges", "fields", "fields_by")
TESTED = ("resolve", "find", "list", "query")


def reply_of(case):
    reply, second, absent, *_ = case.want
    if case.call in ("clean", "contained") and reply == 0:
        return "yes" if second else "no"
    return "absent" if absent else "%d, %d" % (reply, second) if second else reply


# ---- what a case hits, and under it all that there is to hit
def size_word(many, most):
    return many if abs(many - most) < 2 or many < 2 else "between" if many < most else "more"


def long_steps(case):
    """Of listing and query only the longest bytes."""
    size = len(case.inputs[-1])
    if size > 65535:
        yield "bytes", "%s: %d" % (size if size < 65538 else "more", case.want[0])


# over-long bytes (3) come behind the forms of sheet, type and name, and before the type is looked for (7)
LONG = {"bytes": ["65536: %d" % n for n in (0, 1, 2, 7, 18)] + ["65537: %d" % n for n in (1, 2, 3)] + ["more: 3"]}


def payload_steps(case):
    (data,), (place, length) = case.inputs, case.numbers
    size, end = len(data), place + length
    yield "bytes", size_word(size, 65536)
    if place > size:
        yield "place", "one past the end" if place == size + 1 else "from 2^63 on" if place >= 2**63 else "further out"
    elif end > size:
        yield "length", "one too many" if end == size + 1 else "from 2^63 on" if length >= 2**63 else "more too many"
    else:
        yield "inside", "nothing" + ", at the end" * (place == size) if length == 0 else "to the end" if end == size else "a part"
    for bits in (32, 64):
        if end >= 2**bits and end % 2**bits <= size:
            yield "sum", "inside again, modulo 2^%d" % bits


PAYLOAD = {"bytes": [0, 1, "between", 65535, 65536, 65537, "more"], "place": ["one past the end", "further out", "from 2^63 on"],
           "length": ["one too many", "more too many", "from 2^63 on"],
           "inside": ["nothing", "nothing, at the end", "to the end", "a part"],
           "sum": ["inside again, modulo 2^32", "inside again, modulo 2^64"]}
WORDS = [0, 1, "between", 4095, 4096, 4097, "more"]
ENDS = (-(2**31), 2**31 - 2, 2**31 - 1)


def range_steps(case):
    words, kind = unpacked(*case.inputs, "i"), case.numbers[0]
    yield "kind", kind if kind < 4 else "from 2^31 on" if kind >= 2**31 else "more"
    yield "words", size_word(len(words), 4096)
    yield "count", "odd" if len(words) % 2 else "even"
    for at, which in enumerate(("start", "end")):
        yield from (("edge", "%s %d, kind %d" % (which, n, kind)) for n in words[at::2] if kind < 3 and n in ENDS)
    if any(start > end for start, end in zip(words[::2], words[1::2])):
        yield "order", "a start above its end"


RANGES = {"kind": [0, 1, 2, 3, "more", "from 2^31 on"], "words": WORDS, "count": ["even", "odd"],
          "edge": ["%s %d, kind %d" % (which, n, kind) for which in ("start", "end") for n in ENDS for kind in range(3)],
          "order": ["a start above its end"]}


def field_steps(case):
    words = [word if word < 5 else "more" for word in unpacked(*case.inputs, "I")]
    yield "words", size_word(len(words), 4096)
    # one that is none ends the list
    last = next((i for i, word in enumerate(words) if word not in (0, 1, 2, 3)), len(words))
    yield from (("word", "%s after %s" % both) for both in zip(words[: last + 1], ["nothing"] + words))


def numbered_steps(case):
    words, numbering = unpacked(*case.inputs, "I"), case.numbers[0]
    yield "numbering", numbering if numbering < 3 else "from 2^31 on" if numbering >= 2**31 else "more"
    yield from field_steps(case)
    if case.want[0] == 0:
        kinds = [word for word in words if word in (1, 2)]
        yield "oneofs", "none" if not kinds else "of one kind" if len(set(kinds)) == 1 else (
            "a synthetic one before a real one" if kinds != sorted(kinds, reverse=True) else "all real ones first")
        if any(word == 2 and after != 3 for word, after in zip(words, words[1:] + [0])):
            yield "members", "a oneof without, in numbering %d" % numbering


FIELDS = {"words": WORDS,
          "word": ["%s after %s" % (word, before) for word in (0, 1, 2, 3, 4, "more") for before in ("nothing", 0, 1, 2, 3)]}
NUMBERED = {"numbering": [0, 1, 2, "more", "from 2^31 on"], **FIELDS,
            "oneofs": ["none", "of one kind", "a synthetic one before a real one", "all real ones first"],
            "members": ["a oneof without, in numbering %d" % n for n in (0, 1)]}
OWN = {"list": (long_steps, LONG), "query": (long_steps, LONG), "payload": (payload_steps, PAYLOAD), "ranges": (range_steps, RANGES),
       "fields": (field_steps, FIELDS), "fields_by": (numbered_steps, NUMBERED)}


def own_steps(case):
    """The steps of a call that has a table here."""
    return {(case.call,) + step for step in OWN[case.call][0](case)} if case.call in OWN else ()


# ---- printing
def line(title, counts):
    """(what, how many) of each, in lines that are not too long."""
    text = title + ": "
    for what, many in counts:
        word = "%s %d" % (what, many)
        if len(text) + len(word) > 138:
            print(text)
            text = "    "
        text += word + "; "
    print(text.rstrip("; "))


def calls_table(cases, counts):
    """Cases by what is answered, and how many calls were made for them."""
    missing = []
    print("\nCases by call and answer, each compared with the second implementation's:")
    for call in CALLS:
        line(call, [(reply, cases[call, reply]) for reply in REPLIES[call]])
        missing += ["%s answered %s" % (call, reply) for reply in REPLIES[call] if not cases[call, reply]]
        missing += ["%s answered %s, which no table has" % key for key in cases if key[0] == call and key[1] not in REPLIES[call]]
    print("\nCalls by reply, 17 NoRoom:")
    made = {(name, int(reply)): many for (table, name, reply), many in counts.items() if table == "calls"}
    for name in [*CALLS, *(call + "_tested" for call in TESTED)]:
        line(name, [(reply, made[name, reply]) for reply in range(20) if (name, reply) in made])
        if name.removesuffix("_tested") in LENDS and (name, 17) not in made:
            missing.append("%s answered 17" % name)
    return missing


def memory_table(counts):
    missing = []
    print("\nCalls by room and by where memory lay:")
    wanted = {"rooms": [(room, "") for room in ("short", "exact", "one more", "more", "of an answer without elements")],
              "answers": [("in every room", ""), ("in some rooms", "")],
              "placed": [(view, place) for view in ("open", "sealed", "half") for place in ("end", "start")],
              "empty inputs": [("at a page that traps", ""), ("NULL", "")],
              "tested forms": [("answered alike", ""), ("of a sheet that is not fine", "")]}
    for table, keys in wanted.items():
        line(table, [(" ".join(key).strip(), counts[(table, *key)]) for key in keys])
        missing += ["%s: %s" % (table, " ".join(key)) for key in keys if not counts[(table, *key)]]
    return missing


def sheets_table(drawn):
    """Sheets by how they were drawn and what they are; each is asked once whether it is clean."""
    print("\nSheets, by how they were drawn:")
    print("%-40s%10s%10s%10s%10s" % ("", "clean", "not clean", "1", "3"))
    total = collections.Counter()
    for what in sorted({what for what, _ in drawn}):
        print("%-40s" % what + "".join("%10d" % drawn[what, reply] for reply in ("yes", "no", 1, 3)))
        total.update({reply: drawn[what, reply] for reply in ("yes", "no", 1, 3)})
    print("%-40s" % "all" + "".join("%10d" % total[reply] for reply in ("yes", "no", 1, 3)))


def own_tables(seen):
    keys = [(call, what, word) for call, (_, wanted) in OWN.items() for what, words in wanted.items() for word in words]
    for call, (_, wanted) in OWN.items():
        print("\n%s: what was hit, each with the number of cases" % call)
        for what, words in wanted.items():
            line(what, [(word, seen[call, what, word]) for word in words])
    for key in sorted(set(seen) - set(keys), key=str):
        print("not in a table: %s, %s: %s" % key, seen[key])
    return ["%s, %s: %s" % key for key in keys if not seen[key]]


def steps_tables(seen):
    """Those of the other scripts; the tables of resolve.py print by themselves what was never taken."""
    print("\n==== resolve")
    tables.steps_taken(seen["resolve"])
    print("\n==== list and query")
    missing = listing.steps_taken(seen["options"], listing.listing_steps)
    print("\n==== pairs of sheets")
    pairs = evolve.Comparison(None)
    pairs.seen = seen["pairs"]
    return missing + pairs.tables()
