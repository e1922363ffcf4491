#!/usr/bin/env python3
"""Runs optlist and optquery beside a second implementation of the listing and of the value query.

usage: listing.py [CASES] [SEED] [--program OPTLIST] [--query OPTQUERY]

Run it from the root of the repository. options_reader.py is the second implementation, option_bytes.py draws the cases: sheets, clean or
not, with numbers declared twice or malformed; options types that are found, missing or there twice; option bytes that fit, with overlong
varints, with misfits, damaged; names for the query. OPTLIST and OPTQUERY are the two programs, as `rt run` builds them in their crates'
folders if none is given; `none` leaves one out, and the output says so. Their answers and the second implementation's have to be equal in every
line, that of a query's place of refusal too; the lines for people, which begin with two blanks, are those of people.py.

A difference is printed with its input, made smaller as far as leaving out fields and bytes does it; the exit code is then 1. The tables
say how many cases came by each step, so that one that never occurs is seen, and the line "never taken" names it. Option bytes of 65,536
bytes and more cannot be written as one field of a program's input.
"""
import argparse
import collections
import os
import subprocess
import sys
import time

import built
import form
import option_bytes
import people
import sheets
from options_reader import NAMES, WIRE, Listing, Query, Sheet
from resolve import cut, joined, shorter, tree
from sheets import f
from steps import TYPES

ROOM = 131000  # bytes that one run of a program takes
PROGRAMS = {"list": built.program("optlist"), "query": built.program("optquery")}


class Case:
    """A listing or, with a name, a query. A case at a figure has a label that says which."""

    def __init__(self, what, sheet, kind, data, name=None, label=None):
        self.what, self.sheet, self.kind, self.data, self.name = what, sheet, kind, data, name
        self.call = "list" if name is None else "query"
        self.run = Listing(sheet, kind, data) if name is None else Query(sheet, kind, name, data)
        self.wanted, self.seen = self.run.lines(), self.run.seen
        if label:
            self.seen.add(("figure", label, self.run.refused or 0))
        if name is None and not self.run.refused:
            names = people.names(sheet.data)
            self.wanted += names.lines(kind, data, self.run.rows)
            self.seen |= names.seen

    def lines(self):
        return self.wanted

    def fields(self):
        middle = b"" if self.name is None else f(0x46, self.name)
        return f(0x40, self.sheet.data) + f(0x44, self.kind) + middle + f(0x45, self.data)

    def hex(self):
        return self.fields().hex().upper()

    def size(self):
        return 12 + len(self.sheet.data) + len(self.kind) + len(self.data) + len(self.name or b"")


def drawn(total):
    """Cases in batches, as many as are asked for."""
    batch, done = [], 0
    for what, *of in option_bytes.cases():
        batch.append(Case(what, *of))
        if len(batch) >= 2000 or done + len(batch) >= total:
            yield batch
            done += len(batch)
            batch = []
        if done >= total:
            return


# ---- the programs
def groups(text):
    """A program's lines, those of each answer together."""
    told = []
    for line in text.splitlines():
        if line.startswith("answer ") or not told:
            told.append([])
        told[-1].append(line)
    return told


def answers(program, cases):
    """The program's lines to each case; a run takes as many cases as it has room for."""
    out, batch, size = [], [], 0
    for case in cases + [None]:
        if batch and (case is None or size + case.size() > ROOM):
            run = subprocess.run([program], input="".join(c.hex() for c in batch).encode(), stdout=subprocess.PIPE, check=True)
            told = groups(run.stdout.decode())
            if len(told) != len(batch):
                sys.exit("%s gave %d answers to %d cases, the last %s" % (program, len(told), len(batch), told[-1:]))
            out += told
            batch, size = [], 0
        if case is not None:
            batch.append(case)
            size += case.size()
    return out


# ---- differences
def fewer(data):
    """Ways to leave out bytes that stand together, half of them first and one last."""
    many = len(data)
    while many:
        for i in range(0, len(data) - many + 1, max(1, many // 2)):
            yield data[:i] + data[i + many :]
        many //= 2


def ways(case):
    """The case with something left out: of the bytes, of the name, of the sheet."""
    for data in fewer(case.data):
        yield case.sheet, data, case.name
    if case.name:
        parts = tree(case.name)
        for less in shorter(parts) if parts is not None else ():
            yield case.sheet, case.data, joined(less)
    nodes = tree(case.sheet.data)
    for less in shorter(nodes) if nodes is not None else ():
        yield Sheet(joined(less)), case.data, case.name


def smallest(case, differs, tries=2000):
    going = True
    while going and tries > 0:
        going = False
        for sheet, data, name in ways(case):
            tries -= 1
            less = Case(case.what, sheet, case.kind, data, name)
            if tries < 0 or differs(less):
                case, going = (less, True) if tries >= 0 else (case, False)
                break
    return case


class Comparison:
    """Counts, and prints what differs."""

    def __init__(self, programs):
        self.programs, self.differ = programs, 0
        self.kinds, self.calls, self.seen, self.asked = (collections.Counter() for _ in range(4))

    def batch(self, cases):
        for case in cases:
            self.kinds[case.what] += 1
            self.calls[case.call] += 1
            self.seen.update((case.call,) + step for step in case.seen)
        for call, program in self.programs.items():
            mine = [case for case in cases if case.call == call]
            self.asked[call] += len(mine)
            for case, lines in zip(mine, answers(program, mine)):
                if lines != case.lines():
                    self.report(program, case)

    def report(self, program, case):
        def told(of):
            return answers(program, [of])[0]

        self.differ += 1
        case = smallest(case, lambda c: told(c) != c.lines())
        print("DIFFERS (%s, %s): %s" % (case.call, case.what, case.hex()))
        print("  second:  %s\n  program: %s" % (cut(case.lines()), cut(told(case))))
        if self.differ >= 5:
            sys.exit(1)

    def summary(self, seconds):
        total = sum(self.kinds.values())
        print("%d cases in %d s: %s" % (total, seconds, ", ".join("%s %d" % k for k in sorted(self.kinds.items()))))
        for call in PROGRAMS:
            there = "%d of %d compared" % (self.asked[call], self.calls[call]) if call in self.programs else "NOT THERE, not compared"
            print("%s: %s" % (call, there))
        never = steps_taken(self.seen)
        print("\nnever taken: %s" % ("; ".join(never) or "none"))
        print("%d cases, %d differ" % (total, self.differ))


# ---- tables
def listing_steps():
    varints = [n for n in range(1, 19) if WIRE[n] == 0]
    yield "types listed", [("listed", n) for n in range(1, 19) if n != 10]
    yield "unknown, by wire type", [("unknown", n) for n in (0, 1, 2, 5)]
    yield "known by", [("known by", n) for n in ("field", "extension", "extension that no path leads to")]
    both = ("field", "extension")
    yield "number declared twice: the one that counts, the other, and where the first stands", [
        ("number twice", a, b, c) for a in both for b in both for c in ("before", "after")
        if not (a == "extension" and b == "field") and not (a == b and c == "after")]
    yield "levels", [("level", n) for n in range(32)]
    yield "types at level 31", [("at level 31", n) for n in range(1, 19) if n not in (10, 11)]
    yield "beyond the levels", [("3", "level 31"), ("3", "level 31, empty")]
    yield "bytes of an overlong tag", [("overlong", "tag", n) for n in range(2, 11)]
    yield "bytes of a tag", [("tag bytes", n) for n in range(1, 11)]
    yield "bytes of an overlong length", [("overlong", "length", n) for n in range(2, 11)]
    yield "bytes of an overlong value", [("overlong", "value", n) for n in range(2, 11)]
    yield "overlong values by type, unknown ones too", [("overlong value of", n) for n in [0] + varints]
    yield "low 32 bits kept", [("low 32 bits kept of", n, how) for n in (5, 13, 14, 17) for how in ("a widened number", "others")]
    yield "signs", [("sign", n, how) for n in (3, 5, 14, 15, 16, 17, 18) for how in ("below zero", "zero", "above zero")]
    yield "highest bit", [("high bit", n, how) for n in (4, 6, 7, 13) for how in ("set", "not set")]
    yield "bools", [("bool of", how) for how in ("0", "1", "another number", "high bits alone")]
    yield "payloads", [("payload", n, how) for n in (9, 11, 12) for how in ("empty", "1 to 127", "128 and more")]
    yield "records", [("records", n) for n in (0, 1, 2, 3, 4, "5 and more", "1000 and more")]
    yield "options type", [("options type", n) for n in (0, 2, 7, 8)]
    yield "a known message's type path", [("type path", n) for n in (0, 7, 8)]
    yield "sheet", [("sheet", 1), ("sheet", 3)]
    whats = ["tag cut", "tag above 64 bits", "tag of eleven bytes", "number 0", "number a bit too large", "number above 32 bits"]
    whats += ["wire type %d, %s" % (n, how) for n in (3, 4, 6, 7) for how in ("unknown", "known", "group")]
    whats += ["value cut", "value above 64 bits", "value of eleven bytes", "length cut", "length above 64 bits", "length of eleven bytes"]
    whats += ["4 bytes cut", "8 bytes cut", "length past its message", "length past the bytes"]
    yield "18", [("18", what) for what in whats]
    yield "18 stands", [("18 at", what) for what in ("level 0", "further in")]
    yield "19: the type, and the wire type of the record", [("19", n, w) for n in range(1, 19) for w in (0, 1, 2, 5) if w != WIRE[n]]
    yield "two faults in a record, the first of which counts", [("in a record", what) for what in (
        "19 and payload", "payload and type path", "payload and level", "type path and level")]
    inputs = ["sheet", "form of the type", "type", "bytes"]
    yield "two inputs at fault, the first of which counts", [("order", a, b) for i, a in enumerate(inputs) for b in inputs[i + 1 :]
                                                             if b == "form of the type" or b == "bytes"]
    yield "figures", [("figure", label, n) for label, answers in option_bytes.FIGURES.items() for n in answers]
    yield "replies", [("reply", n) for n in (0, 1, 2, 3, 7, 8, 18, 19)]


def printed_steps():
    """Those of optlist, which prints for people too."""
    yield from listing_steps()
    yield from people.steps()


def query_steps():
    yield "parts", [("part", kind, where, reply) for kind in ("direct", "absolute", "relative") for where in ("first", "later")
                    for reply in ((0, 9) if kind == "direct" else (0, 4, 5))]
    yield "parts of a name", [("parts", n) for n in range(1, 17)]
    yield "names that are none", [("name", 2, "empty"), ("name", 2, "more"), ("name", 3, "more")]
    yield "parts left on", [("parts left", n) for n in range(1, 19)]
    yield "a part's type path", [("path of a part", n) for n in (0, 7, 8)]
    yield "no record at", [("none at", where, how) for where in ("first", "between", "last") for how in ("nothing set", "empty message")
                           if (where, how) != ("first", "empty message")]
    yield "another declaration's record at", [("another declaration's at", where) for where in ("first", "between", "last")]
    yield "records of a part's number", [("records of it", n, where) for n in ("one", "several") for where in ("first", "between", "last")]
    yield "answered, by type", [("answered", n) for n in range(1, 19) if n != 10]
    yield "answered at level", [("answered at level", n) for n in range(16)]
    yield "answers", [("answer", "record"), ("answer", "absent")]
    inputs = ["sheet", "form of the type", "form of the name", "type", "bytes", "name"]
    # the type and the name are judged by a sheet and a type that are fine
    yield "two inputs at fault, the first of which counts", [
        ("order", a, b) for i, a in enumerate(inputs) for b in inputs[i + 1 :] if (b != "type" or a == "form of the name") and (
            b != "name" or a == "bytes")]
    yield "figures", [("figure", label, n) for label, answers in option_bytes.ASKED.items() for n in answers]
    yield "replies", [("reply", n) for n in (0, 1, 2, 3, 4, 5, 6, 7, 8, 9, 18, 19)]
    yield "refused at part", [("at part", n) for n in (0, 1, "later", "none")]
    for what, replies in {"extension part": [4, 5], "direct part": [9], "type with parts left": [6, 7, 8]}.items():
        yield "refused by: %s" % what, [("refused by", what, n) for n in replies]
        yield "refused by: %s, at part" % what, [("at part", what, n) for n in (0, 1, "later")]
    for what, replies in {"done": [0], "absent": [0], "sheet": [1, 3], "form of the type": [2], "form of the name": [2, 3], "type": [7, 8],
                          "bytes": [3, 7, 8, 18, 19]}.items():
        yield "nowhere: %s" % what, [("nowhere", what, n) for n in replies]


TYPED = {"listed", "at level 31", "overlong value of", "low 32 bits kept of", "sign", "high bit", "payload", "19", "parts left", "answered",
         "digits"}


def word(key):
    rest = list(key[1:]) if key[0] not in ("refused by", "at part", "nowhere") else [key[-1]]
    if key[0] in TYPED:
        rest[0] = TYPES[rest[0]] if rest[0] else "unknown"
    return " ".join(map(str, rest))


def steps_taken(seen, listed=printed_steps):
    missing, known = [], set()
    for call, all_steps in (("list", listed), ("query", query_steps)):
        print("\n%s: steps, each with the number of cases that took it" % call)
        for title, keys in all_steps():
            known.update((call,) + key for key in keys)
            line = title + ": "
            for key in keys:
                text = "%s %d" % (word(key), seen[(call,) + key])
                if len(line) + len(text) > 138:
                    print(line)
                    line = "    "
                line += text + "; "
            print(line.rstrip("; "))
            missing += ["%s, %s: %s" % (call, title, word(key)) for key in keys if not seen[(call,) + key]]
    shared = {key[0] for _, keys in listed() for key in keys} - {"reply"}
    for key in sorted(seen, key=str):
        # what a query meets while it lists is counted of the listings
        if key not in known and not (key[0] == "query" and key[1] in shared):
            print("not in a table: %s %d" % (key, seen[key]))
    return missing


def main():
    parser = argparse.ArgumentParser(usage=__doc__.split("usage: ")[1].split("\n\n")[0])
    parser.add_argument("cases", nargs="?", type=int, default=20000)
    parser.add_argument("seed", nargs="?", type=int, default=1)
    parser.add_argument("--program", default=PROGRAMS["list"])
    parser.add_argument("--query", default=PROGRAMS["query"])
    args = parser.parse_args()
    programs = {call: path for call, path in (("list", args.program), ("query", args.query)) if path != "none"}
    for path in programs.values():
        if not os.path.exists(path):
            sys.exit("%s is not there; `none` in its place compares without it" % path)
    sheets.rnd.seed(args.seed)
    form.rnd.seed(args.seed)
    start, done = time.time(), 0
    comparison = Comparison(programs)
    for batch in drawn(args.cases):
        comparison.batch(batch)
        done += len(batch)
        if done // 20000 != (done - len(batch)) // 20000:
            print("%d cases, %d s, %d differ" % (done, time.time() - start, comparison.differ), file=sys.stderr, flush=True)
    comparison.summary(time.time() - start)
    sys.exit(1 if comparison.differ else 0)


if __name__ == "__main__":
    main()
