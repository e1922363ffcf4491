#!/usr/bin/env python3
"""Runs optevolve beside a second implementation of what it prints, and checks what an older sheet lists of a newer one's bytes.

usage: evolve.py [CASES] [SEED] [--program OPTEVOLVE]
       evolve.py counterexample

Run it from the root of the repository. pairs.py draws the cases, an older sheet, a newer one and mostly a request for the newer.
evolution.py has the tests of sheets a second time, steps.py the resolver, options_reader.py the listing, people.py the lines for people.
OPTEVOLVE is optevolve as `rt run` builds it if none is given; its answers and the second implementation's have to be equal in every line.
With `--program none` optlower and optlist are run in its place, each for its part, and the output says so: the lines of the two tests are then
not compared.

Demand 3 is checked wherever it speaks: both sheets are clean, the older is contained in the newer and declares the options type, and the
request gives bytes. Then the older lists the request's typed records in order, save that a number which it does not declare is unknown and
what lies inside is left out; and never refuses. What is expected comes from the request, what is listed from the program. Elsewhere it is
counted how often the same would be true.

A difference is printed with its input, made smaller as far as leaving out fields does it; the exit code is then 1. The tables say what the
cases came by, and the line "never taken" names what did not occur. `counterexample` prints small cases, with what is printed for them, in
which demand 3 would fail: two sheets that are not contained, two that are not clean, and each of its premises alone.
"""
import argparse
import collections
import functools
import os
import subprocess
import sys
import time

import built
import evolution
import examples
import form
import options_reader
import pairs
import people
import sheets
import steps
from evolution import ENUM, EXTENSION, KINDS, MESSAGE
from listing import groups
from resolve import ROOM, cut, joined, shorter, tree
from sheets import dotted, f
from steps import TYPES, components

PROGRAMS = {call: built.program("opt" + call) for call in ("evolve", "lower", "list")}


# ---- cases
class Pair:
    """Two sheets, and what is said of them. `change` is what was changed on which side."""

    def __init__(self, what, change, older, newer):
        self.what, self.change, self.older, self.newer, self.readers = what, change, older, newer, None
        self.refused = older.fault or newer.fault
        sides = [("older", older), ("newer", newer)]
        self.seen = {("refused", side, sheet.fault) for side, sheet in sides if sheet.fault}
        if self.refused:
            return
        self.clean, self.contained = [evolution.clean(older), evolution.clean(newer)], evolution.contained(older, newer)
        self.known = {(message, d.number) for message, d in evolution.numbers(older)}
        self.types = {full for kind, full, _ in evolution.declarations(older) if kind == MESSAGE}
        for (side, sheet), reason in zip(sides, self.clean):
            self.seen.add(("clean", side, "yes" if reason is None else uncleanness(sheet, reason)))
        self.seen.add(("contained", "yes" if self.contained is None else difference(older, newer, self.contained)))
        kept = self.clean == [None, None] and self.contained is None
        assert kept or what not in pairs.KEPT, (what, change, older.data.hex(), newer.data.hex(), self.clean, self.contained)
        if change and kept == (what in pairs.KEPT):
            self.seen.add(("change", *change))

    def listings(self, kind, data):
        """What the older and the newer list of some bytes."""
        self.readers = self.readers or [options_reader.Sheet(sheet.data) for sheet in (self.older, self.newer)]
        return [options_reader.Listing(reader, kind, data) for reader in self.readers]

    def lines(self):
        if self.refused:
            return ["answer %d" % self.refused, form.NAMES[self.refused]]
        told = [("clean", reason) for reason in self.clean] + [("contained", self.contained)]
        return ["answer 0"] + ["%s yes" % word if reason is None else "%s no %s" % (word, reason) for word, reason in told]


class Case:
    """A pair and a request or none."""

    def __init__(self, pair, query):
        self.pair, self.query, self.seen, self.run, self.lists = pair, query, set(), None, []
        if query is None or pair.refused:
            self.seen.add(("request", "none" if query is None else "not read"))
            return
        self.run = run = evolution.Typed(pair.newer, query)
        answer = run.refused.number if run.refused else "absent" if run.bytes is None else "bytes" if run.bytes else "no bytes"
        self.seen.add(("request", answer))
        if run.refused:
            option, part = run.where or (None, None)
            self.seen |= {("refused at option", steps.few(option)), ("refused at part", steps.few(part))}
        if run.bytes is not None:
            self.kind = dotted(run.kind)
            self.lists = pair.listings(self.kind, run.bytes)
            self.note_records()

    @functools.cached_property
    def groups(self):
        """The lines to be printed, those of each answer together."""
        groups = [self.pair.lines()] + ([self.run.lines()] if self.run else [])
        if self.lists:
            printed = [[] if self.lists[0].refused else self.for_people(told) for told in self.lists]
            groups.append(self.lists[0].lines() + printed[0] + self.beside(printed))
        return groups

    def for_people(self, told):
        return people.names(told.sheet.data).lines(self.kind, self.run.bytes, told.rows)

    def beside(self, printed):
        """The newer's records, up to their first fault, each with the older's line for it, and between them those that the older alone
        has: a record is known by the place of its payload, which no two share."""
        older, newer = ({row[4]: (row[0], line) for row, line in zip(told.rows, lines)} for told, lines in zip(self.lists, printed))
        out = []
        for place in sorted(older.keys() | newer.keys()):
            line = newer[place][1] if place in newer else "  " * (older[place][0] + 1) + "-"
            out.append("%s | %s" % (line, older[place][1].lstrip(" ") if place in older else "-"))
        return out

    def note_records(self):
        older, newer = self.lists
        self.seen |= {("listing", "older", older.refused or 0), ("listing", "newer", newer.refused or 0)}
        if older.refused:
            return
        there, written = {row[4] for row in older.rows}, {row[4] for row in newer.rows}
        if not there <= written:
            self.seen.add(("older alone", "from a fault of the newer on" if newer.refused else "inside what the newer does not enter"))
        if newer.refused:
            return
        for row in older.rows:
            if row[4] in written:
                self.seen.add(("known at level" if row[2] else "unknown at level", row[0]))
                self.seen.add(("known", row[2]) if row[2] else ("unknown", row[3]))
        self.seen |= {("left out at level", row[0]) for row in newer.rows if row[4] not in there}

    def lines(self):
        return [line for group in self.groups for line in group]

    def fields(self):
        two = f(0x40, self.pair.older.data) + f(0x40, self.pair.newer.data)
        return two if self.query is None else two + f(0x41, self.query)

    def hex(self):
        return self.fields().hex().upper()


def drawn(total):
    """Cases in batches, as many as are asked for."""
    batch, done = [], 0
    for what, change, older, newer, requests in pairs.cases():
        pair = Pair(what, change, older, newer)
        batch += [Case(pair, query) for query in requests]
        if len(batch) >= 2000 or done + len(batch) >= total:
            yield batch[: total - done]
            done += len(batch)
            batch = []
        if done >= total:
            return


# ---- demand 3
def spoken_of(case):
    """None where demand 3 speaks of a case, or why it does not."""
    if case.pair.refused or case.run is None or case.run.bytes is None:
        return "no bytes"
    if case.pair.clean != [None, None]:
        return "older not clean" if case.pair.clean[1] is None else "newer not clean" if case.pair.clean[0] is None else "both not clean"
    if case.pair.contained is not None:
        return "not contained"
    return None if case.run.kind in case.pair.types else "no such options type"


def holds(case, group):
    """Whether what a program printed of the older's listing is what the request's records make it."""
    if group[:1] != ["answer 0"]:
        return False
    return as_foretold(case, [tuple(map(int, line.split()[1:])) for line in group if line.startswith("record ")])


def as_foretold(case, rows):
    return [(row[0], row[1], row[2], row[6] | row[7] << 32) for row in rows] == list(evolution.listed(case.run.tree, case.pair.known))


# ---- the programs
def run(program, inputs):
    """The lines of one run."""
    text = b"".join(inputs).hex().upper().encode()
    return subprocess.run([program], input=text, stdout=subprocess.PIPE, check=True).stdout.decode().splitlines()


def batches(things, size):
    """As many at a time as one run has room for."""
    batch, filled = [], 0
    for thing in things:
        if batch and filled + size(thing) > ROOM:
            yield batch
            batch, filled = [], 0
        batch.append(thing)
        filled += size(thing)
    if batch:
        yield batch


class Whole:
    """optevolve."""

    def __init__(self, program):
        self.program = program

    def told(self, cases):
        """Each case with what was printed for it. Only where all of a run is as wanted is it known whose each line is: else one by one."""
        for batch in batches(cases, lambda case: len(case.fields())):
            if run(self.program, [case.fields() for case in batch]) == [line for case in batch for line in case.lines()]:
                yield from ((case, case.groups) for case in batch)
            else:
                yield from ((case, groups("\n".join(run(self.program, [case.fields()])))) for case in batch)

    def wanted(self, case):
        return case.groups


class Parts:
    """optlower and optlist in its place: of a case the newer's bytes, the older's listing and the newer's."""

    def wanted(self, case):
        return case.groups[1:2] + [told.lines() + ([] if told.refused else case.for_people(told)) for told in case.lists]

    def told(self, cases):
        asked = []
        for case in cases:
            if case.run:
                asked.append(("lower", f(0x40, case.pair.newer.data) + f(0x41, case.query)))
            if case.lists:
                rest = f(0x44, case.kind) + f(0x45, case.run.bytes)
                asked += [("list", f(0x40, sheet.data) + rest) for sheet in (case.pair.older, case.pair.newer)]
        answers = {call: iter(self.answers(call, [data for by, data in asked if by == call])) for call in ("lower", "list")}
        for case in cases:
            lower = [next(answers["lower"])] if case.run else []
            yield case, lower + ([next(answers["list"]), next(answers["list"])] if case.lists else [])

    def answers(self, call, inputs):
        for batch in batches(inputs, len):
            told = groups("\n".join(run(PROGRAMS[call], batch)))
            if len(told) != len(batch):
                sys.exit("%s gave %d answers to %d cases, the last %s" % (PROGRAMS[call], len(told), len(batch), told[-1:]))
            yield from told


# ---- differences
def smallest(case, differs, tries=1500):
    """The case with fields left out of the request and of both sheets for as long as it still differs."""
    given = [case.query, case.pair.older.data, case.pair.newer.data]
    going = True
    while going:
        going = False
        for which, data in enumerate(given):
            for less in shorter(tree(data) or []) if data is not None else ():
                tries -= 1
                if tries < 0:
                    return case
                query, *both_sheets = [joined(less) if which == i else data for i, data in enumerate(given)]
                smaller = Case(Pair("smaller", None, *map(steps.Sheet, both_sheets)), query)
                if differs(smaller):
                    given, case, going = [query, *both_sheets], smaller, True
                    break
    return case


class Comparison:
    """Counts, and prints what differs."""

    def __init__(self, by):
        self.by, self.differ, self.pairs, self.cases = by, 0, 0, 0
        self.kinds, self.seen, self.last = collections.Counter(), collections.Counter(), None

    def batch(self, cases):
        for case, told in self.by.told(cases):
            self.count(case)
            if told != self.by.wanted(case):
                self.report(case, "DIFFERS", lambda c: self.alone(c) != self.by.wanted(c))
            elif case.lists:
                self.promise(case, told)

    def alone(self, case):
        return next(iter(self.by.told([case])))[1]

    def listing(self, told):
        """What was printed of the older's listing."""
        return told[2] if isinstance(self.by, Whole) else told[1]

    def promise(self, case, told):
        why, good = spoken_of(case), holds(case, self.listing(told))
        self.seen["demand 3", why or "spoken of", "holds" if good else "does not hold"] += 1
        if why is None and not good:
            self.report(case, "DEMAND 3 BROKEN", lambda c: spoken_of(c) is None and not holds(c, self.listing(self.alone(c))))

    def count(self, case):
        self.cases += 1
        self.seen.update(case.seen)
        if case.pair is not self.last:
            self.last, self.pairs = case.pair, self.pairs + 1
            self.kinds[case.pair.what] += 1
            self.seen.update(case.pair.seen)

    def report(self, case, what, differs):
        self.differ += 1
        drawn_as = " ".join((case.pair.what, *(case.pair.change or ())))
        case = smallest(case, differs)
        print("%s (%s): %s" % (what, drawn_as, case.hex()))
        second, program = ([line for group in told for line in group] for told in (self.by.wanted(case), self.alone(case)))
        if second == program:
            print("  listed:   %s\n  expected: %s" % (cut(program), list(evolution.listed(case.run.tree, case.pair.known))))
        else:
            at = next(i for i in range(len(second) + 1) if second[: i + 1] != program[: i + 1])
            print("  from line %d on\n  second:  %s\n  program: %s" % (at + 1, cut(second[at:]), cut(program[at:])))
        if self.differ >= 5:
            sys.exit(1)

    def summary(self, seconds):
        kinds = ", ".join("%s %d" % k for k in sorted(self.kinds.items()))
        print("%d cases of %d pairs in %d s: %s" % (self.cases, self.pairs, seconds, kinds))
        whole = "compared" if isinstance(self.by, Whole) else "NOT THERE, optlower and optlist in its place, the two tests not compared"
        print("optevolve: %s\n" % whole)
        print("never taken: %s" % ("; ".join(self.tables()) or "none"))
        print("%d cases, %d differ" % (self.cases, self.differ))

    def tables(self):
        missing, known = [], set()
        for title, keys in steps_wanted():
            known.update(keys)
            line = title + ": "
            for key in keys:
                text = "%s %d" % (word(key), self.seen[key])
                if len(line) + len(text) > 138:
                    print(line)
                    line = "    "
                line += text + "; "
            print(line.rstrip("; "))
            missing += ["%s: %s" % (title, word(key)) for key in keys if not self.seen[key]]
        for key in sorted(set(self.seen) - known, key=str):
            print("not in a table: %s %d" % (" ".join(map(str, key)), self.seen[key]))
        print()
        return missing


# ---- what is counted of a pair
def of_path(sheet, kind, path):
    """How a path names not exactly one declaration of a kind."""
    there = [by for by, full, _ in evolution.declarations(sheet) if full == path]
    return "several" if there.count(kind) > 1 else "of another kind" if there else "to nowhere"


def both(*kinds):
    return " and ".join(sorted(kinds, key=("field", "message", "enum", "extension").index))


def uncleanness(sheet, reason):
    """A reason against cleanness in a few words, more of them than it has itself."""
    words = reason.split(" ")
    full, every = components(words[0].encode()), evolution.declarations(sheet)
    if reason == evolution.SHARED % words[0]:
        return "names of %s" % both(*[KINDS[kind] for kind, name, _ in every if name == full][:2])
    if words[1:3] == ["has", "two"]:
        return "two %s" % words[3]
    if words[1] == "extends":
        return "extendee %s" % of_path(sheet, MESSAGE, components(words[2].rstrip(",").encode()))
    kind, held = next((kind, held) for kind, name, held in every if name == full)
    if words[1] == "declares":
        d = next(d for d in held if d.name == words[2].encode())
        same = [x for message, x in evolution.numbers(sheet) if (message, x.number) == (d.extendee or full, d.number)]
        return "number of %s" % both(*["extension" if x.extendee else "field" for x in same][:2])
    path = components(words[5].rstrip(",").encode())
    there = [(by, name) for by, name, _ in every]
    wanted = [ENUM if d.type == 14 else MESSAGE for d in held if d.path == path]
    wanted = next(by for by in wanted if there.count((by, path)) != 1)
    return "type path of %s %s" % ("a field" if kind == MESSAGE else "an extension", of_path(sheet, wanted, path))


def difference(older, newer, reason):
    """A reason against containment likewise."""
    words = reason.split(" ")
    full = components(words[0].encode())
    if words[1] == "is":
        there = any(name == full for _, name, _ in evolution.declarations(newer))
        return "%s %s" % (words[3], "of another kind" if there else "not there")
    for kind, name, held in evolution.declarations(older):
        for d in held if kind in (MESSAGE, EXTENSION) and name == full else ():
            message = full if kind == MESSAGE else d.extendee
            same = [x for m, x in evolution.numbers(newer) if (m, x.number) == (message, d.number)]
            others = [[what for what in ("name", "type", "path") if getattr(x, what) != getattr(d, what)] for x in same]
            if d.name == words[2].rstrip(",").encode() and [] not in others:
                what = "number" if not same else "name and more" if others[0][0] == "name" and others[0][1:] else others[0][0]
                return "%s, another %s" % ("field" if kind == MESSAGE else "extension", what)
    raise AssertionError


def steps_wanted():
    two = [("message", "message"), ("message", "enum"), ("message", "extension"), ("enum", "enum"), ("enum", "extension")]
    names = ["names of %s and %s" % x for x in two + [("extension", "extension")]] + ["two fields", "two values"]
    hows = ("to nowhere", "several", "of another kind")
    names += ["extendee " + how for how in hows]
    names += ["number of %s" % x for x in ("field and field", "field and extension", "extension and extension")]
    names += ["type path of %s %s" % (by, how) for by in ("a field", "an extension") for how in hows]
    for side in ("older", "newer"):
        yield side + ", clean", [("clean", side, how) for how in ["yes"] + names]
    differ = ["%s %s" % (what, how) for what in ("message", "enum") for how in ("not there", "of another kind")]
    hows = ("number", "name", "type", "path", "name and more")
    differ += ["%s, another %s" % (what, how) for what in ("field", "extension") for how in hows]
    yield "contained", [("contained", how) for how in ["yes"] + differ]
    yield "changes by which a pair stays clean and contained", [
        ("change", name, side) for name in pairs.HARMLESS for side in ("older", "newer")]
    yield "changes by which it does not", [
        ("change", name, side) for some in (pairs.CHANGES, pairs.UNCLEAN) for name in some for side in ("older", "newer", "both")
        if not (side == "older" and name in ("left out", "enum left out")) and not (side == "both" and some is pairs.CHANGES)]
    yield "sheets refused", [("refused", side, n) for side in ("older", "newer") for n in (1, 3)]
    yield "requests", [("request", n) for n in ["none", "not read", "bytes", "no bytes", "absent"] + list(range(2, 16))]
    for what in ("option", "part"):
        yield "requests refused at %s" % what, [("refused at " + what, n) for n in (0, 1, 2, "later", "none")]
    yield "listing by the older", [("listing", "older", n) for n in (0, 7, 8, 18, 19)]
    yield "listing by the newer", [("listing", "newer", n) for n in (0, 7, 8, 18, 19)]
    yield "known to the older at level", [("known at level", n) for n in range(31)]
    yield "unknown at level", [("unknown at level", n) for n in range(31)]
    yield "left out at level", [("left out at level", n) for n in range(1, 31)]
    yield "known, by type", [("known", n) for n in range(1, 19) if n != 10]
    yield "unknown, by wire type", [("unknown", n) for n in (0, 1, 2, 5)]
    yield "records that only the older lists", [
        ("older alone", how) for how in ("inside what the newer does not enter", "from a fault of the newer on")]
    yield "demand 3 spoken of", [("demand 3", "spoken of", "holds")]
    reasons = ("older not clean", "newer not clean", "both not clean", "not contained")
    yield "not spoken of, and what it says", [
        ("demand 3", why, how) for why in reasons for how in ("holds", "does not hold")] + [
        ("demand 3", "no such options type", "does not hold")]


def word(key):
    if key[0] == "known":
        return TYPES[key[1]]
    rest = key[2:] if key[0] in ("clean", "listing") else key[1:]
    return " ".join(map(str, rest)) or key[0]


# ---- counterexamples
def counterexamples():
    """(sentence, case): demand 3 but for a premise."""
    def sheet(*extensions):
        return examples.file("p", *extensions) + examples.F

    def case(older, newer, name, constant):
        return Case(Pair("example", None, steps.Sheet(older), steps.Sheet(newer)), examples.asked(examples.opt(name, constant)))

    x, y, text = examples.ext("x", 5), examples.ext("y", 5, 9), examples.s("a")
    yield ("not contained: x was uint32 and is sint32; -1 is listed as 1",
           case(sheet(x), sheet(examples.ext("x", 5, 17)), "(x)", examples.i(-1)))
    yield "not clean: x and y have one number; y is read as x, and refused", case(sheet(x, y), sheet(x, y), "(y)", text)
    # and each premise alone
    yield ("only not contained: x was uint32 and is string; the bytes are refused",
           case(sheet(x), sheet(examples.ext("x", 5, 9)), "(x)", text))
    yield "only the newer not clean: it has y by the number of x; the bytes are refused", case(sheet(x), sheet(x, y), "(y)", text)
    yield ("only the older not clean: it has the options type twice, which is refused",
           case(sheet(x) + examples.F, sheet(x), "(x)", examples.u(7)))


def print_counterexamples():
    for sentence, case in counterexamples():
        assert spoken_of(case) and not holds(case, case.groups[2]), sentence
        print("# %s\n%s" % (sentence, case.hex()))
        print("".join("  %s\n" % line for line in case.lines()), end="")


def main():
    parser = argparse.ArgumentParser(usage=__doc__.split("usage: ")[1].split("\n\n")[0])
    parser.add_argument("cases", nargs="?", default="20000")
    parser.add_argument("seed", nargs="?", type=int, default=1)
    parser.add_argument("--program", default=PROGRAMS["evolve"])
    args = parser.parse_args()
    if args.cases == "counterexample":
        return print_counterexamples()
    needed = [PROGRAMS["lower"], PROGRAMS["list"]] if args.program == "none" else [args.program]
    for path in needed:
        if not os.path.exists(path):
            sys.exit("%s is not there; `--program none` takes optlower and optlist in the place of optevolve" % path)
    sheets.rnd.seed(args.seed)
    form.rnd.seed(args.seed)
    start = time.time()
    comparison = Comparison(Parts() if args.program == "none" else Whole(args.program))
    for batch in drawn(int(args.cases)):
        comparison.batch(batch)
        if comparison.cases // 20000 != (comparison.cases - len(batch)) // 20000:
            print("%d cases, %d s, %d differ" % (comparison.cases, time.time() - start, comparison.differ), file=sys.stderr, flush=True)
    comparison.summary(time.time() - start)
    sys.exit(1 if comparison.differ else 0)


if __name__ == "__main__":
    main()
