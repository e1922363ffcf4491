#!/usr/bin/env python3
"""Runs optlower beside a second implementation of the resolver, and, given one, beside the original's own code.

usage: resolve.py [CASES] [SEED] [--oracle ORACLE] [--program PROGRAM]
       resolve.py list [write] [--oracle ORACLE]

Run it from the root of the repository. steps.py is the second implementation, sheets.py and queries.py draw the cases, a sheet and
several requests, figures.py has those at each limit, tables.py prints. PROGRAM is optlower, as `rt run` builds it if none is given;
`--program none` leaves it out, and the output says so. Its answers and the second implementation's have to be equal in every line,
whatever the case, the place of a refusal too.

A request that is refused at an option, and has others, is taken apart: behind it come that option and each before it, in a request of its
own with the same scope and options type. None of those before may be refused, and the option itself has to be as it was, now at option 0.
Without a program the second implementation is asked.

ORACLE is a program over protobuf-parse 3.7.2 that reads a line of hexadecimal digits, tags 40 and 41, in its mode `sheet`, and prints what
the original's own option resolver answers; with `--fixed` it takes the eight options types from its own descriptor.proto. It is asked
where a sheet is clean and all is in form. Look-ups show in the numbers of the records. Bytes are compared record by record, those of one
number in their order, at each level; errors of the original outside OptionResolverError only as refusals. Where the input is one that
docs/DIFFERENCES.md lists, the second implementation does as the original does there, so that nothing else can hide behind it; these cases
are counted by kind. The original answers with no positions, but the text of most of its errors names a part: this has to be the text of the
part that is refused. On 01's domain the option that is refused has to be the first that the original refuses alone.

A difference is printed with its input, made smaller as far as leaving out fields does it; the exit code is then 1. The tables say how
many cases came by each step, so that one that never occurs is seen.

`list` chooses cases that hit every step once and says whether crates/optlower/stdin and stdout are these, or writes them. The cases of
examples.py come first; their answers are written by hand. Then come cases drawn here, the smallest that have a step which no other has.
Their answers are the original's where it is asked and answers with bytes, Absent or an OptionResolverError, and the second
implementation's everywhere else: an ORACLE is needed to write them. Without one all answers are the second implementation's. The place of
a refusal is always the second implementation's.
"""
import argparse
import collections
import os
import re
import subprocess
import sys
import time

import built
import descriptor
import examples
import figures
import form
import queries
import sheets
import steps
import tables
from sheets import f

ROOM = 131000  # bytes that one run of the program takes
PROGRAM = built.program("optlower")
STORED = "crates/optlower/"


class Case:
    def __init__(self, what, sheet, query):
        self.what, self.sheet, self.query = what, sheet, query
        self.run = steps.Run(sheet, query)

    def size(self):
        return 6 + len(self.sheet.data) + len(self.query)

    def hex(self):
        return (f(0x40, self.sheet.data) + f(0x41, self.query)).hex().upper()


def drawn(total):
    """Cases in batches, as many as are asked for."""
    batch, done = [], 0
    for what, data, several in queries.cases():
        sheet = steps.Sheet(data)
        for query in several:
            batch.append(Case(what, sheet, query))
        if len(batch) >= 2000 or done + len(batch) >= total:
            yield batch[: total - done]
            done += len(batch)
            batch = []
        if done >= total:
            return


# ---- the program
def program_answers(program, cases):
    """The program's lines to each case; a run takes as many cases as it has room for."""
    groups, batch, size = [], [], 0
    for case in cases + [None]:
        if batch and (case is None or size + case.size() > ROOM):
            run = subprocess.run([program], input="".join(c.hex() for c in batch).encode(), stdout=subprocess.PIPE, check=True)
            told = []
            for line in run.stdout.decode().splitlines():
                if line.startswith("answer ") or not told:
                    told.append([])
                told[-1].append(line)
            if len(told) != len(batch):
                sys.exit("%s gave %d answers to %d cases, the last %s" % (program, len(told), len(batch), told[-1:]))
            groups += told
            batch, size = [], 0
        if case is not None:
            batch.append(case)
            size += case.size()
    return groups


# ---- options alone
def alone(case):
    """Of a request that is refused at an option that one and each before it, as requests of their own; none where it has no others."""
    if not hasattr(case, "apart"):
        scope, kind, *options = [f(*field) for field in steps.fields(case.query)] if case.run.where else (b"", b"")
        many = case.run.where[0] + 1 if len(options) > 1 else 0
        case.apart = [Case("alone", case.sheet, scope + kind + option) for option in options[:many]]
    return case.apart


def as_alone(lines, each):
    """Whether a refusal is that of the last of these alone, whose option is 0, and none of the others is refused."""
    *before, last = each
    part = lines[-1].partition(" part ")[2]
    there = lines[2:] == ["option %d part %s" % (len(before), part)] and last == lines[:2] + ["option 0 part " + part]
    return there and all(told[0] == "answer 0" for told in before)


# ---- the original
class Told(list):
    """The lines of an answer, and what else was said."""

    said = ""


def oracle_answers(oracle, cases, *flags):
    """Each answer as lines; the number of a refusal by another error than OptionResolverError has `~` before it."""
    text = "".join(c.hex() + "\n" for c in cases)
    run = subprocess.run([oracle, "sheet", *flags], input=text, stdout=subprocess.PIPE, encoding="utf-8", check=True)
    told = []
    for line in run.stdout.splitlines():
        words = line.split(" | ")[0].split(" ")
        if words[:2] == ["answer", "0"]:
            told.append(Told(["answer 0", (words[2] + " " + "".join(words[3:]).upper()).strip()]))
        else:
            told.append(Told(["answer " + words[1], words[2]] if words[0] == "answer" else [line]))
            told[-1].said = line.partition(" | ")[2]
    if len(told) != len(cases):
        sys.exit("%s gave %d answers to %d cases" % (oracle, len(told), len(cases)))
    return told


EIGHT = {descriptor.PACKAGE + (name,) for name in steps.EIGHT}


def every_message(messages):
    for message in messages:
        yield message
        yield from every_message(message.messages)


# their fields and enums, both in any order
GOOGLE = {m.full: (sorted((d.name, d.number, d.kind, d.label, d.path or ()) for d in m.fields),
                   sorted((enum.name, sorted(enum.values)) for enum in m.enums)) for m in every_message(sheets.google_messages())}


def judged(sheet):
    """Whether a sheet is clean, whether it is but for names of extensions, and whether its options types are descriptor.proto's."""
    if not hasattr(sheet, "clean_as"):
        sheet.clean_as = None if sheet.fault else "clean" if sheet.clean() else "names meet" if sheet.clean(extensions=False) else None
        sheet.google = sheet.clean_as and all(
            (sorted((d.name, d.number, d.type, d.label, d.path or ()) for d in scope.all_fields),
             sorted((name, sorted(values)) for name, values in scope.all_enums)) == known
            for path, known in GOOGLE.items() for scope in sheet.messages(path)
        )
    return sheet


DOMAIN = "01's domain"


def row(case):
    """The line of the table under which a case is compared with the original."""
    run, sheet = case.run, judged(case.sheet)
    if run.kinds:
        return " and ".join(sorted(run.kinds))
    if run.refused and run.refused.number == 14:
        return "refused 14"
    if sheet.clean_as != "clean":
        return "extensions of one full name"
    if not sheet.google:
        return "options types of those names with other fields"
    return DOMAIN if run.scope in sheet.at else "a scope that is not declared"


URL = re.compile(rb"[\x20-\x7e]*/[A-Za-z_][A-Za-z0-9_]*(\.[A-Za-z_][A-Za-z0-9_]*)*\Z")


def readable(constants):
    """Type URLs are a prefix, a slash and a full name: the original's form, and all that the oracle reads."""
    for tag, payload in constants:
        if tag == 0x29 and not URL.match(payload):
            return False
        if tag in (steps.MESSAGE, steps.LIST) and not readable(steps.fields(payload)):
            return False
    return True


def asked(case):
    """Whether the original is asked; if not, why is noted."""
    if not hasattr(case, "why"):
        case.why = None
        if case.run.refused and case.run.refused.number < 4:
            case.why = "malformed, or past a limit"
        elif not judged(case.sheet).clean_as:
            case.why = "not clean"
        elif not all(readable(steps.fields(option)) for _, option in list(steps.fields(case.query))[2:]):
            case.why = "type URLs of another form"
    return case.why is None


def asked_fixed(case):
    """Whether one that is asked is asked with `--fixed` too."""
    return case.run.kind in EIGHT and case.sheet.google and case.sheet.messages(case.run.kind)


def ours(case):
    """What the original is expected to answer."""
    return steps.Run(case.sheet, case.query, crate=True) if case.run.kinds else case.run


def agree(case, run, told):
    """How an answer of the original agrees with a run of the second implementation; None if it does not."""
    lines = run.answer()
    if told[0].startswith("answer ~"):
        return "refused, another error" if run.refused else None
    if told == lines:
        return "refused, the same" if run.refused else "absent" if told[1] == "absent" else "the same bytes"
    if told[0] == "answer 0" and run.bytes is not None and told[1].startswith("bytes"):
        theirs = bytes.fromhex(told[1][6:])
        if by_number(case.sheet, run.kind, theirs) == by_number(case.sheet, run.kind, run.bytes):
            return "the same per number"
    return None


# the errors that name a part
NAMING = re.compile(
    r"parsing custom option `([^`]+)` value |extension not found: (\S+)\Z|wrong extension type: option (\S+) extendee |unknown field name: "
    r"(\S+)\Z|extension is not a message: scope: \S*, option name: (\S+)\Z|builtin option \S+ (?:not found for options|points to a "
    r"non-singular field of) (\S+)\Z")


def named(told):
    """The part that an error of the original names, without brackets."""
    found = NAMING.match(told.said)
    return next(name for name in found.groups() if name).strip("()").encode() if found else None


def refused_part(case, run):
    """The text of the part that is refused."""
    option, part = run.where
    return list(steps.fields(list(steps.fields(case.query))[2 + option][1]))[part][1]


def by_number(sheet, path, data):
    """Records by number, those of one number in their order; what a known message holds likewise."""
    known = {d.number: d for scope in sheet.messages(path) for d in scope.all_fields}
    for scope in sheet.every:
        known.update({d.number: d for d in scope.all_extensions if d.extendee == path})
    found, at = {}, 0
    while at < len(data):
        tag, at = read_varint(data, at)
        start = at
        if tag % 8 == 0:
            _, at = read_varint(data, at)
        elif tag % 8 == 2:
            size, start = read_varint(data, at)
            at = start + size
        else:
            at += 8 if tag % 8 == 1 else 4
        payload = data[start:at]
        if tag // 8 in known and known[tag // 8].type == 11:
            payload = by_number(sheet, known[tag // 8].path, payload)
        found.setdefault(tag // 8, []).append((tag % 8, payload))
    return found


def read_varint(data, at):
    number = shift = 0
    while True:
        number |= (data[at] & 127) << shift
        shift += 7
        at += 1
        if data[at - 1] < 128:
            return number, at


# ---- differences
def tree(data):
    """Bytes as fields, taken apart as far as they are containers."""
    out, at = [], 0
    while at < len(data):
        stop = at + 3 + int.from_bytes(data[at + 1 : at + 3], "big")
        if at + 3 > len(data) or stop > len(data):
            return None
        inner = tree(data[at + 3 : stop]) if data[at] in (1, 2, 3, 4, 5, 6, 8, 0x26, 0x2A) else None
        out.append((data[at], data[at + 3 : stop] if inner is None else inner))
        at = stop
    return out


def joined(nodes):
    return b"".join(f(tag, inner if isinstance(inner, bytes) else joined(inner)) for tag, inner in nodes)


def shorter(nodes):
    """Ways to leave out fields that stand together, half of them first and one last, at any depth, the outermost first."""
    many = len(nodes)
    while many:
        for i in range(0, len(nodes) - many + 1, max(1, many // 2)):
            yield nodes[:i] + nodes[i + many :]
        many //= 2
    for i, (tag, inner) in enumerate(nodes):
        if not isinstance(inner, bytes):
            for less in shorter(inner):
                yield nodes[:i] + [(tag, less)] + nodes[i + 1 :]


def smallest(case, differs, tries=1500):
    """The case with fields left out for as long as it still differs."""
    parts = [tree(case.sheet.data), tree(case.query)]
    going = None not in parts
    while going:
        going = False
        for which in (1, 0):
            for less in shorter(parts[which]):
                tries -= 1
                if tries < 0:
                    return case
                new = [less if which == i else part for i, part in enumerate(parts)]
                smaller = Case(case.what, steps.Sheet(joined(new[0])), joined(new[1]))
                if differs(smaller):
                    parts, case, going = new, smaller, True
                    break
    return case


def cut(lines):
    text = " / ".join(lines)
    return text if len(text) < 400 else "%s .. (%d characters)" % (text[:400], len(text))


class Comparison:
    """Counts, and prints what differs."""

    def __init__(self, program, oracle):
        self.program, self.oracle, self.differ = program, oracle, 0
        self.kinds, self.seen, self.rows = collections.Counter(), collections.Counter(), collections.defaultdict(collections.Counter)
        self.other, self.not_asked, self.changed = collections.Counter(), collections.Counter(), collections.Counter()
        self.taken_apart = self.alone = self.first = 0
        self.named = collections.Counter()

    def report(self, case, differs, show):
        self.differ += 1
        case = smallest(case, differs)
        print("DIFFERS (%s): %s\n  second: %s" % (case.what, case.hex(), cut(case.run.lines())))
        for name, told in show(case):
            print("  %s: %s" % (name, cut(told)))
        if self.differ >= 5:
            sys.exit(1)

    def answers(self, cases):
        return program_answers(self.program, cases) if self.program else [case.run.lines() for case in cases]

    def with_program(self, cases):
        """Each case, and behind it what it is taken apart to."""
        def told(case):
            return self.answers([case])[0]

        def apart(case):
            return as_alone(told(case), [told(one) for one in alone(case)])

        groups = [[case] + alone(case) for case in cases]
        answers = iter(self.answers([case for group in groups for case in group]))
        for group in groups:
            lines = [next(answers) for _ in group]
            wrong = [case for case, told_it in zip(group, lines) if told_it != case.run.lines()]
            for case in wrong:
                self.report(case, lambda c: told(c) != c.run.lines(), lambda c: [("program", told(c))])
            self.taken_apart += len(group) > 1
            self.alone += len(group) - 1
            if len(group) > 1 and not wrong and not as_alone(lines[0], lines[1:]):
                self.report(group[0], lambda c: alone(c) and not apart(c), lambda c: [("alone", told(one)) for one in alone(c)])

    def with_oracle(self, cases):
        plain = [case for case in cases if asked(case)]
        for case in cases:
            if not asked(case):
                self.not_asked[case.why] += 1
        self.with_mode(plain, [], "")
        self.with_mode([case for case in plain if asked_fixed(case)], ["--fixed"], ", --fixed")
        self.with_first([case for case in plain if row(case) == DOMAIN and alone(case)])

    def with_first(self, cases):
        """The option that is refused is the first that the original refuses alone."""
        def refused(case):
            return [told[0] != "answer 0" for told in oracle_answers(self.oracle, alone(case))]

        def wanted(case):
            return [False] * case.run.where[0] + [True]

        def differs(case):
            return asked(case) and row(case) == DOMAIN and alone(case) and refused(case) != wanted(case)

        answers = iter(oracle_answers(self.oracle, [one for case in cases for one in alone(case)]))
        for case in cases:
            self.first += 1
            if [next(answers)[0] != "answer 0" for _ in alone(case)] != wanted(case):
                self.report(case, differs, lambda c: [("original, alone", told) for told in oracle_answers(self.oracle, alone(c))])

    def with_mode(self, cases, flags, suffix):
        def told(case):
            return oracle_answers(self.oracle, [case], *flags)[0]

        def misnamed(run, case, lines):
            return run.where and named(lines) not in (None, refused_part(case, run))

        def differs(case):
            if not asked(case) or (flags and not asked_fixed(case)) or told(case)[0][:6] not in ("answer", "panic "):
                return False
            return agree(case, ours(case), told(case)) is None or misnamed(ours(case), case, told(case))

        for case, lines in zip(cases, oracle_answers(self.oracle, cases, *flags) if cases else []):
            if lines[0].split()[0] in ("notloaded", "badinput"):
                self.other[" ".join(lines[0].split()[:3])] += 1
                continue
            run = ours(case)
            how = agree(case, run, lines)
            if how is None or misnamed(run, case, lines):
                self.report(case, differs, lambda c: [("original" + suffix, told(c) + [told(c).said])])
                continue
            if run.where:
                self.named[named(lines) is not None, "%s %d" % (run.judged, run.refused.number)] += 1
            self.rows[row(case) + suffix][how] += 1
            if lines[0].startswith("answer ~"):
                self.other["%d here, %s there" % (run.refused.number, lines[1])] += 1
            if run.answer() != case.run.answer():
                self.changed[row(case) + suffix] += 1

    def batch(self, cases):
        for case in cases:
            self.kinds[case.what] += 1
            self.seen.update(case.run.seen)
        self.with_program(cases)
        if self.oracle:
            self.with_oracle(cases)

    def summary(self, seconds):
        total = sum(self.kinds.values())
        print("%d cases in %d s: %s" % (total, seconds, ", ".join("%s %d" % k for k in sorted(self.kinds.items()))))
        print("program: %s" % ("%d compared" % total if self.program else "NOT THERE, not compared"))
        by = "program" if self.program else "second implementation"
        print("refused at an option, each up to it alone: %d requests, %d options, of the %s" % (self.taken_apart, self.alone, by))
        if self.oracle:
            tables.original(self.rows, self.changed, self.other, self.not_asked)
            tables.places_there(self.named, self.first)
        never = tables.steps_taken(self.seen)
        print("%d differ" % self.differ)
        return never


# ---- the stored test
SEED, DRAWN = 1, 60000


def listed(case):
    """The steps of a case, as the list has to hit them: constants that do not fit a builtin by the type alone and by the constant alone,
    what `default` and `json_name` are set to not at all, since an example has that."""
    out = {(case.what, case.run.lines()[0])} if case.what in ("malformed", "names of extensions meet") else set()
    for step in case.run.seen:
        if step[0] == "skipped":
            out.add(step[:2])
        elif step[0] == "builtin" and len(step) == 4 and step[3] == 12:
            out |= {("builtin", "misfit", "type", step[1]), ("builtin", "misfit", "constant", step[2])}
        elif step[0] == "value" and step[2] == steps.LIST and step[3]:
            out.add(("value", "list", step[3]))
        elif step[0] not in ("constant", "builtin constant") and step[-1] != "far":
            out.add(step)
    return out


def chosen():
    """The cases at the figures, but for those that take most room, and then drawn cases, small ones, that together take every step."""
    sheets.rnd.seed(SEED)
    form.rnd.seed(SEED)
    limits = [Case("limit", steps.Sheet(sheet), query) for sheet, query in figures.limits()]
    out = [case for case in limits if case.size() < 3000 or len(case.sheet.data) == 32768]
    out.append(min((case for case in limits if ("length bytes", 3) in case.run.seen), key=Case.size))
    done = set().union(*map(listed, out))
    least = {}
    for batch in drawn(DRAWN):
        for case in batch:
            for step in listed(case) - done if case.what != "limit" else ():
                if step not in least or case.size() < least[step].size():
                    least[step] = case
    left, cases = set(least), sorted(set(least.values()), key=lambda c: (c.size(), c.hex()))
    while left:
        best = max(cases, key=lambda c: len(left & listed(c)) / (c.size() + 200))
        wanted = left & listed(best)
        best = smallest(best, lambda c: wanted <= listed(c) and asked(c) == asked(best) and (not asked(c) or row(c) == row(best)), 4000)
        out.append(best)
        left -= listed(best)
    return out


def stored(oracle):
    """The cases of the stored test with their answers, and where these come from."""
    came = collections.Counter()
    for sentence, data, query, answer in examples.CASES:
        case = Case("example", steps.Sheet(data), query)
        assert case.run.lines() == examples.lines(answer), (sentence, case.run.lines(), answer)
        came["by hand"] += 1
        yield case, examples.lines(answer), came
    cases = chosen()
    told = iter(oracle_answers(oracle, [c for c in cases if asked(c)])) if oracle else None
    for case in cases:
        lines = next(told) if oracle and asked(case) else ["not asked"]
        if lines[0].startswith("answer ") and "~" not in lines[0] and row(case) == DOMAIN:
            came["the original's"] += 1
        else:
            lines = case.run.answer()
            came["the second implementation's"] += 1
        assert lines == case.run.answer(), (case.hex(), lines, case.run.lines())
        yield case, lines + case.run.place(), came


def write_list(oracle, write):
    digits, answers, came = [], [], None
    for case, lines, came in stored(oracle):
        text = case.hex()
        digits += [text[i : i + 120] for i in range(0, len(text), 120)]
        answers += lines
    print("%d cases: %s" % (sum(came.values()), ", ".join("%s %d" % x for x in sorted(came.items()))))
    other = False
    for name, text in (("stdin", "\n".join(digits) + "\n"), ("stdout", "\n".join(answers) + "\n")):
        path = STORED + name
        if write:
            os.makedirs(STORED, exist_ok=True)
            open(path, "w").write(text)
        same = os.path.exists(path) and open(path).read() == text
        other = other or not same
        print("%s: %s, %d bytes" % (path, "these cases" if same else "OTHER CASES", len(text)))
    return other


def main():
    parser = argparse.ArgumentParser(usage=__doc__.split("usage: ")[1].split("\n\n")[0])
    parser.add_argument("cases", nargs="?", default="20000")
    parser.add_argument("seed", nargs="?", default="1")
    parser.add_argument("--oracle")
    parser.add_argument("--program", default=PROGRAM)
    args = parser.parse_args()
    if args.oracle:
        descriptor.check(args.oracle)
    if args.cases == "list":
        if args.seed == "write" and not args.oracle:
            sys.exit("to write the list an oracle is needed")
        sys.exit(1 if write_list(args.oracle, args.seed == "write") else 0)
    if args.program != "none" and not os.path.exists(args.program):
        sys.exit("%s is not there; `--program none` compares without it" % args.program)
    sheets.rnd.seed(int(args.seed))
    form.rnd.seed(int(args.seed))
    start = time.time()
    comparison = Comparison(None if args.program == "none" else args.program, args.oracle)
    comparison.batch([Case("example", steps.Sheet(data), query) for _, data, query, _ in examples.CASES])
    for batch in drawn(int(args.cases)):
        comparison.batch(batch)
    comparison.summary(time.time() - start)
    sys.exit(1 if comparison.differ else 0)


if __name__ == "__main__":
    main()
