#!/usr/bin/env python3
"""Runs the static library for C beside second implementations, with every room and with memory that traps, and beside the original.

usage: library.py [CASES] [SEED] [--oracle ORACLE] [--library FOLDER] [--valgrind]
       library.py faults [--library FOLDER]

Run it from the root of the repository; it needs a C compiler. The library is FOLDER/liboptc.a, crates/optc/out/liboptc.a if none is given,
as `rt lib` in crates/optc writes it. CASES is 1,000,000 if none is given. Two processes draw cases, each with a seed of its own that comes
of SEED, so that the same command draws the same cases (library_cases.py). A case is a call with its inputs. What is wanted of it, the six
numbers and every element, the second implementations say (library_calls.py); compare/driver.c makes the call, many times over, and sees
that it reads and writes nothing else and keeps to its room. Of calls with a tested form both are made and have to agree; on a sheet that is
not fine the tested form has no second implementation, and only memory and room are seen to.

What a request writes under a newer sheet is listed under an older one, and where demand 3 speaks the list has to be what is foretold from
the request, as in evolve.py.

ORACLE is a program over protobuf-parse 3.7.2, as in resolve.py, search.py and lowering.py: it is asked where these ask it, about the same
inputs as the library.

A difference is printed with its input, made smaller; the exit code is then 1. A progress line goes to standard error, and the tables say
what was hit; "never taken" names what was not. `--valgrind` runs the calls under memcheck, with memory of just the right size from malloc.

`faults` sees that the comparison sees faults: compare/faulty.c bends one thing at a time, and each has to be reported.
"""
import argparse
import collections
import multiprocessing
import os
import random
import re
import subprocess
import sys
import tempfile
import time
import traceback
from queue import Empty

import built
import descriptor
import evolve
import form
import library_cases
import library_tables
import lowering
import options_reader
import resolve
import search
import sheets
import tables
from library_calls import Driver, Ended, amiss, smallest, unpacked

LIBRARY, FLAGS = built.ARCHIVE, ["-std=c11", "-Wall", "-Wextra", "-Wpedantic", "-Werror", "-O1", "-Iinclude"]
WORKERS, MOST_DIFFERENCES = 2, 5
MEMCHECK = ["valgrind", "--quiet", "--error-exitcode=71"]
FAULT_CASES = 6000


def build(folder, library, *more):
    """The driver's path, linked with the library and with more."""
    program = os.path.join(folder, "driver")
    subprocess.run(["cc", *FLAGS, "compare/driver.c", *more, os.path.join(library, "liboptc.a"), "-o", program], check=True)
    return program


def seeded(seed):
    for drawn_from in (sheets.rnd, form.rnd, random):
        drawn_from.seed(seed)


# ---- comparing
class Comparison:
    """Counts, and prints what differs."""

    def __init__(self, driver, oracle):
        self.driver, self.oracle, self.differ = driver, oracle, 0
        self.cases, self.sheets, self.counts, self.asked = (collections.Counter() for _ in range(4))
        self.seen = collections.defaultdict(collections.Counter)
        self.original = resolve.Comparison(None, oracle)

    def told(self, cases):
        """The cases with what is told of each; one that ends the driver is reported and left out."""
        if not cases:
            return
        try:
            told, counts = self.driver.run(cases)
        except Ended as end:
            at = len(cases) // 2 if end.at is None else end.at
            yield from self.told(cases[:at])
            if end.at is not None:
                self.report(cases[at], end.text)
            yield from self.told(cases[at + (end.at is not None) :])
        else:
            self.counts += counts
            yield from zip(cases, told)

    def batch(self, cases):
        fine = []
        for case, told in self.told(cases):
            wrong = amiss(case, told) or self.promise(case, told)
            if wrong:
                self.report(case, wrong)
            else:
                self.count(case)
                fine.append((case, told))
        if self.oracle:
            self.ask([(case, told) for case, told in fine if case.plain or case.call == "resolve"])

    def count(self, case):
        reply = library_tables.reply_of(case)
        self.cases[case.call, reply] += 1
        if case.call == "clean":
            self.sheets[case.what, reply] += 1
        self.seen["own"].update(library_tables.own_steps(case))
        for table, key in case.seen:
            self.seen[table][key] += 1
        if case.call == "resolve":
            self.seen["resolve"].update(case.run.run.seen)
        elif case.call in ("list", "query") and len(case.inputs[-1]) <= options_reader.MOST_BYTES:
            at_figure = {("figure", case.label, case.run.refused or 0)} if case.label else set()
            self.seen["options"].update((case.call,) + step for step in case.run.seen | at_figure)

    def promise(self, case, told):
        """Demand 3, where this is a listing by the older sheet."""
        if case.foretold:
            words = unpacked(told.elements, "I")
            rows = [words[at : at + 8] for at in range(0, len(words), 8)]
            holds = told.answer[0] == 0 and evolve.as_foretold(case.foretold, rows)
            why = evolve.spoken_of(case.foretold)
            case.seen.append(("pairs", ("demand 3", why or "spoken of", "holds" if holds else "does not hold")))
            if why is None and not holds:
                return "demand 3 is broken: %s" % rows
        return None

    def report(self, case, wrong):
        less = smallest(case, self.driver.amiss, self.driver.tries) if self.driver.amiss(case) else case
        self.differs(less, self.driver.amiss(less) or wrong)

    def differs(self, case, wrong):
        self.differ += 1
        print("DIFFERS (%s): %s\n  %s" % (case.what, case.text(), wrong), flush=True)
        if self.differ >= MOST_DIFFERENCES:
            sys.exit(1)

    # ---- the original
    def ask(self, fine):
        self.original.with_oracle([case.run for case, _ in fine if case.call == "resolve"])
        self.ask_search([(case, told) for case, told in fine if case.call == "find"])
        self.ask_lowering([(case, told) for case, told in fine if case.call in ("ranges", "fields", "fields_by")])

    def ask_search(self, fine):
        for message in (b"o.F", b"o.G") if fine else ():
            lines = search.original(self.oracle, [(*case.inputs, message) for case, _ in fine])
            for (case, told), line in zip(fine, lines):
                words = unpacked(told.elements, "I") or [0] * 10
                extendee = case.inputs[0][words[3] : words[3] + words[4]]
                self.agree("find", case, *search.both_say(words[5] or None, extendee, message, line))

    def ask_lowering(self, fine):
        def words(case, data):
            return " ".join(map(str, unpacked(data, "i" if case.call == "ranges" else "I")))

        lines = [("ranges %d %s" % (case.numbers[0], words(case, *case.inputs)) if case.call == "ranges" else
                  "fields " + words(case, *case.inputs)).strip() for case, _ in fine]
        for (case, told), line in zip(fine, lowering.original(self.oracle, lines) if fine else []):
            self.agree(case.call, case, ("answer 0 words " + words(case, told.elements)).strip(), line)

    def agree(self, call, case, told, said):
        self.asked[call, told if told.startswith("refused") else "the same"] += 1
        if told != said:
            self.differs(case, "library %s, original %s" % (told, said))

    # ---- the end
    def add(self, other):
        self.differ += other.differ
        for name in ("cases", "sheets", "counts", "asked"):
            getattr(self, name).update(getattr(other, name))
        for table, many in other.seen.items():
            self.seen[table].update(many)
        for name in ("other", "not_asked", "changed", "named"):
            getattr(self.original, name).update(getattr(other.original, name))
        for name, many in other.original.rows.items():
            self.original.rows[name].update(many)
        self.original.first += other.original.first

    def summary(self, seconds):
        missing = library_tables.calls_table(self.cases, self.counts) + library_tables.memory_table(self.counts)
        library_tables.sheets_table(self.sheets)
        missing += library_tables.own_tables(self.seen["own"]) + library_tables.steps_tables(self.seen)
        print("never taken: %s" % ("; ".join(missing) or "none"))
        if self.oracle:
            self.with_original()
        calls = sum(many for (table, *_), many in self.counts.items() if table == "calls")
        print("\n%d cases, %d calls of the library, %d s, %d differ" % (sum(self.cases.values()), calls, seconds, self.differ))

    def with_original(self):
        print("\n==== the original")
        tables.original(self.original.rows, self.original.changed, self.original.other, self.original.not_asked)
        tables.places_there(self.original.named, self.original.first)
        for call in ("find", "ranges", "fields", "fields_by"):
            library_tables.line(call, [(how, many) for (by, how), many in sorted(self.asked.items()) if by == call])


# ---- two processes
def work(driver, args, total, number, queue):
    seeded(args.seed * WORKERS + number)
    comparison = Comparison(driver, args.oracle)
    try:
        for batch in library_cases.drawn(total, 500 if args.valgrind else 2000, args.seed, number, WORKERS):
            comparison.batch(batch)
            queue.put((number, sum(comparison.cases.values()), comparison.differ + comparison.original.differ, None))
    except SystemExit:
        pass  # after so many differences
    except Exception:
        traceback.print_exc(file=sys.stdout)
        comparison.differ += 1
    comparison.differ += comparison.original.differ
    comparison.driver = comparison.original.oracle = None
    queue.put((number, sum(comparison.cases.values()), comparison.differ, comparison))


def compare(driver, args, total, start):
    """Runs the workers, prints how far they are, and gives what they found together."""
    queue, whole, left, printed = multiprocessing.Queue(), Comparison(None, args.oracle), WORKERS, start
    done, workers = [(0, 0)] * WORKERS, []
    for number in range(WORKERS):
        share = total // WORKERS + (number < total % WORKERS)
        workers.append(multiprocessing.Process(target=work, args=(driver, args, share, number, queue)))
        workers[-1].start()
    while left:
        try:
            number, *done[number], comparison = queue.get(timeout=60)
        except Empty:
            if any(worker.exitcode for worker in workers):
                sys.exit("a process of the run has ended")
            continue
        if comparison:
            whole.add(comparison)
            left -= 1
        if time.time() - printed > 10 or not left:
            printed = time.time()
            cases, differ = (sum(counts) for counts in zip(*done))
            print("%d cases, %d s, %d differ" % (cases, printed - start, differ), file=sys.stderr, flush=True)
    return whole


# ---- faults
def first_report(driver, batches):
    """How many cases it took to see that something is wrong, and what is said of it; None where it is not seen."""
    done = 0
    for batch in batches:
        try:
            told, _ = driver.run(batch)
        except Ended as end:
            return done + (end.at or 0) + 1, end.text
        for case, of in zip(batch, told):
            done += 1
            if amiss(case, of):
                return done, amiss(case, of)
    return None


def faults(library):
    """Whether all were seen, and nothing where there is none."""
    text, not_seen = open("compare/faulty.c").read(), 0
    names = re.findall(r"^    [A-Z_]+,? +/\* (.*) \*/$", text, re.M)
    wrapped = ["-Wl,--wrap=opt_" + name for name in re.findall(r"^WRAPPED\((\w+)", text, re.M)]
    seeded(1)
    batches = list(library_cases.drawn(FAULT_CASES, 500, 1, 0, 1))
    with tempfile.TemporaryDirectory() as folder:
        program = build(folder, library, "compare/faulty.c", *wrapped)
        for number, name in enumerate(["none"] + names):
            report = first_report(Driver(program, fault=number), batches)
            seen = "not reported in %d cases" % FAULT_CASES if report is None else "reported in case %d: %s" % (report[0], report[1][:160])
            print("%s: %s" % (name, seen), flush=True)
            not_seen += (report is None) != (number == 0)
    print("%d faults, %d not seen as they should" % (len(names), not_seen))
    return not_seen


def main():
    parser = argparse.ArgumentParser(usage=__doc__.split("usage: ")[1].split("\n\n")[0])
    parser.add_argument("cases", nargs="?", default="1000000")
    parser.add_argument("seed", nargs="?", type=int, default=1)
    parser.add_argument("--oracle")
    parser.add_argument("--library", default=LIBRARY)
    parser.add_argument("--valgrind", action="store_true")
    args = parser.parse_args()
    if not os.path.exists(os.path.join(args.library, "liboptc.a")):
        sys.exit("%s/liboptc.a is not there; `rt lib` in crates/optc writes it" % args.library)
    if args.cases == "faults":
        sys.exit(1 if faults(args.library) else 0)
    if args.oracle:
        descriptor.check(args.oracle)
    start = time.time()
    with tempfile.TemporaryDirectory() as folder:
        driver = Driver(build(folder, args.library), MEMCHECK if args.valgrind else ())
        whole = compare(driver, args, int(args.cases), start)
    whole.summary(time.time() - start)
    sys.exit(1 if whole.differ else 0)


if __name__ == "__main__":
    main()
