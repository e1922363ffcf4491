#!/usr/bin/env python3
"""Measures this project's calls beside the same walk in Rust, and `resolve` beside the original's own code, in one run.

usage: run.py [ROUNDS] [--library FOLDER] [--original FOLDER] [--picture FILE]
       run.py worst [OPTIONS] [--library FOLDER] [--original FOLDER]
       run.py schemas [ROUNDS] [--library FOLDER]

Run it from the root of the repository, after `rt lib` in crates/optc, which writes out/liboptc.a there; another FOLDER may hold it.
It needs rustc, valgrind for the count of instructions, and an x86-64 machine. The original's FOLDER is a workspace in which cargo builds
the published source of protobuf-parse 3.7.2 over a stand-in for its runtime (original.rs). FILE is the picture, docs/speed.svg.

Three programs make the same calls: ours.rs, linked with liboptc.a; the modules under rust/; original.rs. All have to print the same sums
over their answers and what they wrote before anything is measured, the first two on inputs with a fault as well. Printed are the
instructions of a call, the processor time of a call, the least of ROUNDS runs of each program in turn, and their ratios; then how the cost
grows with extensions and with depth, in instructions. A ratio above 1.2 is marked.

`worst` times requests and listings that are made to cost much, once; OPTIONS is how many options the first of them has, of at most 113.
`schemas` times `clean` and `contained`.
"""
import argparse
import shutil
import sys
import tempfile
from collections import namedtuple

import growth
import inputs
import measure
import picture
from measure import HERE, ORIGINAL, RUST

AIM = 1.2

Row = namedtuple("Row", "what counts times")


def ratio(figures, other=RUST):
    return figures[HERE] / figures[other]


def marked(value):
    return "%5.2f%s" % (value, " *" if value > AIM else "  ")


def grouped(count):
    return "{:,.0f}".format(count)


def clock(seconds):
    """Three digits, in microseconds or milliseconds."""
    scaled, unit = (seconds * 1e3, "ms") if seconds >= 1e-3 else (seconds * 1e6, "us")
    return ("%#.3g" % scaled).rstrip(".") + " " + unit


# ---- the table
def rows(programs, rounds):
    """Of each job its instructions and times; all programs have to agree on it first."""
    jobs = list(inputs.table())
    own = {name: program for name, program in programs.items() if name != ORIGINAL}
    for job in jobs:
        done = measure.made(programs, job).done
        faults = inputs.spoiled(job)
        for fault in faults:
            measure.made(own, fault)
        many = sum(len(fault.cases) for fault in faults)
        print("%-34s agreed on %4d calls, %4d of them answered 0, and on %4d with a fault" % (job.what, len(job.cases), done, many))
    counts = measure.instructions(programs, jobs)
    return [Row(job.what, count, measure.seconds(programs, job, rounds)) for job, count in zip(jobs, counts)]


def show_table(found, rounds):
    line = "%-34s %12s %12s %7s %10s %10s %7s"
    print("\n" + line % ("a call", "instructions", "Rust", "ratio  ", "time", "Rust", "ratio  "))
    for what, counts, times in found:
        print(line % (what, grouped(counts[HERE]), grouped(counts[RUST]), marked(ratio(counts)), clock(times[HERE]), clock(times[RUST]),
                      marked(ratio(times))))
    worse = sum(max(ratio(row.counts), ratio(row.times)) > AIM for row in found)
    print("%d of %d rows worse than %.1f (*); time is the least of %d runs" % (worse, len(found), AIM, rounds))
    for what, counts, times in found:
        if ORIGINAL in counts:
            print("\n" + line % ("a call", "instructions", "original", "ratio  ", "time", "original", "ratio  "))
            print(line % (what, grouped(counts[HERE]), grouped(counts[ORIGINAL]), marked(ratio(counts, ORIGINAL)), clock(times[HERE]),
                          clock(times[ORIGINAL]), marked(ratio(times, ORIGINAL))))


# ---- growth
def grown(programs):
    """Curves with the instructions of each point in place of its job."""
    curves = growth.by_extensions() + growth.by_depth()
    jobs = [job for curve in curves for _, job in curve.points]
    for job in jobs:
        assert measure.made(programs, job).done == len(job.cases)
    counts = iter(measure.instructions(programs, jobs))
    return [curve._replace(points=[(size, next(counts)) for size, _ in curve.points]) for curve in curves]


def show_growth(curves):
    line = "%-27s %6s %12s %12s %7s %12s %7s"
    print("\n" + line % ("a call", "", "instructions", "Rust", "ratio  ", "original", "ratio  "))
    for curve in curves:
        for size, counts in curve.points:
            beside = [grouped(counts[ORIGINAL]), marked(ratio(counts, ORIGINAL))] if ORIGINAL in counts else ["", ""]
            what = curve.what + ", " + curve.axis
            print(line % (what, size, grouped(counts[HERE]), grouped(counts[RUST]), marked(ratio(counts)), *beside))


# ---- the commands
def compare(programs, args):
    if not shutil.which("valgrind"):
        sys.exit("valgrind is needed to count instructions")
    rounds = int(args.what[0])
    found = rows(programs, rounds)
    show_table(found, rounds)
    curves = grown(programs)
    show_growth(curves)
    if args.picture:
        with open(args.picture, "w") as file:
            file.write(picture.svg(found, curves, AIM))


def worst(programs, args):
    for job in growth.worst(int(args.what[1]) if len(args.what) > 1 else 1):
        spent = measure.made(programs, job, 1).spent
        print("%-52s %s" % (job.what, ", ".join("%s %.3f s" % x for x in spent.items())))


def schemas(programs, args):
    rounds = int(args.what[1]) if len(args.what) > 1 else 5
    for size, job in growth.schemas():
        assert measure.made(programs, job).second == 1, job.what
        spent = measure.seconds(programs, job, rounds)[HERE]
        square = ", %3.0f ns for the square of their number" % (spent * 1e9 / size**2) if size else ""
        print("%-36s %6d bytes %9.2f ms%s" % (job.what, len(job.sheet), spent * 1e3, square))


def main():
    parser = argparse.ArgumentParser(usage=__doc__.split("usage: ")[1].split("\n\n")[0])
    parser.add_argument("what", nargs="*", default=["10"])
    parser.add_argument("--library", default="crates/optc/out")
    parser.add_argument("--original")
    parser.add_argument("--picture")
    args = parser.parse_args()
    command = {"worst": worst, "schemas": schemas}.get(args.what[0], compare)
    with tempfile.TemporaryDirectory() as folder:
        command(measure.programs(args.library, args.original, folder), args)


if __name__ == "__main__":
    main()
