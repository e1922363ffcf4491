"""The calls of liboptc.a, for compare/library.py: what the second implementations say to each, and the program that makes them.

`Case(call, *inputs)` holds the six numbers and the elements that are wanted: from steps.py, options_reader.py, search.py, form.py,
evolution.py and lowering.py, and for the payload from here. Nothing of it comes from the definitions. `Driver` runs compare/driver.c.
"""
import collections
import functools
import os
import struct
import subprocess

import evolution
import form
import lowering
import options_reader
import resolve
import search
import steps
from listing import fewer

CALLS = ("sheet", "request", "resolve", "find", "list", "query", "payload", "ranges", "fields", "fields_by", "clean", "contained")
NOWHERE = 65535
# what the inputs of a call are: fields, other bytes, or words
INPUTS = {"sheet": "f", "request": "f", "resolve": "ff", "find": "fbb", "list": "fbb", "query": "fbfb", "payload": "b", "ranges": "w",
          "fields": "w", "fields_by": "w", "clean": "f", "contained": "ff"}


# ---- what is wanted: (six numbers, elements, the run of the second implementation or None)
def answer(reply=0, second=0, absent=0, length=0, option=NOWHERE, part=NOWHERE):
    return reply, second, absent, length, option, part


def packed(words):
    return struct.pack("<%dI" % len(words), *(word % 2**32 for word in words))


def written(words, run=None):
    return answer(length=len(words)), packed(words), run


# the cases of one sheet come together
stepped = functools.lru_cache(32)(steps.Sheet)
read = functools.lru_cache(32)(options_reader.Sheet)


def in_form(test, data):
    try:
        test(data)
        return answer(), b"", None
    except form.Fault as fault:
        return answer(fault.args[0]), b"", None


def resolved(sheet, request):
    case = resolve.Case("", stepped(sheet), request)
    run = case.run
    if run.refused:
        option, part = run.where or (NOWHERE, NOWHERE)
        return answer(run.refused.number, run.refused.second, option=option, part=part), b"", case
    return (answer(absent=1), b"", case) if run.bytes is None else (answer(length=len(run.bytes)), run.bytes, case)


def found(sheet, scope, path):
    reply, extension = search.searched(sheet, scope, path)
    return (answer(reply), b"", None) if reply else written(extension.words())


def listed(sheet, kind, data):
    run = options_reader.Listing(read(sheet), kind, data)
    return (answer(run.refused), b"", run) if run.refused else written([word for row in run.rows for word in row], run)


def queried(sheet, kind, name, data):
    run = options_reader.Query(read(sheet), kind, name, data)
    if run.refused:
        return answer(run.refused, part=run.place[1] if run.place else NOWHERE), b"", run
    return written(run.answer, run) if run.answer else (answer(absent=1), b"", run)


def payload(data, place, length):
    """01: "The payload of a length-delimited record comes back as a part of the option bytes; a place and length outside them are 2"."""
    if len(data) > options_reader.MOST_BYTES:
        return answer(3), b"", None
    if place + length > len(data):
        return answer(2), b"", None
    return answer(length=length), data[place : place + length], None


def lowered(told):
    reply, words = told
    return (answer(reply), b"", None) if reply else written(words)


def decided(sheets, test):
    """A yes or a no, or the first fault of the sheets."""
    sheets = [stepped(sheet) for sheet in sheets]
    fault = next((sheet.fault for sheet in sheets if sheet.fault), 0)
    return answer(fault) if fault else answer(second=int(test(*sheets) is None)), b"", None


def unpacked(data, sign):
    return list(struct.unpack("<%d%s" % (len(data) // 4, sign), data))


WANTED = {
    "sheet": lambda inputs, _: in_form(form.sheet, *inputs),
    "request": lambda inputs, _: in_form(form.request, *inputs),
    "resolve": lambda inputs, _: resolved(*inputs),
    "find": lambda inputs, _: found(*inputs),
    "list": lambda inputs, _: listed(*inputs),
    "query": lambda inputs, _: queried(*inputs),
    "payload": lambda inputs, numbers: payload(*inputs, *numbers),
    "ranges": lambda inputs, numbers: lowered(lowering.lowered_ranges(numbers[0], unpacked(*inputs, "i"))),
    "fields": lambda inputs, _: lowered(lowering.lowered_fields(unpacked(*inputs, "I"))),
    "fields_by": lambda inputs, numbers: lowered(lowering.lowered_fields_by(numbers[0], unpacked(*inputs, "I"))),
    "clean": lambda inputs, _: decided(inputs, evolution.clean),
    "contained": lambda inputs, _: decided(inputs, evolution.contained),
}


class Case:
    """A call with its inputs. `what` is how it was drawn, `label` the figure that it is at; `seen` are steps besides those of the run, each
    behind the name of its table; `foretold` is a case of evolve.py whose listing by the older this is; `plain` one that the original is
    asked about, by a call of its own."""

    def __init__(self, call, *inputs, numbers=(0, 0), what="", label=None):
        self.call, self.inputs, self.numbers, self.what, self.label = call, inputs, numbers, what, label
        self.seen, self.foretold, self.plain = [], None, False
        self.want, self.elements, self.run = WANTED[call](inputs, numbers)

    def frame(self):
        head = struct.pack("<IIQQ", CALLS.index(self.call), len(self.inputs), *self.numbers)
        return head + b"".join(struct.pack("<I", len(data)) + data for data in self.inputs)

    def text(self):
        numbers = " ".join(map(str, self.numbers)) if self.call in ("payload", "ranges", "fields_by") else ""
        return "opt_%s %s" % (self.call, " ".join([data.hex().upper() or "-" for data in self.inputs] + [numbers]))


# ---- the driver
Told = collections.namedtuple("Told", "answer elements wrong")
TRAPPED = 70


class Ended(Exception):
    """The driver ended before its time; `at` is the case that it was at, None where that is not known."""

    def __init__(self, at, text):
        self.at, self.text = at, text


class Driver:
    """The calls of a library, made by a program. `before` is the command line that it runs under, `fault` one of faulty.c's."""

    def __init__(self, program, before=(), fault=0):
        self.command = [*before, program] + (["blocks"] if before else [])
        self.tries = 20 if before else 400  # how often it may be run to make a case smaller
        self.environment = {**os.environ, "FAULT": str(fault)}

    def run(self, cases):
        """What is told of each case, and what the program counted."""
        given = b"".join(case.frame() for case in cases)
        run = subprocess.run(self.command, input=given, stdout=subprocess.PIPE, stderr=subprocess.PIPE, env=self.environment)
        said = run.stderr.decode(errors="replace").strip()
        if run.returncode:
            at = int(said.split()[2].rstrip(":")) if run.returncode == TRAPPED else 0 if len(cases) == 1 else None
            raise Ended(at, "status %d: %s" % (run.returncode, said))
        told, at = [], 0
        for _ in cases:
            *six, many, text = struct.unpack_from("<8I", run.stdout, at)
            elements, wrong = run.stdout[at + 32 : at + 32 + many], run.stdout[at + 32 + many : at + 32 + many + text]
            told.append(Told(tuple(six), elements, wrong.decode()))
            at += 32 + many + text
        counts = (line.split("\t") for line in run.stdout[at:].decode().splitlines())
        return told, collections.Counter({(table, name, which): int(many) for table, name, which, many in counts if int(many)})

    def amiss(self, case):
        """What is wrong with a case, or None."""
        try:
            return amiss(case, self.run([case])[0][0])
        except Ended as end:
            return end.text


def amiss(case, told):
    if told.wrong:
        return told.wrong
    if told.answer != case.want:
        return "second %s, library %s" % (case.want, told.answer)
    if told.elements != case.elements:
        return "second %s, library %s" % (case.elements.hex(), told.elements.hex())
    return None


# ---- smaller cases
def ways(case):
    """The case with something left out of one of its inputs."""
    for i, (data, kind) in enumerate(zip(case.inputs, INPUTS[case.call])):
        nodes = resolve.tree(data) if kind == "f" else None
        if nodes is not None:
            some = (resolve.joined(less) for less in resolve.shorter(nodes))
        elif kind == "w":
            some = (b"".join(less) for less in fewer([data[at : at + 4] for at in range(0, len(data), 4)]))
        else:
            some = fewer(data)
        for less in some:
            yield Case(case.call, *case.inputs[:i], less, *case.inputs[i + 1 :], numbers=case.numbers, what=case.what)


def smallest(case, differs, tries):
    going = True
    while going:
        going = False
        for less in ways(case):
            tries -= 1
            if tries < 0:
                return case
            if differs(less):
                case, going = less, True
                break
    return case
