#!/usr/bin/env python3
"""Keep, of a crate's answers, those that the check needs, each with the laws that it takes and no others.

    python3 tools/shorten.py CRATE [FUNCTION ..]

Run it at the root of the repository, on a crate that is proved. All searches are taken away, and those come back which `rt check --margin`
asks for, which searches half as far as the check does; a function comes to its turn when what it calls is proved, so this takes some
checks. Of an answer that is left each smaller set of its laws is tried, all in one check, and the smallest that is proved stands. If the
crate is not proved then, every file is as it was. Other answers than searches stay.

A function that holds what a must-fail edit changes keeps its answers, unless it is named: with fewer, the edit may be refused by what the
file leaves out and not by the fact that it breaks. Of an edit outside any function (a table, a definition) this sees nothing.

`rt fmt` sets the layout, and `rt tidy` drops imports that nothing uses.
"""
import argparse
import itertools
import pathlib
import re
import sys

from proofs import SEARCH, check, files_of, named, parts, write

OPEN = re.compile(r"(?m)^fn \S+: no proof: expected answers in (\./proofs/\S+\.antt); .* did not prove (.*)$")
REFUSED = re.compile(r"(?m)^(\./proofs/\S+/Answers\.antt):\d+:\d+: error: `(try-\d+-\d+)`")


def bent(crate):
    """The answers of the functions that hold what a must-fail edit changes."""
    files = set()
    for edit in crate.glob("must-fail/*.edit"):
        source = ""
        for line in edit.read_text(encoding="utf-8").split("\n"):
            if line.startswith("file: "):
                source = (crate / line[6:]).read_text(encoding="utf-8") if line.startswith("file: src/") else ""
            elif line.startswith("old: ") and line[5:] in source:
                for name in re.findall(r"(?m)^ *(?:pub )?fn (\w+)", source[:source.index(line[5:])])[-1:]:
                    files.update(found(crate, name))
    return files


def found(crate, function):
    try:
        return files_of(crate, function)
    except SystemExit:  # it has no answers
        return []


def shown(path, blocks, text):
    """The file with these blocks, or none where it would hold nothing."""
    opening, uses, _ = parts(text)
    if blocks:
        write(path, opening, uses, blocks)
    elif path.exists():
        path.unlink()


def needed(crate, old):
    """Of each file the blocks that the check asks for."""
    blocks = {path: [block for block in parts(text)[2] if not SEARCH.match(block)] for path, text in old.items()}
    while True:
        for path in old:
            shown(path, blocks[path], old[path])
        log, _ = check(crate, "--margin")
        before = dict(blocks)
        for file, goals in OPEN.findall(log):
            path, names = crate / file, set(re.findall(r"`([^`]+)`", goals))
            if path in old:
                whole = parts(old[path])[2]
                more = [b for b in whole if b in blocks[path] or SEARCH.match(b) and is_of(SEARCH.match(b).group(1), names)]
                blocks[path] = more if more != blocks[path] else whole
        if blocks == before:
            return blocks
        print("%d answers are needed" % searches(blocks), flush=True)


def searches(blocks):
    return sum(bool(SEARCH.match(block)) for of in blocks.values() for block in of)


def is_of(answer, goals):
    """Whether an answer is that of a goal, or of a clause of it."""
    return any(answer == goal or answer.startswith(goal + "-clause-") or goal.startswith(answer + "-clause-") for goal in goals)


def ways(laws):
    """Each smaller set of laws, the least first."""
    for n in range(1, len(laws)):
        for some in itertools.combinations(laws, n):
            if some != ("rules",):
                yield "search %s" % (some[0] if n == 1 else "(%s)" % ", ".join(some))


def fewer(crate, old, blocks):
    """The blocks with the smallest sets of laws that are proved."""
    tries = {}
    for path, text in old.items():
        trial = list(blocks[path])
        for n, block in enumerate(blocks[path]):
            search = SEARCH.match(block)
            for k, way in enumerate(ways(named(search)) if search else ()):
                name, front = "try-%d-%d" % (n, k), search.group(3) or ""
                trial.append("%s : goal.%s\n%s%s = %s%s%s" % (name, search.group(1), name, search.group(2), front, way, ")" if front else ""))
                tries[path, name] = n, way
        shown(path, trial, text)
    if not tries:
        return 0
    log, _ = check(crate)
    refused, chosen = {(crate / file, name) for file, name in REFUSED.findall(log)}, {}
    for (path, name), (n, way) in tries.items():
        if (path, name) not in refused:
            chosen.setdefault((path, n), way)
    for (path, n), way in chosen.items():
        blocks[path][n] = re.sub(r"search (?:\([^()]*\)|[^\s()]+)(\)?)\s*\Z", lambda found: way + found.group(1), blocks[path][n])
    return len(chosen)


def main():
    parser = argparse.ArgumentParser(description=__doc__, formatter_class=argparse.RawDescriptionHelpFormatter)
    parser.add_argument("crate", metavar="CRATE")
    parser.add_argument("functions", nargs="*", metavar="FUNCTION")
    args = parser.parse_args()
    crate = pathlib.Path("crates", args.crate)
    if not check(crate)[1]:
        sys.exit("shorten.py: %s is not proved" % args.crate)
    files = {path for function in args.functions for path in files_of(crate, function)} or (
        set(crate.glob("proofs/**/Answers.antt")) - bent(crate))
    old = {path: path.read_text(encoding="utf-8") for path in sorted(files)}
    old = {path: text for path, text in old.items() if " as goal\n" in text}  # and no laws that are called so
    count, proved = searches({path: parts(text)[2] for path, text in old.items()}), False
    try:
        blocks = needed(crate, old)
        less = fewer(crate, old, blocks)
        for path in old:
            shown(path, blocks[path], old[path])
        proved = check(crate)[1]
    finally:
        for path in old if not proved else ():
            path.parent.mkdir(parents=True, exist_ok=True)
            path.write_text(old[path], encoding="utf-8")
    if not proved:
        sys.exit("not proved with fewer: all is as it was")
    print("%d of %d answers are left, %d of them with fewer laws" % (searches(blocks), count, less))


if __name__ == "__main__":
    main()
