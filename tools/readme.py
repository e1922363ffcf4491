#!/usr/bin/env python3
"""Runs the commands that pages for users show, and compares what the pages say that these print.

usage: readme.py [PAGE ..] [--slow] [--list]

Run it from the root of the repository, best in a fresh clone. A page is README.md and each of docs/ that has marks, where none is named. A
mark stands in the line before an indented block: `<!-- run -->` for commands, all of which have to end well, `<!-- run slow -->` for those
that take many minutes, which `--slow` runs too, and `<!-- prints -->` for what the commands before it print, whole, or `<!-- prints, at the
end -->` for the last lines of that. A block that begins like a command and has no mark is reported, so that none is left out. `--list` runs
nothing. The exit code is 1 where something failed or differs.
"""
import argparse
import glob
import re
import subprocess
import sys
import time

BLOCK = re.compile(r"(?:<!-- (run|run slow|prints|prints, at the end) -->\n|(?<=\n)\n)((?: {4}.*\n)(?:(?: {4}.*)?\n)*(?: {4}.*\n)|(?: {4}.*\n))")
COMMAND = re.compile(r"(\(?cd|rt|cc|c\+\+|cargo|python3|bash|valgrind|for|mkdir|echo|target/\S+|git) ")


def blocks(page):
    """Each indented block with its mark, in order."""
    for found in BLOCK.finditer(open(page, encoding="utf-8").read()):
        lines = [line[4:] for line in found.group(2).rstrip("\n").split("\n")]
        yield found.group(1), lines


class Pages:
    def __init__(self, slow):
        self.slow, self.ran, self.compared, self.failed, self.left = slow, 0, 0, [], 0
        self.output = None

    def wrong(self, page, what):
        self.failed.append(what)
        print("WRONG, %s: %s" % (page, what), flush=True)

    def run(self, page, lines):
        start = time.time()
        told = subprocess.run(["bash", "-e", "-c", "\n".join(lines)], stdout=subprocess.PIPE, stderr=subprocess.STDOUT, encoding="utf-8")
        self.output = told.stdout.splitlines()
        self.ran += 1
        print("%s: %s: %d s" % (page, "; ".join(lines), time.time() - start), flush=True)
        if told.returncode:
            self.wrong(page, "%s ends with %d:\n%s" % (lines[0], told.returncode, "\n".join(self.output[-20:])))

    def compare(self, page, lines, whole):
        if self.output is None:
            return
        self.compared += 1
        told = self.output if whole else self.output[-len(lines):]
        if told != lines:
            self.wrong(page, "prints\n  %s\nand not\n  %s" % ("\n  ".join(told), "\n  ".join(lines)))

    def page(self, page):
        for mark, lines in blocks(page):
            if mark is None and COMMAND.match(lines[0]):
                self.wrong(page, "a command without a mark: " + lines[0])
            elif mark == "run" or (mark == "run slow" and self.slow):
                self.run(page, lines)
            elif mark == "run slow":
                self.left, self.output = self.left + 1, None
            elif mark:
                self.compare(page, lines, mark == "prints")


def main():
    parser = argparse.ArgumentParser(usage=__doc__.split("usage: ")[1].split("\n\n")[0])
    parser.add_argument("pages", nargs="*")
    parser.add_argument("--slow", action="store_true")
    parser.add_argument("--list", action="store_true")
    args = parser.parse_args()
    named = args.pages or ["README.md"] + sorted(page for page in glob.glob("docs/*.md") if "<!-- run" in open(page, encoding="utf-8").read())
    if args.list:
        for page in named:
            for mark, lines in blocks(page):
                if mark:
                    print("%s: %s: %s" % (page, mark, lines[0] if mark.startswith("run") else "%d lines" % len(lines)))
        return
    pages = Pages(args.slow)
    for page in named:
        pages.page(page)
    print("%d blocks of commands run, %d slow ones left, %d outputs compared, %d wrong" % (
        pages.ran, pages.left, pages.compared, len(pages.failed)))
    sys.exit(1 if pages.failed else 0)


if __name__ == "__main__":
    main()
