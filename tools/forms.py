#!/usr/bin/env python3
"""Counts the places of the eight points of docs/DESIGN-PASS.md in crates/*/src (point 8: in crates/*/proofs).

usage, from the root of the repository: python3 tools/forms.py [-l]     with -l it lists the places

1  enums of the shape of Option or Result (one variant without a payload beside one with, or one that holds why); numbers for kinds or
   for none: integer constants that a match or a comparison tells apart, and functions of which a comment says "0 where"
2  functions whose bodies differ in names, numbers and types alone
3  loops that are `while` or `loop`
4  functions that only map an enum or a number to a value by a match or a table
5  texts of `requires` that stand three times or more; parameters of the same names and types, three or more, that three functions share
6  parameters that are a buffer with a length, a place or a count beside it
7  enums and constants by which a caller picks what a function does
8  answers, and the files that hold them"""
import collections, glob, os, re, sys

LIST = "-l" in sys.argv
files = sorted(glob.glob("crates/*/src/**/*.rt", recursive=True))
text = {f: re.sub(r"//[^\n]*", "", open(f).read()) for f in files}
raw = {f: open(f).read() for f in files}
found = collections.OrderedDict()


def place(point, f, what):
    found.setdefault(point, []).append(f"{f[7:]}: {what}")


def block(t, i):
    depth = 0
    for j in range(i, len(t)):
        depth += {"{": 1, "}": -1}.get(t[j], 0)
        if depth == 0:
            return j
    return len(t) - 1


functions = []
for f, t in text.items():
    for m in re.finditer(r"(?m)^( *)(?:pub )?(?:extern \"C\" )?fn (\w+)", t):
        b = re.compile(r"(?m)^" + m[1] + r"\{|\{$").search(t, m.end())
        if b:
            functions.append((f, m[2], t[m.start():b.start()], t[b.end():block(t, b.end() - 1)]))

WHY = r"\((Refusal|Cause|Fault|Lack)\)|^\w*Wrong$"
for f, t in text.items():
    for m in re.finditer(r"(?m)^(?:pub )?enum (\w+) \{", t):
        body = t[m.end():block(t, m.end() - 1)]
        variants = [v.strip() for v in re.findall(r"(?m)^    (\w+(?:\([^)]*\)| \{[^}]*\})?),", body)]
        held = [v for v in variants if re.search(r"[({]", v)]
        if len(variants) <= 4 and ((len(held) == 1 and len(variants) == 2) or any(re.search(WHY, v) for v in variants)):
            place(1, f, "enum " + m[1])
    for m in re.finditer(r"(?m)^(?:pub )?const (\w+): (?:u8|u32|usize) = (?:0x)?[0-9a-f_]+;", t):
        n = sum(len(re.findall(r"(?:== |!= |match [^{]*\{[^}]*)" + m[1] + r"\b|\b" + m[1] + r" =>", u)) for u in text.values())
        if n:
            place(1, f, "number " + m[1])
for f, t in raw.items():
    for m in re.finditer(r"(?m)^//[^\n]*\b0 where[^\n]*\n(?://[^\n]*\n|#[^\n]*\n)*(?:pub )?fn (\w+)", t):
        place(1, f, "0 for none: " + m[1])

bodies = collections.defaultdict(list)
for f, name, sig, body in functions:
    shape = re.sub(r"\b\d[\w]*\b", "N", re.sub(r"b?\"[^\"]*\"|b'[^']*'", "S", body))
    shape = re.sub(r"\b(?!if|else|while|for|loop|match|return|let|mut|in\b)[A-Za-z_]\w*\b", "x", shape)
    shape = re.sub(r"\s+", "", re.sub(r"x(::x)+", "x", shape))
    if len(shape) > 40:
        bodies[shape].append((f, name))
for group in bodies.values():
    if len(group) > 1:
        for f, name in group:
            place(2, f, f"fn {name}, {len(group)} alike")

for f, t in text.items():
    for m in re.finditer(r"(?m)^\s+(while [^{]*|loop )\{", t):
        place(3, f, m[1].strip())

for f, name, sig, body in functions:
    arms = re.findall(r"=>\s*(?:\w+::)*\w+,", body)
    if len(arms) >= 3 and re.match(r"\s*match \w+ \{", body):
        place(4, f, f"fn {name}, {len(arms)} arms")

clauses = collections.Counter()
where = collections.defaultdict(list)
for f, name, sig, body in functions:
    for m in re.finditer(r"requires\s*(?:\w+\s*)?\{", sig):
        c = re.sub(r"\s+", " ", sig[m.end():block(sig, m.end() - 1)]).strip()
        where[c].append((f, name))
for c, ps in where.items():
    if len(ps) >= 3:
        for f, name in ps:
            place(5, f, f"fn {name}: {c}")

for f, name, sig, body in functions:
    if re.search(r"\b(out|room|notes|words|bytes|stack|keys): &(?:mut )?\[", sig) and re.search(r"\b(at|count|n|length|size): usize", sig):
        place(6, f, f"fn {name}")

for f, name, sig, body in functions:
    if re.search(r"\b(question|asked|kind|numbering|want): (Question|Asked|u8|u32)", sig):
        place(7, f, f"fn {name}")

for f in sorted(glob.glob("crates/*/proofs/**/Answers.antt", recursive=True)):
    for m in re.finditer(r"(?m)^pub ([\w\-]+) : goal\.", open(f).read()):
        place(8, f, m[1])

for point in range(1, 9):
    ps = found.get(point, [])
    print(point, len(ps))
    if LIST:
        print("\n".join("    " + p for p in ps))
