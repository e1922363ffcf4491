#!/usr/bin/env python3
"""Holds the boundary to C against itself: what crates/optc exports, what include/opt.h and bindings/rust declare, and the replies.

usage: boundary.py

Run it from the root of the repository. No proof reaches a declaration in C or Rust, so this compares them as texts. Each function has to
have the same slices and numbers, by name, type and order, in crates/optc/src/lib.rt, in the header and in bindings/rust/src/sys.rs, and
the archive, where `rt lib` in crates/optc has written it, has to define these functions and no others, and to need nothing but `memcpy`
and `memset`; the answer's six numbers are those of crates/reply. Numbers, second words and names of the replies have to be those of
crates/reply in the header, in include/opt_words.h, in bindings/rust and in README.md, and the words of the last three the same. The
headers are compiled as C and as C++, without a warning. Prints what differs, and a line that says what was compared; the exit code is 1
where something differs.
"""
import os
import re
import subprocess
import sys

EXPORT = r'#\[unsafe\(no_mangle\)\]\npub extern "C" fn (\w+)\(([^)]*)\) -> Answer'
C_TYPES = {"u8": "uint8_t", "u32": "uint32_t", "i32": "int32_t", "u64": "uint64_t"}
ARCHIVE = "crates/optc/out/liboptc.a"
NEEDED = ["memcpy", "memset"]


def text(path):
    return open(path, encoding="utf-8").read()


def one_line(words):
    return re.sub(r"\s+", " ", words).strip(" ,")


# ---- functions: a name and its arguments, each (name, type, how it is passed)
def exported():
    """What the crate exports: slices to read, slices to write, numbers."""
    out = {}
    for name, arguments in re.findall(EXPORT, text("crates/optc/src/lib.rt")):
        out[name] = []
        for argument in one_line(arguments).split(", "):
            label, kind = argument.split(": ")
            element = re.fullmatch(r"&(mut )?\[(\w+)\]", kind)
            how = "number" if not element else "write" if element.group(1) else "read"
            out[name].append((label, element.group(2) if element else kind, how))
    return out


def in_c(arguments):
    """These arguments as the header has to write them."""
    for label, kind, how in arguments:
        if how == "number":
            yield "%s %s" % (C_TYPES[kind], label)
        else:
            yield "%s%s *%s" % ("const " if how == "read" else "", C_TYPES[kind], label)
            yield "size_t %s_count" % label


def in_rust(arguments):
    """These arguments as a line of bindings/rust/src/sys.rs: inputs in brackets, numbers around them, what is written last."""
    out, written = "", ""
    for i, (label, kind, how) in enumerate(arguments):
        before = arguments[i - 1][2] if i else None
        behind = arguments[i + 1][2] if i + 1 < len(arguments) else None
        if how == "write":
            written += "; %s: %s" % (label, kind)
        elif how == "read":
            out += ("[" if before != "read" else ", ") + "%s: %s" % (label, kind) + ("]" if behind != "read" else "")
        else:
            out += (", " if before else "") + "%s: %s" % (label, kind) + (", " if not before else "")
    return out + written


def functions(differ):
    ours = exported()
    header = text("include/opt.h")
    declared = {n: one_line(a) for n, a in re.findall(r"^struct opt_answer (\w+)\(([^)]*)\);", header, re.M)}
    bound = {n: one_line(a) for n, a in re.findall(r"^    fn (\w+)\((.*)\);", text("bindings/rust/src/sys.rs"), re.M)}
    differ("functions of include/opt.h", declared, {n: ", ".join(in_c(a)) for n, a in ours.items()})
    differ("functions of bindings/rust", bound, {n: in_rust(a) for n, a in ours.items()})
    if os.path.exists(ARCHIVE):
        listed = subprocess.run(["nm", ARCHIVE], stdout=subprocess.PIPE, encoding="ascii", check=True).stdout
        differ("functions of " + ARCHIVE, sorted(re.findall(r" T (\w+)", listed)), sorted(ours))
        differ("what %s needs" % ARCHIVE, sorted(set(re.findall(r" U (\w+)", listed))), NEEDED)
    return "%d functions%s" % (len(ours), "" if os.path.exists(ARCHIVE) else " (no archive there, not compared)")


def answer(differ):
    ours = re.findall(r"pub (\w+): u32", re.search(r"pub struct Answer \{(.*?)\}", text("crates/reply/src/lib.rt"), re.S).group(1))
    c = re.findall(r"uint32_t (\w+);", re.search(r"struct opt_answer \{(.*?)\n\}", text("include/opt.h"), re.S).group(1))
    rust = re.findall(r"pub (\w+): u32", re.search(r"pub struct opt_answer \{(.*?)\n\}", text("bindings/rust/src/sys.rs"), re.S).group(1))
    differ("the answer in include/opt.h", c, ours)
    differ("the answer in bindings/rust", rust, ours)
    return "%d numbers of an answer" % len(ours)


# ---- replies: name, number, second word, and in three places the words
def snake(name):
    return "OPT_" + re.sub(r"(?<!^)(?=[A-Z])", "_", name).upper()


def replies(differ):
    enum = re.search(r"pub enum Refusal \{(.*?)\}", text("crates/reply/src/lib.rt"), re.S).group(1)
    ours = [(name, int(number), int(second)) for name, number, second in re.findall(r"(\w+) = (\d+)_(\d\d),", enum)]
    c = re.search(r"enum opt_reply \{(.*?)\n\}", text("include/opt.h"), re.S).group(1)
    numbers = {name: int(number) for name, number in re.findall(r"(OPT_\w+) = (\d+)", c)}
    differ("enum opt_reply", numbers, {"OPT_DONE": 0, **{snake(name): number for name, number, second in ours if not second}})
    rust = rows(r'(\w+) = (\d+), (\d):\s*"(.*?)";', "bindings/rust/src/refusal.rs", [1, 2, 3, 4])
    words = rows(r'\{(\d+), (\d), "(\w+)",\s*"(.*?)"\},', "include/opt_words.h", [3, 1, 2, 4])
    told = rows(r"^\| (\d+)(?:, second word (\d))? (\w+) \| (.*?) \|$", "README.md", [3, 1, 2, 4])
    for place, table in (("bindings/rust", rust), ("include/opt_words.h", words), ("README.md", told)):
        differ("replies of " + place, [row[:3] for row in table], ours)
    differ("words of include/opt_words.h", [row[3] for row in words], [row[3] for row in rust])
    differ("words of README.md", [row[3] for row in told], [row[3] for row in rust])
    return "%d replies with their words" % len(ours)


def headers(differ):
    strict = ["-Wall", "-Wextra", "-Wpedantic", "-Werror", "-fsyntax-only"]
    for compiler in (["cc", "-std=c99", "-xc"], ["c++", "-std=c++11", "-xc++"]):
        run = subprocess.run([*compiler, *strict, "include/opt_words.h"], stderr=subprocess.PIPE, encoding="utf-8")
        differ("the headers by %s" % compiler[1][5:], run.stderr, "")
    return "headers as C99 and C++11"


def rows(pattern, path, places):
    """Rows of a table: name, number, second word, words. A literal may go on in the next line."""
    found = re.finditer(pattern, text(path), re.S if "\n" not in pattern and "^" not in pattern else re.M)
    out = []
    for row in found:
        name, number, second, words = (row.group(i) for i in places)
        out.append((name, int(number), int(second or 0), one_line(re.sub(r'\\\n\s*|"\s*"', "", words))))
    return out


def main():
    different = []

    def differ(what, found, wanted):
        if found != wanted:
            different.append(what)
            print("DIFFERS: %s\n  there:  %s\n  wanted: %s" % (what, found, wanted))

    told = [functions(differ), answer(differ), replies(differ), headers(differ)]
    print("%s: %d differ" % (", ".join(told), len(different)))
    sys.exit(1 if different else 0)


if __name__ == "__main__":
    main()
