#!/usr/bin/env python3
"""Runs optfind beside a second implementation of the search, and, given one, beside the original's own code.

usage: search.py [CASES] [SEED] [ORACLE]

The second one is written from 01's rules and the readings in docs/DECISIONS.md, and not from the definitions: it lists every scope of
the sheet with its full path and its package's length first, and sorts. Run it from the root of the repository. A case is a sheet, a scope
and a path, drawn from few names so that they meet; some sheets are broken in a place. optfind is the program that `rt run` builds in its
crate's folder; it takes many cases in one run.

ORACLE is a program over protobuf-parse 3.7.2 that reads a line of hexadecimal digits, tags 40 and 41, in its mode `sheet --raw` and prints
what the option resolver answers. It is asked for the option `(path) = 7` on each of two messages: what it writes begins with the number of
the extension that it took. optfind compares no extendee, so where the extendee that it prints is the other message, 5 is expected.
"""
import functools
import random
import struct
import subprocess
import sys

import built
import form

NAMES = ["a", "b", "c", "M", "x", "y"]


# ---- the second implementation
class Ext:
    def __init__(self, data, at, end, file):
        self.file, self.spans = file, {}
        for tag, start, stop in fields(data, at, end):
            value = data[start:stop]
            self.spans[tag] = start, stop - start
            if tag == 0x11:
                self.name = value
            if tag == 0x12:
                self.extendee = value
            if tag == 0x13:
                self.number = int.from_bytes(value, "big")
            if tag == 0x14:
                self.type = value[0]
            if tag == 0x15:
                self.label = value[0]
            if tag == 0x16:
                self.path = value

    def lines(self):
        of = ["of " + self.path.decode()] if hasattr(self, "path") else []
        return (
            ["answer 0", "name " + self.name.decode(), "number %d" % self.number, "extendee " + self.extendee.decode()]
            + ["type %d" % self.type, "label %d" % self.label] + of + ["file %d" % self.file, "place %d" % self.spans[0x11][0]]
        )

    def words(self):
        """The ten words of `find`: a place and a length for each of its name, its extendee and its type path."""
        name, extendee, path = (self.spans.get(tag, (0, 0)) for tag in (0x11, 0x12, 0x16))
        return [self.file, *name, *extendee, self.number, self.type, self.label, *path]


def fields(data, at, end):
    while at < end:
        size = int.from_bytes(data[at + 1 : at + 3], "big")
        yield data[at], at + 3, at + 3 + size
        at += 3 + size


@functools.lru_cache(16)
def scopes(data):
    """All scopes of a fine sheet: (full path, components of the package, file, extensions), of messages of one name only the first."""
    found = []

    def walk(path, package, file, parts):
        extensions, seen = [], set()
        for tag, start, stop in parts:
            if tag == 3:
                extensions.append(Ext(data, start, stop, file))
            if tag == 2:
                inner = list(fields(data, start, stop))
                name = data[inner[0][1] : inner[0][2]]
                if name not in seen:
                    seen.add(name)
                    walk(path + [name], package, file, inner[1:])
        found.append((path, package, file, extensions))

    for index, (_, start, stop) in enumerate(fields(data, 0, len(data))):
        inner = list(fields(data, start, stop))
        text = data[inner[0][1] : inner[0][2]]
        package = text.split(b".") if text else []
        walk(package, len(package), index, inner[1:])
    return found


def candidates(scope, path):
    if path.startswith(b"."):
        return [path[1:].split(b".")]
    outer = scope.split(b".") if scope else []
    return [outer[:n] + path.split(b".") for n in range(len(outer), -1, -1)]


def find(data, scope, path):
    everything = scopes(data)
    for candidate in candidates(scope, path):
        there = sorted((s for s in everything if s[0] == candidate[:-1]), key=lambda s: (s[1], s[2]))
        for _, _, _, extensions in there:
            for e in extensions:
                if e.name == candidate[-1]:
                    return e
    return None


def path_fits(text, empty=False, dot=False):
    if len(text) > 255:
        return False
    if dot and text.startswith(b"."):
        text = text[1:]
    return (empty and not text) or all(form.IDENT.match(n) for n in text.split(b"."))


NAMED = {
    1: ["answer 1", "BadSheet"], 2: ["answer 2", "BadRequest"], 3: ["answer 3", "BeyondLimit"], 4: ["answer 4", "ExtensionNotFound"],
}


@functools.lru_cache(16)
def fault(data):
    """The number of a sheet's fault, or 0."""
    return int(form.expected(data, None)[0].split()[1])


def searched(data, scope, path):
    """The refusal's number, or 0, and the extension that is found."""
    if fault(data):
        return fault(data), None
    if not path_fits(scope, empty=True) or not path_fits(path, dot=True):
        return 2, None
    found = find(data, scope, path)
    return (0, found) if found else (4, None)


def expected(data, scope, path):
    reply, found = searched(data, scope, path)
    return NAMED[reply] if reply else found.lines()


# ---- cases
def f(tag, payload=b""):
    return bytes([tag]) + struct.pack(">H", len(payload)) + payload


def some_path(least, most):
    return ".".join(random.choice(NAMES) for _ in range(random.randint(least, most))).encode()


def some_extension(names):
    kind = random.choice([13, 13, 13, 5, 9, 11, 14])
    leaves = f(0x11, random.choice(names).encode()) + f(0x12, random.choice([b"o.F", b"o.G"]))
    leaves += f(0x13, struct.pack(">I", random.randint(1, 536870911))) + f(0x14, bytes([kind])) + f(0x15, bytes([random.randint(1, 3)]))
    return f(3, leaves + (f(0x16, b"o.F") if kind in (11, 14) else b""))


def some_items(depth):
    items = b""
    for _ in range(random.choice([0, 1, 1, 2, 3])):
        if depth and random.random() < 0.55:
            items += f(2, f(0x11, random.choice(NAMES).encode()) + some_items(depth - 1))
        elif random.random() < 0.8:
            items += some_extension(["x", "y", "a", "M"])
        else:
            items += f(4, f(0x11, random.choice(NAMES).encode()))
    return items


def some_sheet():
    files = b""
    for _ in range(random.randint(0, 5)):
        files += f(1, f(0x10, some_path(0, 3)) + some_items(3))
    if random.random() < 0.1 and files:
        at = random.randrange(len(files))
        files = files[:at] + bytes([random.randrange(256)]) + files[at + 1 :]
    return files


def declared(data):
    return [path + [e.name] for path, _, _, extensions in scopes(data) for e in extensions]


def some_names(data):
    """A scope and a path: of a declared extension cut in two with something after the scope, or any."""
    full = declared(data)
    scope, path = some_path(0, 4), some_path(1, 3)
    if full and random.random() < 0.7:
        names = random.choice(full)
        cut = random.randrange(len(names))
        more = some_path(0, 2).split(b".") if random.random() < 0.5 else []
        scope, path = b".".join(n for n in names[:cut] + more if n), b".".join(names[cut:])
        if random.random() < 0.3:
            path = b".".join(names)
    return scope, (b"." if random.random() < 0.3 else b"") + path


def some_case():
    data = some_sheet()
    return data, *asked_of(data)


def asked_of(data):
    """A scope and a path for a sheet, whatever it is; a few are none."""
    scope, path = some_names(data) if not fault(data) else (some_path(0, 4), some_path(1, 3))
    if random.random() < 0.03:
        path, scope = random.choice([(b"", scope), (b"..x", scope), (b"a.", scope), (path, b".a"), (path, b"a..b")])
    return scope, path


def answers(cases):
    text = b"".join(f(0x40, s) + f(0x42, c) + f(0x43, p) for s, c, p in cases).hex()
    run = subprocess.run([built.program("optfind")], input=text.encode(), stdout=subprocess.PIPE, check=True)
    groups = []
    for line in run.stdout.decode().splitlines():
        if line.startswith("answer ") or not groups:
            groups.append([])
        groups[-1].append(line)
    return groups


# ---- the original
OPTIONS = f(1, f(0x10, b"o") + f(2, f(0x11, b"F")) + f(2, f(0x11, b"G")))


def tag_number(digits):
    number = shift = 0
    for b in bytes.fromhex(digits):
        number |= (b & 127) << shift
        shift += 7
        if b < 128:
            return number >> 3


def original(oracle, cases):
    """What the original says to each of (sheet, scope, path, message): the number that it took, or the refusal's."""
    lines = []
    for s, scope, path, message in cases:
        request = f(0x18, scope) + f(0x19, message) + f(8, f(0x1B, path) + f(0x21, (7).to_bytes(8, "big")))
        lines.append((f(0x40, s) + f(0x41, request)).hex())
    run = subprocess.run([oracle, "sheet", "--raw"], input="\n".join(lines) + "\n", stdout=subprocess.PIPE, encoding="utf-8", check=True)
    return run.stdout.splitlines()


def plain_case():
    """A sheet of scalar extensions that is in form, a scope and a path; messages o.F and o.G are declared by a last file."""
    files = b""
    for _ in range(random.randint(0, 5)):
        files += f(1, f(0x10, some_path(0, 3)) + plain_items(3))
    return files + OPTIONS, *some_names(files + OPTIONS)


def both_say(number, extendee, message, line):
    """What was found here, by its number or None and its extendee, and the original's line, for one message in the same words."""
    want = line.split()
    told = "refused 4" if number is None else "found %d" % number if extendee == message else "refused 5"
    return told, "found %d" % tag_number(want[3]) if want[1] == "0" else "refused " + want[1]


def against(oracle, total):
    done = differ = 0
    seen = {}
    while done < total:
        batch = [plain_case() for _ in range(300)]
        ours = answers(batch)
        if len(ours) != len(batch):
            sys.exit("%d answers to %d cases" % (len(ours), len(batch)))
        theirs = {m: original(oracle, [(s, c, p, m) for s, c, p in batch]) for m in (b"o.F", b"o.G")}
        for i, (case, got) in enumerate(zip(batch, ours)):
            found = (None, None) if got[0] == "answer 4" else (int(got[2].split()[1]), got[3].split()[1].encode())
            for message in (b"o.F", b"o.G"):
                told, said = both_say(*found, message, theirs[message][i])
                kind = told if told.startswith("refused") else "found"
                seen[kind] = seen.get(kind, 0) + 1
                if told != said:
                    differ += 1
                    asked = (case[0].hex(), case[1], case[2], message)
                    print("sheet %s scope %s path %s message %s\n  here: %s  original: %s" % (*asked, told, said))
                    if differ == 5:
                        sys.exit(1)
        done += 2 * len(batch)
    print("original: %d answers compared (%s), %d differ" % (done, ", ".join("%s: %d" % x for x in sorted(seen.items())), differ))
    return differ


def plain_items(depth):
    items = b""
    for _ in range(random.choice([0, 1, 1, 2, 3])):
        if depth and random.random() < 0.55:
            items += f(2, f(0x11, random.choice(NAMES).encode()) + plain_items(depth - 1))
        else:
            leaves = f(0x11, random.choice(["x", "y", "a", "M"]).encode()) + f(0x12, random.choice([b"o.F", b"o.G"]))
            leaves += f(0x13, struct.pack(">I", random.randint(1, 536870911))) + f(0x14, b"\x0d") + f(0x15, b"\1")
            items += f(3, leaves)
    return items


def main():
    total = int(sys.argv[1]) if len(sys.argv) > 1 else 20000
    random.seed(int(sys.argv[2]) if len(sys.argv) > 2 else 1)
    form.rnd.seed(1)
    done = differ = 0
    seen = {}
    while done < total:
        cases = [some_case() for _ in range(min(300, total - done))]
        found = answers(cases)
        if len(found) != len(cases):
            sys.exit("%d answers to %d cases" % (len(found), len(cases)))
        for case, got in zip(cases, found):
            want = expected(*case)
            seen[want[0]] = seen.get(want[0], 0) + 1
            if got != want:
                differ += 1
                print("sheet %s scope %s path %s\n  here:   %s\n  second: %s" % (case[0].hex(), case[1], case[2], got, want))
                if differ == 5:
                    sys.exit(1)
        done += len(cases)
    print("%d cases compared (%s), %d differ" % (done, ", ".join("%s: %d" % x for x in sorted(seen.items())), differ))
    if len(sys.argv) > 3:
        differ += against(sys.argv[3], total)
    sys.exit(1 if differ else 0)


if __name__ == "__main__":
    main()
