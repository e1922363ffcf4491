#!/usr/bin/env python3
"""Runs optcheck beside a second implementation of the form, and compares every answer and every count.

usage: form.py [CASES] [SEED]

The second one is written from 01 and from the readings in docs/DECISIONS.md, which both share, and not from the definitions. Run it
from the root of the repository. A case is a sheet, or a sheet and a request: drawn from the rules and then, three times in four,
broken in one to three places (a byte changed or lost, the end cut off, a field lost or doubled, a length changed); a few have the greatest
length or one byte more. optcheck is the program that `rt run` builds in its crate's folder; it takes many cases in one run.
"""
import random
import re
import subprocess
import sys

import built

IDENT = re.compile(rb"[A-Za-z_][A-Za-z0-9_]{0,63}\Z")


class Fault(Exception):
    pass


class Reader:
    """The bytes of a container, read from the front. Any fault raises; `bad` is its number, 1 in a sheet and 2 in a request."""

    def __init__(self, data, bad):
        self.data, self.at, self.bad = data, 0, bad

    def more(self):
        return self.at < len(self.data)

    def field(self):
        if len(self.data) - self.at < 3:
            raise Fault(self.bad)
        tag, size = self.data[self.at], int.from_bytes(self.data[self.at + 1 : self.at + 3], "big")
        start = self.at + 3
        if len(self.data) - start < size:
            raise Fault(self.bad)
        self.at = start + size
        return tag, self.data[start : self.at]

    def leaf(self, wanted, good):
        tag, payload = self.field()
        if tag != wanted or not good(payload):
            raise Fault(self.bad)
        return payload

    def end(self):
        if self.more():
            raise Fault(self.bad)


def ident(b):
    return bool(IDENT.match(b))


def rel(b):
    return 0 < len(b) <= 255 and all(ident(p) for p in b.split(b"."))


def rel_or_empty(b):
    return b == b"" or rel(b)


def dotted(b):
    return len(b) <= 255 and (rel(b[1:]) if b[:1] == b"." else rel(b))


def between(low, high, size):
    return lambda b: len(b) == size and low <= int.from_bytes(b, "big") <= high


def shape(r, count, tag):
    r.leaf(0x13, between(1, 536870911, 4))
    kind = r.leaf(0x14, between(1, 18, 1))[0]
    r.leaf(0x15, between(1, 3, 1))
    if kind in (10, 11, 14):
        r.leaf(0x16, rel)
    r.end()
    count[tag] += 1


def items(r, depth, allowed, count):
    while r.more():
        tag, payload = r.field()
        if tag not in allowed:
            raise Fault(1)
        inner = Reader(payload, 1)
        if tag == 2:
            if depth == 16:
                raise Fault(3)
            inner.leaf(0x11, ident)
            count[2] += 1
            items(inner, depth + 1, (2, 3, 4, 5), count)
        elif tag == 4:
            inner.leaf(0x11, ident)
            count[4] += 1
            while inner.more():
                value, bytes_ = inner.field()
                if value != 6:
                    raise Fault(1)
                v = Reader(bytes_, 1)
                v.leaf(0x11, ident)
                v.leaf(0x17, lambda b: len(b) == 4)
                v.end()
                count[6] += 1
        else:
            inner.leaf(0x11, ident)
            if tag == 3:
                inner.leaf(0x12, rel)
            shape(inner, count, tag)


def sheet(data):
    count = dict.fromkeys((1, 2, 5, 3, 4, 6), 0)
    if len(data) > 32768:
        raise Fault(3)
    r = Reader(data, 1)
    while r.more():
        tag, payload = r.field()
        if tag != 1:
            raise Fault(1)
        if count[1] == 8:
            raise Fault(3)
        count[1] += 1
        inner = Reader(payload, 1)
        inner.leaf(0x10, rel_or_empty)
        items(inner, 0, (2, 3, 4), count)
    return count


def constant(tag, payload, depth):
    if tag not in (0x20, 0x21, 0x22, 0x23, 0x24, 0x25, 0x26, 0x2A):
        raise Fault(2)
    if depth > 16:
        raise Fault(3)
    good = True
    if tag == 0x20:
        good = payload in (b"\0", b"\1")
    elif tag in (0x21, 0x22, 0x23):
        good = len(payload) == 8
    elif tag == 0x25:
        good = ident(payload)
    elif tag == 0x2A:
        r = Reader(payload, 2)
        while r.more():
            constant(*r.field(), depth + 1)
    elif tag == 0x26:
        r = Reader(payload, 2)
        while r.more():
            by, name = r.field()
            fine = {0x27: ident, 0x28: rel, 0x29: lambda b: 1 <= len(b) <= 255}.get(by)
            if fine is None or not fine(name):
                raise Fault(2)
            constant(*r.field(), depth + 1)
    if not good:
        raise Fault(2)


def request(data):
    if len(data) > 8192:
        raise Fault(3)
    options = parts = 0
    r = Reader(data, 2)
    r.leaf(0x18, rel_or_empty)
    r.leaf(0x19, rel)
    while r.more():
        tag, payload = r.field()
        if tag != 8:
            raise Fault(2)
        if options == 128:
            raise Fault(3)
        options += 1
        inner, here = Reader(payload, 2), 0
        # a header that is cut is a fault before its tag is judged, so a part's tag is looked at only where the field is whole
        while True:
            by, name = inner.field()
            if by not in (0x1A, 0x1B):
                break
            if here == 16:
                raise Fault(3)
            if not (ident if by == 0x1A else dotted)(name):
                raise Fault(2)
            here += 1
        if here == 0:
            raise Fault(2)
        constant(by, name, 1)
        inner.end()
        parts += here
    return options, parts


NAMES = {1: "BadSheet", 2: "BadRequest", 3: "BeyondLimit"}


def expected(s, q):
    try:
        count = sheet(s)
        both = request(q) if q is not None else None
    except Fault as fault:
        return ["answer %d" % fault.args[0], NAMES[fault.args[0]]]
    words = zip(("files", "messages", "fields", "extensions", "enums", "values"), (count[k] for k in (1, 2, 5, 3, 4, 6)))
    lines = ["answer 0", " ".join("%s %d" % w for w in words)]
    return lines + (["options %d parts %d" % both] if both else [])


# ---- drawing cases

rnd = random.Random()


def field(tag, payload):
    return bytes([tag]) + (len(payload) % 65536).to_bytes(2, "big") + payload


def some_ident():
    size = rnd.choice((63, 64, 64, 65)) if rnd.random() < 0.01 else rnd.randint(1, 3)
    return bytes([rnd.choice(b"abzAZ_")]) + bytes(rnd.choice(b"az09_AZ") for _ in range(size - 1))


def some_path(dot=False):
    if rnd.random() < 0.01:
        return (b"." if dot else b"") + b".".join([b"a" * 63] * 3 + [b"a" * rnd.choice((62, 63, 64, 65))])
    return (b"." if dot and rnd.random() < 0.5 else b"") + b".".join(some_ident() for _ in range(rnd.randint(1, 3)))


def some_shape():
    kind = rnd.choice((0, 19)) if rnd.random() < 0.005 else rnd.randint(1, 18)
    number = rnd.choice((0, 536870912, 4294967295)) if rnd.random() < 0.01 else rnd.choice((1, 2, 50001, 536870911))
    label = rnd.choice((0, 4)) if rnd.random() < 0.005 else rnd.randint(1, 3)
    out = field(0x13, number.to_bytes(4, "big")) + field(0x14, bytes([kind])) + field(0x15, bytes([label]))
    return out + (field(0x16, some_path()) if (kind in (10, 11, 14)) != (rnd.random() < 0.005) else b"")


def some_items(depth, message):
    out = b""
    for _ in range(rnd.choice((0, 1, 1, 2, 3)) if depth < 4 else rnd.choice((0, 0, 0, 1))):
        tag = rnd.choice((2, 3, 4, 5, 5) if message else (2, 2, 3, 4))
        inner = field(0x11, some_ident())
        if tag == 2:
            inner += some_items(depth + 1, True)
        elif tag == 4:
            inner += b"".join(field(6, field(0x11, some_ident()) + field(0x17, rnd.randbytes(4))) for _ in range(rnd.randint(0, 3)))
        else:
            inner += (field(0x12, some_path()) if tag == 3 else b"") + some_shape()
        out += field(tag, inner)
    return out


def nested(depth):
    out = b""
    for _ in range(depth):
        out = field(2, field(0x11, some_ident()) + out + (some_items(4, True) if rnd.random() < 0.1 else b""))
    return out


def some_file():
    body = nested(rnd.choice((1, 15, 16, 17, 18))) if rnd.random() < 0.05 else some_items(0, False)
    return field(1, field(0x10, some_path() if rnd.random() < 0.7 else b"") + body)


def some_sheet():
    return b"".join(some_file() for _ in range(rnd.choice((0, 1, 1, 2, 2, 3, 8, 9, 10) if rnd.random() < 0.2 else (1, 2))))


def some_constant(depth):
    tag = rnd.choice((0x20, 0x21, 0x22, 0x23, 0x24, 0x25) + ((0x26, 0x2A) * 2 if depth < 4 else ()))
    if tag == 0x20:
        return field(tag, bytes([2 if rnd.random() < 0.02 else rnd.randint(0, 1)]))
    if tag in (0x21, 0x22, 0x23):
        return field(tag, rnd.randbytes(8))
    if tag == 0x24:
        return field(tag, rnd.randbytes(rnd.randint(0, 5)))
    if tag == 0x25:
        return field(tag, some_ident())
    if tag == 0x2A:
        return field(tag, b"".join(some_constant(depth + 1) for _ in range(rnd.randint(0, 3))))
    return field(tag, b"".join(some_pair() + some_constant(depth + 1) for _ in range(rnd.randint(0, 3))))


def some_pair():
    by = rnd.choice((0x27, 0x27, 0x28, 0x29))
    if by == 0x29:
        return field(by, rnd.randbytes(rnd.choice((254, 255, 256, 0) if rnd.random() < 0.05 else (1, 9))))
    return field(by, some_ident() if by == 0x27 else some_path())


def some_option():
    many = rnd.choice((15, 16, 17, 18)) if rnd.random() < 0.05 else rnd.randint(1, 3)
    name = b"".join(field(0x1A, some_ident()) if rnd.random() < 0.5 else field(0x1B, some_path(True)) for _ in range(many))
    value = some_constant(1)
    if rnd.random() < 0.05:
        for _ in range(rnd.choice((14, 15, 16, 17))):
            value = field(0x2A, value) if rnd.random() < 0.7 else field(0x26, some_pair() + value)
    return field(8, name + value)


def some_request():
    many = rnd.choice((127, 128, 129, 130)) if rnd.random() < 0.02 else rnd.randint(0, 3)
    short = field(8, field(0x1A, b"a") + field(0x20, b"\1"))
    options = b"".join(short if many > 3 else some_option() for _ in range(many))
    return field(0x18, some_path() if rnd.random() < 0.7 else b"") + field(0x19, some_path()) + options


def starts(data):
    """Places where a field may start: found by walking in, whatever the bytes are."""
    out, todo = [], [(0, len(data))]
    while todo:
        at, end = todo.pop()
        while at + 3 <= end:
            size = int.from_bytes(data[at + 1 : at + 3], "big")
            if at + 3 + size > end:
                break
            out.append((at, at + 3 + size))
            if data[at] in (1, 2, 3, 4, 5, 6, 8, 0x26, 0x2A):
                todo.append((at + 3, at + 3 + size))
            at += 3 + size
    return out


def broken(data):
    for _ in range(rnd.choice((1, 1, 1, 2, 3))):
        places = starts(data)
        how = rnd.randrange(6)
        if not data or (how >= 3 and not places):
            return data + rnd.randbytes(rnd.randint(1, 4))
        if how == 0:
            at = rnd.randrange(len(data))
            byte = rnd.choice((0, 1, 2, 3, 4, 5, 6, 8, 0x11, 0x20, 0x2A, 0x2E, 0x30, rnd.randrange(256)))
            data = data[:at] + bytes([byte]) + data[at + 1 :]
        elif how == 1:
            at = rnd.randrange(len(data))
            data = data[:at] + data[at + 1 :]
        elif how == 2:
            data = data[: rnd.randrange(len(data))]
        else:
            a, e = rnd.choice(places)
            if how == 3:
                data = data[:a] + data[e:]
            elif how == 4:
                data = data[:e] + data[a:]
            else:
                size = (int.from_bytes(data[a + 1 : a + 3], "big") + rnd.choice((1, -1, 3, 256))) % 65536
                data = data[: a + 1] + size.to_bytes(2, "big") + data[a + 3 :]
    return data


def long_sheet():
    """A fine sheet but for its length, which is the greatest or one more."""
    many, over = divmod(rnd.choice((32768, 32769)) - len(field(1, field(0x10, b""))), 7)
    return field(1, field(0x10, b"") + field(2, field(0x11, b"M")) * (many - 1) + field(2, field(0x11, b"M" * (1 + over))))


def long_request():
    """A fine request but for its length, which is the greatest or one more."""
    def filled(n):
        return field(0x18, b"") + field(0x19, b"a") + field(8, field(0x1A, b"x") + field(0x24, bytes(n)))

    return filled(rnd.choice((8192, 8193)) - len(filled(0)))


def some_case():
    if rnd.random() < 0.001:
        return long_sheet(), some_request()
    s, q = some_sheet(), (some_request() if rnd.random() < 0.7 else None)
    if rnd.random() < 0.002:
        return s, long_request()
    if rnd.random() < 0.75:
        if q is None or rnd.random() < 0.4:
            s = broken(s)
        else:
            q = broken(q)
    return s, q


def answers(cases):
    data = b"".join(field(0x40, s) + (b"" if q is None else field(0x41, q)) for s, q in cases)
    run = subprocess.run([built.program("optcheck")], input=data.hex().encode(), stdout=subprocess.PIPE, check=True)
    groups = []
    for line in run.stdout.decode().splitlines():
        if line.startswith("answer ") or not groups:
            groups.append([])
        groups[-1].append(line)
    return groups


def main():
    total = int(sys.argv[1]) if len(sys.argv) > 1 else 20000
    rnd.seed(int(sys.argv[2]) if len(sys.argv) > 2 else 1)
    done = differ = 0
    seen = {}
    while done < total:
        cases, size = [], 0
        while size < 60000 and done + len(cases) < total:
            case = some_case()
            more = 6 + len(case[0]) + len(case[1] or b"")
            if cases and size + more > 130000:
                break
            cases.append(case)
            size += more
        found = answers(cases)
        if len(found) != len(cases):
            sys.exit("%d answers to %d cases" % (len(found), len(cases)))
        for (s, q), got in zip(cases, found):
            want = expected(s, q)
            seen[want[0]] = seen.get(want[0], 0) + 1
            if got != want:
                differ += 1
                print("sheet %s\nrequest %s\n  here:   %s\n  second: %s" % (s.hex(), None if q is None else q.hex(), got, want))
                if differ == 5:
                    sys.exit(1)
        done += len(cases)
    print("%d cases compared (%s), %d differ" % (done, ", ".join("%s: %d" % x for x in sorted(seen.items())), differ))
    sys.exit(1 if differ else 0)


if __name__ == "__main__":
    main()
