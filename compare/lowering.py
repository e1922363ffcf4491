#!/usr/bin/env python3
"""Runs optranges and optoneofs beside the original's own code on the same words, and compares every answer.

usage: lowering.py ORACLE [CASES]
       lowering.py protoc [MESSAGES]
       lowering.py inputs
       lowering.py list [write]

Run it from the root of the repository. ORACLE is a program over protobuf-parse 3.7.2 that reads lines `ranges KIND start end ..` and
`fields word ..` in its mode `lower` and prints `answer 0 words ..` for each. The two programs are those that `rt run` builds in
their crates' folders.
Words are drawn so that every end has a successor and every 3 follows a 2 or a 3: on those lists both sides answer 0. The original numbers
oneofs in order of declaration: optoneofs is given that numbering, or none, in turn. `lowered_ranges` and `lowered_fields_by` are a second
implementation, which refuses too, for compare/library.py.

`protoc` compares the other numbering, synthetic oneofs last, with the descriptors that protoc makes of random proto3 messages, 10,000 if
no number is given; it needs protoc and Python's protobuf. protoc takes no oneof without a field: such lists are left out here. It says
what the messages hit, and of how many the numbering in order of declaration would have differed.

`inputs` gives optoneofs inputs that are none, a numbering of another size or in another place among them, and compares the lines that it
prints with those below, which are written by hand.

`list` says whether the stored tests of the two programs are the cases below, whose answers are written by hand, or writes them. The first
of each is laid out to try the reader of digits: blanks, a tab, both line ends and both cases. The last of optoneofs' is no such input.
"""
import collections
import itertools
import os
import random
import struct
import subprocess
import sys
import tempfile

import built

EDGES = [-2147483648, -2147483647, -2, -1, 0, 1, 2, 18999, 19000, 536870910, 536870911, 536870912, 2147483645, 2147483646]


def field(tag, words):
    payload = b"".join(struct.pack(">I", w % 2**32) for w in words)
    return bytes([tag]) + struct.pack(">H", len(payload)) + payload


def ranges(kind, *words):
    return (field(0x47, [kind]) + field(0x48, words)).hex() + "\n"


def fields(*words):
    return field(0x49, words).hex() + "\n"


def fields_by(numbering, *words):
    return (field(0x47, [numbering]) + field(0x49, words)).hex() + "\n"


EXTENSION, ENUM_RESERVED = 0, 2  # 01, "Listing and lowering"
DECLARED, SYNTHETIC_LAST = 0, 1

STORED = {
    "optranges": [
        ("47 0004 00000001\n48 0018\n  00000064 000000c7\n  FFFFFFFB FFFFFFFF   00000009 00000003\n", "answer 0\nwords 100 200 -5 0 9 4\n"),
        # 01, example 10: "Extension 100 to 199: 100, 200; end 2147483647: 16, but kept for an enum."
        (ranges(EXTENSION, 100, 199), "answer 0\nwords 100 200\n"),
        (ranges(EXTENSION, 1, 2147483647), "answer 16\nRangeEnd\n"),
        (ranges(ENUM_RESERVED, 1, 2147483647), "answer 0\nwords 1 2147483647\n"),
    ],
    "optoneofs": [
        ("49001400000000\n\t00000002 0000 0003 00000003 00000001\r\n", "answer 0\nwords 0 1 1 2\n"),
        # 01, "Listing and lowering": a field, an optional one, a oneof of two members, an optional one; a 3 that follows no 2 or 3
        (fields(0, 1, 2, 3, 3, 1), "answer 0\nwords 0 1 2 2 3\n"),
        (fields(3), "answer 2\nBadRequest\n"),
        # the same fields in both numberings; a oneof without a field counts in both; one before the optional field keeps its index
        (fields_by(DECLARED, 0, 1, 2, 3, 3, 1), "answer 0\nwords 0 1 2 2 3\n"),
        (fields_by(SYNTHETIC_LAST, 0, 1, 2, 3, 3, 1), "answer 0\nwords 0 2 1 1 3\n"),
        (fields_by(DECLARED, 1, 2, 2, 3), "answer 0\nwords 1 3\n"),
        (fields_by(SYNTHETIC_LAST, 1, 2, 2, 3), "answer 0\nwords 3 2\n"),
        (fields_by(SYNTHETIC_LAST, 1, 2, 3), "answer 0\nwords 2 1\n"),
        (fields_by(SYNTHETIC_LAST, 2, 3, 1), "answer 0\nwords 1 2\n"),
        (fields_by(SYNTHETIC_LAST, 2, 0, 3), "answer 2\nBadRequest\n"),
        # no such numbering
        (fields_by(2), "answer 2\nBadRequest\n"),
    ],
}
# a numbering behind the words belongs to the next case, which is missing
BEHIND = field(0x47, [SYNTHETIC_LAST]).hex() + "\n"
ENDS_AT = sum(len(bytes.fromhex(text)) for text in [BEHIND] + [text for text, _ in STORED["optoneofs"]])
STORED["optoneofs"].append((BEHIND, "input: byte %d: the input ends, where a field of tag 49 is due\n" % ENDS_AT))


DUE = "a field of tag 49 is due"
NO_INPUTS = [
    ("", "input: byte 0: the input ends, where %s" % DUE),
    ("48 0000", "input: byte 0: a field of tag 48, where tag 49 is due"),
    ("49 0003 000000", "input: byte 3: the payload of tag 49 has length 3, no multiple of 4"),
    # of another size
    ("47 0000 49 0000", "input: byte 3: the payload of tag 47 has length 0, where 4 is due"),
    ("47 0003 000001 49 0000", "input: byte 3: the payload of tag 47 has length 3, where 4 is due"),
    ("47 0008 0000000100000001 49 0000", "input: byte 3: the payload of tag 47 has length 8, where 4 is due"),
    ("47 0004 0000", "input: byte 0: the field that starts here is cut"),
    ("47", "input: byte 0: the field that starts here is cut"),
    # in another place
    ("47 0004 00000001", "input: byte 7: the input ends, where %s" % DUE),
    ("47 0004 00000001 48 0000", "input: byte 7: a field of tag 48, where tag 49 is due"),
    ("47 0004 00000001 47 0004 00000001 49 0000", "input: byte 7: a field of tag 47, where tag 49 is due"),
    ("49 0000 47 0004 00000001", "answer 0 words input: byte 10: the input ends, where %s" % DUE),
    # a case behind one that has a numbering has none by that
    ("47 0004 00000001 49 000C 00000001 00000002 00000003 49 000C 00000001 00000002 00000003", "answer 0 words 2 1 answer 0 words 1 2"),
]


def no_inputs():
    """How many of these get another line."""
    other = 0
    for text, line in NO_INPUTS:
        said = ours("optoneofs", bytes.fromhex(text))
        if said != line:
            other += 1
            print("%s\n  printed: %s\n  due:     %s" % (text, said, line))
    print("%d inputs tried, %d with another line" % (len(NO_INPUTS), other))
    return other


def stored(write):
    """Whether a stored test is another one."""
    other = False
    for program, cases in STORED.items():
        for name, texts in zip(("stdin", "stdout"), zip(*cases)):
            path = "crates/%s/%s" % (program, name)
            if write:
                open(path, "w", newline="").write("".join(texts))
            same = open(path, newline="").read() == "".join(texts)
            other = other or not same
            print("%s: %s" % (path, "these cases" if same else "OTHER CASES"))
    return other


def ours(program, *fields):
    run = subprocess.run([built.program(program)], input=b"".join(fields).hex().encode(), stdout=subprocess.PIPE, check=True)
    return run.stdout.decode().replace("\n", " ").strip()


# ---- a second implementation
MOST = 4096


def lowered_ranges(kind, words):
    """The refusal's number, or 0, and the words."""
    if kind > ENUM_RESERVED:
        return 2, []
    if len(words) > MOST:
        return 3, []
    if len(words) % 2:
        return 2, []
    more = 0 if kind == ENUM_RESERVED else 1
    if more and 2**31 - 1 in words[1::2]:
        return 16, []
    return 0, [n + more * (i % 2) for i, n in enumerate(words)]


def lowered_fields(words):
    """Likewise: a oneof for each 1 and each 2, in order, and for a field the number of its own."""
    if len(words) > MOST:
        return 3, []
    if any(w > 3 or (w == 3 and words[i - 1 : i] not in ([2], [3])) for i, w in enumerate(words)):
        return 2, []
    opened = itertools.accumulate(w in (1, 2) for w in words)
    return 0, [n if w else 0 for w, n in zip(words, opened) if w != 2]


def lowered_fields_by(numbering, words):
    """Likewise, in a numbering: its oneofs are those in order of declaration, sorted by kind where the synthetic ones come last."""
    if numbering > SYNTHETIC_LAST:
        return 2, []
    reply, declared = lowered_fields(words)
    kinds = [w for w in words if w in (1, 2)]
    order = sorted(range(len(kinds)), key=lambda i: numbering == SYNTHETIC_LAST and kinds[i] == 1)
    return reply, [order.index(n - 1) + 1 if n else 0 for n in declared]


def word():
    return random.choice(EDGES) if random.random() < 0.5 else random.randint(-2**31, 2**31 - 2)


def some_fields():
    words, may_join = [], False
    for _ in range(random.randint(0, 40)):
        w = random.choice([0, 1, 2, 3, 3] if may_join else [0, 1, 2])
        words.append(w)
        may_join = w >= 2
    return words


def original(oracle, lines):
    """What the original says to each line."""
    run = subprocess.run([oracle, "lower"], input="\n".join(lines) + "\n", stdout=subprocess.PIPE, encoding="utf-8", check=True)
    theirs = [line.strip() for line in run.stdout.splitlines()]
    assert len(theirs) == len(lines), "the original answered %d of %d lines" % (len(theirs), len(lines))
    return theirs


# ---- protoc
def fields_of_oneofs():
    """Random fields whose oneofs have one member or more."""
    words = []
    for _ in range(random.randint(0, 24)):
        words += random.choice([[0], [1], [1], [2] + [3] * random.randint(1, 4)])
    return words


def message(name, words):
    """A proto3 message of these fields."""
    lines, number = ["message %s {" % name], 0
    for i, w in enumerate(words):
        if w == 2:
            lines.append("  oneof o%d {" % i)
            continue
        number += 1
        lines.append("  %suint32 f%d = %d;" % ("optional " if w == 1 else "", number, number))
        if w == 3 and words[i + 1 : i + 2] != [3]:
            lines.append("  }")
    return "\n".join(lines + ["}", ""])


def described(lists):
    """The word of each field in protoc's descriptors of messages of these fields."""
    from google.protobuf import descriptor_pb2

    with tempfile.TemporaryDirectory() as folder:
        path = os.path.join(folder, "all.proto")
        texts = [message("M%d" % i, words) for i, words in enumerate(lists)]
        open(path, "w").write('syntax = "proto3";\n' + "".join(texts))
        subprocess.run(["protoc", "-I" + folder, "-o" + path + ".set", path], check=True)
        files = descriptor_pb2.FileDescriptorSet.FromString(open(path + ".set", "rb").read())
    return [[f.oneof_index + 1 if f.HasField("oneof_index") else 0 for f in m.field] for m in files.file[0].message_type]


def numbered(lists, numbering):
    """What optoneofs answers to each list."""
    answers = []
    for at in range(0, len(lists), 500):
        cases = "".join(fields_by(numbering, *words) for words in lists[at : at + 500])
        run = subprocess.run([built.program("optoneofs")], input=cases, stdout=subprocess.PIPE, encoding="utf-8", check=True)
        replies, words = (run.stdout.splitlines()[n::2] for n in (0, 1))
        assert replies == ["answer 0"] * len(lists[at : at + 500]), "an answer is no 0"
        answers += [[int(word) for word in line.split()[1:]] for line in words]
    return answers


def with_protoc(messages):
    random.seed(1)
    lists = [fields_of_oneofs() for _ in range(messages)]
    theirs, here = described(lists), numbered(lists, SYNTHETIC_LAST)
    assert len(theirs) == len(here) == messages
    differ = [case for case in zip(lists, here, theirs) if case[1] != case[2]]
    for words, a, b in differ[:10]:
        print("%s\n  here:   %s\n  protoc: %s" % (words, a, b))
    hit = collections.Counter()
    for words in lists:
        hit.update({0: "plain fields", 1: "optional fields", 2: "oneofs", 3: "members"}[w] for w in words)
        kinds = [w for w in words if w in (1, 2)]
        hit["messages with an optional field before a oneof"] += kinds != sorted(kinds, reverse=True)
        hit["messages with both kinds of oneofs"] += len(set(kinds)) == 2
        hit["messages without oneofs"] += not kinds
    for what, count in sorted(hit.items()):
        print("%8d %s" % (count, what))
    print("%8d messages numbered otherwise in order of declaration" % sum(a != b for a, b in zip(numbered(lists, DECLARED), theirs)))
    print("%d messages compared with protoc, %d differ" % (messages, len(differ)))
    return 1 if differ else 0


def main():
    if sys.argv[1] == "list":
        sys.exit(1 if stored(sys.argv[2:] == ["write"]) else 0)
    if sys.argv[1] == "inputs":
        sys.exit(1 if no_inputs() else 0)
    if sys.argv[1] == "protoc":
        sys.exit(with_protoc(int(sys.argv[2]) if len(sys.argv) > 2 else 10000))
    oracle, cases = sys.argv[1], int(sys.argv[2]) if len(sys.argv) > 2 else 2000
    random.seed(1)
    lines, answers = [], []
    for i in range(cases):
        if i % 2:
            words = some_fields()
            lines.append("fields " + " ".join(map(str, words)))
            answers.append(ours("optoneofs", *[field(0x47, [DECLARED])][: i // 2 % 2], field(0x49, words)))
        else:
            kind, words = random.randint(0, 2), [word() for _ in range(2 * random.randint(0, 20))]
            lines.append("ranges %d " % kind + " ".join(map(str, words)))
            answers.append(ours("optranges", field(0x47, [kind]), field(0x48, words)))
    theirs = original(oracle, lines)
    differ = [(l, a, b) for l, a, b in zip(lines, answers, theirs) if a != b]
    for line, a, b in differ[:10]:
        print("%s\n  here:     %s\n  original: %s" % (line, a, b))
    print("%d lists compared, %d differ" % (len(lines), len(differ)))
    sys.exit(1 if differ else 0)


if __name__ == "__main__":
    main()
