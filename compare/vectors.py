#!/usr/bin/env python3
"""The worked examples that the program `vectors` runs: a line for each, under the document that it comes from.

usage: vectors.py > crates/vectors/stdin

An example is a field 60 that holds 61 what is run, 62 its label, 63 to 65 what is given, 66 what is wanted; what a kind has no use for is
left out. Every expected value is written here by hand from its document. crates/vectors/src says what is done with each kind.

Worked examples of whole records, of strings and of floats are cases of optlower's stored test (examples.py), those of lowerings cases of
optranges' and optoneofs' (lowering.py).
"""
import struct

KINDS = {"VARINT": 1, "ZIGZAG": 2, "LIMIT": 3, "CANDIDATE": 6, "CANDIDATES": 7, "REFUSAL": 8, "PRINTED": 9}
WIDTH = 120


def f(tag, payload):
    return bytes([tag]) + struct.pack(">H", len(payload)) + payload


def u64(n):
    return struct.pack(">Q", n % 2**64)


def words(*ns):
    return b"".join(struct.pack(">I", n % 2**32) for n in ns)


def case(kind, label, *given, want=None):
    body = f(0x61, words(KINDS[kind])) + f(0x62, label.encode())
    for tag, payload in zip((0x63, 0x64, 0x65), given):
        body += f(tag, payload)
    return f(0x60, body if want is None else body + f(0x66, want))


# A number: written as a varint it is these bytes, of that length, and read from them it comes back.
def varint(label, n, want):
    return case("VARINT", label, u64(n), want=bytes.fromhex(want))


# Three numbers, of which the first is written in n bytes and the others in n + 1.
def lengths(label, before, first, after, n):
    return case("LIMIT", label, u64(before), u64(first), u64(after), want=words(n))


# The first number of n + 1 bytes, with the one before it and the one after it.
def limit(label, first, n):
    return lengths(label, first - 1, first, first + 1, n)


# A signed number as 64 bits, and its zigzag form, both ways.
def zigzag(label, n, z):
    return case("ZIGZAG", label, u64(n), want=u64(z))


# The i-th candidate of a name in a scope, and how many there are.
def candidate(label, scope, name, i, want):
    return case("CANDIDATE", label, name.encode(), scope.encode(), words(i), want=want.encode())


def candidates(label, scope, name, want):
    return case("CANDIDATES", label, name.encode(), scope.encode(), want=words(want))


# A refusal, by its place in 01's table: its number, its second word, and the name that these two give, which is the label.
def refusal(label, place, reply, second=0):
    return case("REFUSAL", label, words(place), want=words(reply, second))


# Bytes that are only printed.
def printed(label, bs):
    return case("PRINTED", label, bytes.fromhex(bs))


SCOPE = "plant.Dispatch"

CASES = [
    # Encoding, "Base 128 Varints": 1, and 150 as 9601
    varint("varint 1 is 01", 1, "01"),
    varint("varint 150 is 96 01", 150, "9601"),
    # Encoding, "Repeated Elements": 3, 270 and 86942 packed in field 6 are 3206038e029ea705
    varint("varint 270 is 8E 02", 270, "8e02"),
    varint("varint 86942 is 9E A7 05", 86942, "9ea705"),
    # Encoding, "Signed Integers": -2 takes ten bytes
    varint("varint -2 is FE and eight FF and 01", -2, "feffffffffffffffff01"),
    # Encoding, "Base 128 Varints": seven bits a byte, so that 128^n is the first number of n + 1 bytes; 64 bits take ten
    limit("from 128 on 2 bytes", 128, 1),
    limit("from 16384 on 3 bytes", 16_384, 2),
    limit("from 2097152 on 4 bytes", 2_097_152, 3),
    limit("from 268435456 on 5 bytes", 268_435_456, 4),
    limit("from 34359738368 on 6 bytes", 34_359_738_368, 5),
    limit("from 4398046511104 on 7 bytes", 4_398_046_511_104, 6),
    limit("from 562949953421312 on 8 bytes", 562_949_953_421_312, 7),
    limit("from 72057594037927936 on 9 bytes", 72_057_594_037_927_936, 8),
    limit("from 9223372036854775808 on 10 bytes", 9_223_372_036_854_775_808, 9),
    varint("varint 2^64 - 1 is nine FF and 01", 2**64 - 1, "ffffffffffffffffff01"),
    # and these must be WRONG, by one number each: so a test that always holds is seen
    lengths("128 in 1 byte", 128, 128, 129, 1),
    lengths("127 in 2 bytes", 127, 127, 129, 1),
    lengths("127 in 2 bytes, as the last", 127, 128, 127, 1),
    # Encoding, "Signed Integers": the table of ZigZag encoding
    zigzag("zigzag 0 is 0", 0, 0),
    zigzag("zigzag -1 is 1", -1, 1),
    zigzag("zigzag 1 is 2", 1, 2),
    zigzag("zigzag -2 is 3", -2, 3),
    zigzag("zigzag 0x7fffffff is 0xfffffffe", 0x7FFFFFFF, 0xFFFFFFFE),
    zigzag("zigzag -0x80000000 is 0xffffffff", -0x80000000, 0xFFFFFFFF),
    # 01, P2 and P3, by "The search": scope plus name, each parent plus name, the name alone; an absolute name has itself
    candidate("first plant.Dispatch.rank", SCOPE, "rank", 0, "plant.Dispatch.rank"),
    candidate("then plant.rank", SCOPE, "rank", 1, "plant.rank"),
    candidate("last rank", SCOPE, "rank", 2, "rank"),
    candidate(".plant.rank is plant.rank", SCOPE, ".plant.rank", 0, "plant.rank"),
    candidates("and nothing else", SCOPE, ".plant.rank", 1),
    # 01, "Replies": the table, row by row
    refusal("BadSheet", 0, 1),
    refusal("BadRequest", 1, 2),
    refusal("BeyondLimit", 2, 3),
    refusal("ExtensionNotFound", 3, 4),
    refusal("WrongExtensionType", 4, 5),
    refusal("ExtensionIsNotMessage", 5, 6),
    refusal("MessageNotFound", 6, 7),
    refusal("MessageFoundMoreThanOnce", 7, 8),
    refusal("UnknownFieldName", 8, 9),
    refusal("BuiltinOptionNotFound", 9, 10),
    refusal("BuiltinOptionPointsToNonSingularField", 10, 10, 1),
    refusal("MessageFieldRequiresMessageConstant", 11, 11),
    refusal("UnsupportedExtensionType", 12, 12),
    refusal("UnknownEnumValue", 13, 13),
    refusal("ValueRange", 14, 14),
    refusal("StrLitDecodeError", 15, 15),
    refusal("RangeEnd", 16, 16),
    refusal("NoRoom", 17, 17),
    refusal("BadBytes", 18, 18),
    refusal("WireMismatch", 19, 19),
    # bytes as digits: both cases of `glyph` and a digit 0 in either place
    printed("printed ", "12079abcdef0"),
]


def main():
    for example in CASES:
        digits = example.hex()
        for i in range(0, len(digits), WIDTH):
            print(digits[i : i + WIDTH])


if __name__ == "__main__":
    main()
