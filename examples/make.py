#!/usr/bin/env python3
"""The inputs of this folder: one story, the (order) option of examples/order.proto. Writes them anew; run it from the root."""
import struct


def f(tag, payload):
    return bytes([tag]) + struct.pack(">H", len(payload)) + payload


def lines(*fields):
    return "".join(x.hex().upper() + "\n" for x in fields)


def laid(data, depth=0):
    """A field a line, what it holds below it and further in: for a reader. A program passes over blanks."""
    out = ""
    while data:
        size = int.from_bytes(data[1:3], "big")
        payload, data, head = data[3 : 3 + size], data[3 + size :], data[:3].hex().upper()
        inner = head[:2] in ("40", "41", "01", "02", "03", "08")
        out += "  " * depth + head[:2] + " " + head[2:] + ("\n" if inner else " " + payload.hex().upper() + "\n")
        out += laid(payload, depth + 1) if inner else ""
    return out


FIELD, MESSAGE = b"google.protobuf.FieldOptions", b"google.protobuf.MessageOptions"


def shape(number, kind=13, path=b""):
    return f(0x13, struct.pack(">I", number)) + f(0x14, bytes([kind])) + f(0x15, b"\x01") + (f(0x16, path) if path else b"")


def order(number, on=FIELD):
    return f(0x03, f(0x11, b"order") + f(0x12, on) + shape(number))


def words(*ws):
    return b"".join(struct.pack(">i", w) for w in ws)


# order.proto as a sheet, and the file that declares the options type
PLANT = f(0x01, f(0x10, b"plant") + order(50001) + f(0x02, f(0x11, b"Dispatch") + order(50002)))
OPTIONS = f(0x01, f(0x10, b"google.protobuf") + f(0x02, f(0x11, b"FieldOptions")))
SHEET = f(0x40, PLANT + OPTIONS)
SCOPE = f(0x42, b"plant.Dispatch")

# the same, but Dispatch's own is one of messages: extend google.protobuf.MessageOptions { optional uint32 order = 50002; }
MISTAKEN = f(0x01, f(0x10, b"plant") + order(50001) + f(0x02, f(0x11, b"Dispatch") + order(50002, MESSAGE)))
BOTH = f(0x01, f(0x10, b"google.protobuf") + f(0x02, f(0x11, b"FieldOptions")) + f(0x02, f(0x11, b"MessageOptions")))
MISTAKEN_SHEET = f(0x40, MISTAKEN + BOTH)


def seven(name):
    """[(NAME) = 7] on a field of Dispatch, as a request"""
    option = f(0x08, f(0x1B, name) + f(0x21, struct.pack(">Q", 7)))
    return f(0x41, f(0x18, b"plant.Dispatch") + f(0x19, FIELD) + option)


REQUEST = seven(b"order")


# option bytes: Dispatch's own is 7, the fleet's is 3, and a number that this schema does not declare is 1
TYPE = f(0x44, FIELD)
BYTES = f(0x45, bytes.fromhex("90B51807 88B51803 98B51801"))
SETPOINT = f(0x45, bytes.fromhex("90B51807"))  # what lower.hex answers first


def asked(name):
    """(NAME), as a name of its own"""
    return f(0x46, f(0x1B, name))


# A year on. What an old device has is order.proto's and
#   message Limits { uint32 low = 1; }
#   extend google.protobuf.FieldOptions { optional Limits limits = 50003; }
# and what a new one has is that and a field and an option more:
#   message Limits { uint32 low = 1; uint32 high = 2; }
#   extend google.protobuf.FieldOptions { optional string unit = 50004; }
def fleet(*fields, more=b""):
    limits = f(0x02, f(0x11, b"Limits") + b"".join(f(0x05, f(0x11, name) + shape(n + 1)) for n, name in enumerate(fields)))
    limits += f(0x03, f(0x11, b"limits") + f(0x12, FIELD) + shape(50003, 11, b"plant.Limits"))
    return f(0x01, f(0x10, b"plant") + order(50001) + f(0x02, f(0x11, b"Dispatch") + order(50002)) + limits + more) + OPTIONS


def whole(n):
    return f(0x21, struct.pack(">Q", n))


OLDER = f(0x40, fleet(b"low"))
NEWER = f(0x40, fleet(b"low", b"high", more=f(0x03, f(0x11, b"unit") + f(0x12, FIELD) + shape(50004, 9))))
# [(order) = 7, (unit) = "kW", (limits) = {low: 1, high: 5}] on a field of Dispatch, by the new device
LIMITS = f(0x26, f(0x27, b"low") + whole(1) + f(0x27, b"high") + whole(5))
SET = f(0x08, f(0x1B, b"order") + whole(7)) + f(0x08, f(0x1B, b"unit") + f(0x24, b"kW")) + f(0x08, f(0x1B, b"limits") + LIMITS)
A_YEAR_ON = f(0x41, f(0x18, b"plant.Dispatch") + f(0x19, FIELD) + SET)


FILES = {
    # (order), (.plant.order), and (order) where Dispatch's own is none of fields
    "lower.hex": laid(SHEET + REQUEST) + laid(SHEET + seven(b".plant.order")) + laid(MISTAKEN_SHEET + REQUEST),
    "find.hex": lines(SHEET, SCOPE + f(0x43, b"order"), SHEET, SCOPE + f(0x43, b".plant.order")),
    "check.hex": lines(SHEET, REQUEST),
    "list.hex": lines(SHEET, TYPE, BYTES),
    # what the old device lists of the new one's bytes
    "evolve.hex": lines(OLDER, NEWER, A_YEAR_ON),
    # (plant.order) in all of them, and where only Dispatch's own is set
    "query.hex": lines(SHEET, TYPE, asked(b"plant.order"), BYTES, SHEET, TYPE, asked(b"plant.order"), SETPOINT),
    # reserved 100 to 199, 300, 1000 to max; of a message
    "ranges.hex": lines(f(0x47, words(1)), f(0x48, words(100, 199, 300, 300, 1000, 536870911))),
    # setpoint, optional ramp, oneof source { packet, queue }, backup
    # in order of declaration, and with the oneof of the optional field last
    "oneofs.hex": lines(f(0x49, words(0, 1, 2, 3, 3, 0)), f(0x47, words(1)), f(0x49, words(0, 1, 2, 3, 3, 0))),
}

for name, text in FILES.items():
    open("examples/" + name, "w").write(text)
