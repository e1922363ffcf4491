"""Small pairs of sheets for compare/evolve.py, of what is seldom drawn: one number read by another declaration, names that meet, paths to
nothing, the longest names, faults on both sides.
"""
from examples import F, asked, enum, ext, field, file, message, opt, s, u
from sheets import f

LONG = ".".join(["a" * 63] * 4)


def edges():
    """(older, newer, request or None)"""
    x, y, plain = ext("x", 5), ext("y", 5, 9), asked(opt("(x)", u(7)))
    f_twice = file("o", message("F")) + F
    sheet = {name: file("p", *items) + F for name, items in {
        "x": (x,), "y": (y,), "x as string": (ext("x", 5, 9),), "both": (x, y), "none": (),
        "x as message": (ext("x", 5, 11, "p.M"), message("M")), "x to nowhere, y": (ext("x", 5, 11, "p.M"), y),
        "x as message, y": (ext("x", 5, 11, "p.M"), y, message("M")), "x of two, y": (ext("x", 5, 11, "p.M"), y, message("M")),
    }.items()}
    sheet["x of two, y"] += file("p", message("M"))
    # what the newer wrote by one declaration is read by another: refused 19, 18, 7, 8, on either side
    text = asked(opt("(y)", s("a")))
    for name in ("both", "x as message, y", "x to nowhere, y", "x of two, y"):
        for older in (sheet[name], sheet["y"], sheet["x"], sheet["none"]):
            yield older, sheet[name], text
        yield sheet[name], sheet["y"], text
    for older in ("x", "x as string", "x as message", "none"):
        for newer in ("x", "x as string"):
            yield sheet[older], sheet[newer], asked(opt("(x)", s(b"\x08\x01") if "string" in newer else u(7)))
    # nothing in a sheet, no such options type, and it is there twice
    for older, newer in ((b"", b""), (b"", sheet["x"]), (sheet["x"], b""), (f_twice, sheet["x"]), (file("p", x), sheet["x"])):
        yield older, newer, plain
        yield older, newer, asked()
    # one full name by two packages; in a message that no path leads to; a package and a message may share a name
    nested = message("b", message("C", ext("y", 6)))
    others = (message("C"), enum("C", A=1), ext("C", 7), b"")
    for other in [file("a.b", item) for item in others] + [file("a.b.C", ext("y", 8))]:
        for first, second in ((file("a", nested), other), (other, file("a", nested))):
            yield sheet["x"] + first + second, sheet["x"] + second, plain
            yield sheet["x"] + second, sheet["x"] + first + second, plain
    again = file("o", message("F", field("a", 1)), message("F", field("a", 1), field("a", 2), ext("x", 5)))
    yield again, again, plain
    yield again, sheet["x"], plain
    # extensions of a message that is not declared, and of an enum
    for of in ("none", "p.E", "p.x"):
        alone = file("p", ext("x", 5, on=of), ext("y", 5, on=of), enum("E", A=1, B=1)) + F
        yield alone, alone, None
        yield alone, file("q", ext("y", 5, on=of), message("x", ext("x", 5, on=of))), None
    # the longest names: 16 messages of 64 bytes in a package of 255, and paths of 255
    deepest = enum("E" * 64, **{"A" * 64: 1}) + enum("D", A=1) + ext("x" * 64, 5, 11, LONG, on=LONG) + ext("z" * 64, 6)
    other = enum("E" * 64) + f(4, f(0x11, b"D") + f(6, f(0x11, b"A" * 64) + f(0x17, bytes(4))) * 2) + message("x" * 64, field("v" * 64, 1))
    for inside in (deepest, other, b""):
        held = [inside]
        for _ in range(16):
            held.append(message("M" * 64, held[-1]))
        for other_held in (deepest, b""):
            yield file(LONG, held[16]) + sheet["x"], file(LONG, held[15] + other_held) + sheet["x"], plain
            yield file(LONG, held[15] + other_held) + sheet["x"], file(LONG, held[16]) + sheet["x"], plain
    # faults on both sides: the older's is answered
    for older, newer in ((b"\1", bytes(32769)), (bytes(32769), b"\1"), (b"\1", sheet["x"]), (sheet["x"], bytes(32769))):
        yield older, newer, plain
        yield older, newer, b"\1"
        yield older, newer, None
    yield sheet["x"], sheet["x"], b"\1"
