"""The cases at each figure of "Most allowed", and one past it, for compare/resolve.py."""
from sheets import Declared, Enum, Message, f
from steps import BOOL, IDENT, LIST, MESSAGE, STRING, UNSIGNED


def filled(make, size):
    """make(n) grows a byte with n: the one that has this size."""
    return make(size - len(make(0)))


def one_file(inside, more=b""):
    """Package p with `x` (bytes, number 5), `u` (uint32, 6), `e` (enum, 536870911), `m` (message R, 7) of o.F; R holds itself as `r`."""
    declared = [Declared(b"x", 5, 12, 1, None, (b"o", b"F")), Declared(b"u", 6, 13, 1, None, (b"o", b"F")),
                Declared(b"e", 536870911, 14, 3, (b"p", b"E"), (b"o", b"F")), Declared(b"m", 7, 11, 1, (b"p", b"R"), (b"o", b"F"))]
    back = Message(b"R", (b"p", b"R"))
    back.fields = [Declared(b"r", 1, 11, 1, (b"p", b"R")), Declared(b"b", 2, 8, 1), Declared(b"e", 536870911, 14, 3, (b"p", b"E"))]
    first = f(1, f(0x10, b"p") + inside + back.encoded(None) + Enum(b"E", [(b"N", -1)]).encoded() + b"".join(d.encoded() for d in declared))
    return first + f(1, f(0x10, b"o") + f(2, f(0x11, b"F"))) + more


def small_messages(n):
    """Messages of different names in just n bytes, n at least 20."""
    out, i = b"", 0
    while n - len(out) >= 30:
        out += f(2, f(0x11, b"N%04d" % i))
        i += 1
    left = n - len(out) - 6
    return out + f(2, f(0x11, b"L" * left))


def asked(options, scope=b"p"):
    return f(0x18, scope) + f(0x19, b"o.F") + options


def u7(name=b"u"):
    return f(8, f(0x1B, name) + f(UNSIGNED, bytes(7) + b"\7"))


def listed(n, inside):
    for _ in range(n):
        inside = f(LIST, inside)
    return inside


def nested(n, inside):
    for _ in range(n):
        inside = f(MESSAGE, f(0x27, b"r") + inside)
    return inside


def limits():
    """(sheet, request) at each figure and one past it."""
    sheet = one_file(b"")
    for size in (32768, 32769):
        yield one_file(small_messages(size - len(sheet))), asked(u7())
    yield bytes(32769), asked(u7())
    for size in (8192, 8193):
        yield sheet, filled(lambda n: asked(f(8, f(0x1B, b"x") + f(STRING, b"\xff" * n))), size)
    for many in (1, 2, 128, 129):
        yield sheet, asked(u7() * many)
    yield sheet, asked(f(8, f(0x1A, b"none") + f(BOOL, b"\1")) * 129)
    for files in (7, 8, 9):
        yield one_file(b"", f(1, f(0x10, b"q")) * (files - 2)), asked(u7())
    for deep in (15, 16, 17):
        inside = Declared(b"x", 100, 13, 1, None, (b"o", b"F")).encoded()
        for i in range(deep):
            inside = f(2, f(0x11, b"D%d" % (deep - i)) + inside)
        yield one_file(inside), asked(u7(b"x"), b".".join([b"p"] + [b"D%d" % (i + 1) for i in range(deep)]))
    for parts in (2, 15, 16, 17):
        yield sheet, asked(f(8, f(0x1B, b"m") + f(0x1A, b"r") * (parts - 2) + f(0x1A, b"b") + f(BOOL, b"\1")))
        yield sheet, asked(f(8, f(0x1B, b"m") + f(0x1A, b"r") * (parts - 1) + f(MESSAGE)))
    for deep in (15, 16, 17):
        yield sheet, asked(f(8, f(0x1B, b"m") + nested(deep - 1, f(MESSAGE))))
        yield sheet, asked(f(8, f(0x1B, b"m") + nested(deep - 2, f(MESSAGE, f(0x27, b"b") + f(BOOL, b"\1")))))
        yield sheet, asked(f(8, f(0x1B, b"u") + listed(deep - 1, f(UNSIGNED, bytes(7) + b"\7"))))
        yield sheet, asked(f(8, f(0x1B, b"u") + listed(deep, b"")))
        yield sheet, asked(f(8, f(0x1B, b"m") + f(MESSAGE, f(0x28, b"x") + listed(deep - 2, f(BOOL, b"\1")))))
    for size in (127, 128, 4000):
        yield sheet, asked(f(8, f(0x1B, b"x") + f(STRING, bytes(size))))
    # as many bytes as a request of 8,192 bytes can be answered with, and in one record
    for parts in (f(0x1B, b"e"), f(0x1B, b"m") + f(0x1A, b"e")):
        yield sheet, asked(f(8, parts + f(LIST, f(IDENT, b"N") * ((8192 - len(asked(f(8, parts + f(LIST))))) // 4))))
    # a length of three bytes
    yield sheet, asked(f(8, f(0x1B, b"m") + f(0x1A, b"e") + f(LIST, f(IDENT, b"N") * 1100)))
    for size in (255, 256):
        long = b".".join([b"a" * 63] * 4)[: size - 1] + (b"" if size < 256 else b"a")
        yield sheet, asked(u7(b"." + long))
        yield sheet, asked(u7(), long[: size - 1] + b"b")
    long = b".".join([b"a" * 63] * 4)
    yield f(1, f(0x10, long) + Declared(b"x", 9, 13, 1, None, (b"o", b"F")).encoded()) + one_file(b""), asked(u7(b"x"), long)
