"""Requests for compare/resolve.py, drawn from a plan of sheets.py, so that most of them go some way; and the cases, sheets with their
requests.
"""
import struct

import figures
import form
from sheets import FIELDS, Plan, crossed, dotted, f, rnd, spoiled
from steps import BOOL, CONSTANTS, FIELD_OPTIONS, FLOAT, HOLDS, IDENT, LIST, MESSAGE, SIGNED, STRING, UNSIGNED


# ---- constants
PLAIN = [0.0, -0.0, 1.5, -2.25, 0.1, -0.1, 3.0, 255.0, 1e30, -1e30, 16777217.0, 2.0**63, 2.0**64, float("inf"), float("-inf")]
NANS = [0x7FF8000000000000, 0xFFF8000000000000, 0x7FF0000000000001, 0xFFF0000000000001, 0x7FFFFFFFFFFFFFFF, 0x7FF0000020000000]
TEXTS = [b"", b"a", b"order 7", "gr\u00fcn".encode(), "\u20ac 5".encode(), "\U0001f69a".encode(), b"\0", b"\x7f", "\u07ff\uffff".encode(),
         "\ue000\ud7ff\U0010ffff".encode()]
NO_TEXTS = [b"\xff", b"\x80", b"a\xc0\x80", b"\xc1\xbf", b"\xe0\x9f\xbf", b"\xf0\x8f\xbf\xbf", b"\xed\xa0\x80", b"\xed\xbf\xbf",
            b"\xf4\x90\x80\x80", b"\xf5\x80\x80\x80", b"\xe2\x82", b"b\xf0\x9f\x98", b"\xc3", b"\xc3(", b"\xe2(\xa1"]


def bits_of(value):
    return int.from_bytes(struct.pack(">d", value), "big")


def float_bits():
    how = rnd.random()
    if how < 0.3:
        return bits_of(rnd.choice(PLAIN))
    if how < 0.65:
        # a float, or the middle between two, or just beside the middle; subnormal ones and the greatest too
        near = rnd.choice((rnd.randrange(0x7F800000), rnd.randrange(0x01000000), 0x7F7FFFFF, 0, 0x007FFFFF))
        low, high = struct.unpack(">f", struct.pack(">I", near))[0], near + 1
        high = 2.0**128 if high == 0x7F800000 else struct.unpack(">f", struct.pack(">I", high))[0]
        bits = bits_of(rnd.choice((low, (low + high) / 2, (low + high) / 2)))
        return max(0, bits + rnd.choice((-1, 0, 0, 1))) | rnd.choice((0, 1 << 63))
    if how < 0.68:
        return rnd.choice(NANS)
    if how < 0.8:
        return rnd.choice((0x7FEFFFFFFFFFFFFF, 1, 0x000FFFFFFFFFFFFF, 0x0010000000000000, 0x3690000000000000, 0x3690000000000001))
    return rnd.getrandbits(64)


def middle():
    """The middle between two floats or two doubles, or just beside it, where two roundings would not be as one."""
    width = rnd.choice((24, 24, 53))
    more = rnd.choice((1, 63 - width, 64 - width, rnd.randint(1, 64 - width)))
    return rnd.choice((1, 1, -1)) * ((rnd.getrandbits(width) << more) + (1 << more - 1) + rnd.choice((-1, 0, 1, 1)))


def integer(n=None):
    if n is None:
        how = rnd.random()
        if how < 0.3:
            n = rnd.choice((0, 1, -1, 7, 127, 128, 300, 16383, 16384, -2))
        elif how < 0.6:
            n = rnd.choice((2**24, 2**53, 2**31, 2**32, 2**63, 2**64)) + rnd.choice((-2, -1, 0, 1, 2, 3))
        else:
            n = rnd.getrandbits(rnd.randint(1, 64)) * rnd.choice((1, -1))
    if n > 2**64 - 1 or n < -(2**63):
        n = 2**64 - 1 if n > 0 else -(2**63)
    tag = SIGNED if n < 0 else UNSIGNED if n >= 2**63 else rnd.choice((SIGNED, UNSIGNED))
    return f(tag, struct.pack(">Q" if tag == UNSIGNED else ">q", n))


def integer_for(kind):
    low, high = HOLDS[kind]
    if rnd.random() < 0.35:
        return integer(rnd.choice((low, high, low, high, low - 1, high + 1)))
    if rnd.random() < 0.3:
        return integer(rnd.choice((0, 1, 7, 127, 128, 300, low + 1, high - 1, rnd.randint(low, high))))
    return integer(max(low, rnd.choice((1, 1, -1)) * rnd.getrandbits(rnd.randint(1, high.bit_length()))))


def text():
    how = rnd.random()
    if how < 0.5:
        return rnd.choice(TEXTS)
    if how < 0.75:
        return rnd.choice(TEXTS) + rnd.choice(TEXTS) + rnd.choice(TEXTS)
    if how < 0.78:
        return rnd.choice((b"a", "\u20ac".encode())) * rnd.choice((42, 43, 127, 128, 200))
    return rnd.choice(TEXTS) + rnd.choice(NO_TEXTS) + rnd.choice((b"", b"z"))


def ident(plan, path):
    enum = plan.enums.get(path)
    if enum and enum.values and rnd.random() < 0.85:
        return f(IDENT, rnd.choice(enum.values)[0])
    return f(IDENT, rnd.choice((b"NONE", b"A", b"true", b"inf", b"a" * 64)))


def constant(plan, tag, kind, path, depth):
    """A constant of that tag, for a declaration of this type where it can be."""
    if tag == BOOL:
        return f(BOOL, bytes([rnd.randrange(2)]))
    if tag in (UNSIGNED, SIGNED):
        n = rnd.getrandbits(rnd.choice((1, 7, 16, 31, 32, 33, 63, 64)))
        return f(tag, struct.pack(">Q", n)) if tag == UNSIGNED or n < 2**63 else f(tag, struct.pack(">q", n - 2**64))
    if tag == FLOAT:
        return f(FLOAT, struct.pack(">Q", float_bits()))
    if tag == STRING:
        return f(STRING, text())
    if tag == IDENT:
        return ident(plan, path)
    if tag == LIST:
        many = rnd.choice((0, 1, 1, 2, 3)) if depth > 1 else 0
        return f(LIST, b"".join(value(plan, kind, path, depth - 1) for _ in range(many)))
    return pairs(plan, path, depth)


def value(plan, kind, path, depth):
    """A constant that fits, mostly; else any."""
    if depth < 1:
        return f(BOOL, b"\1")
    if rnd.random() < 0.07:
        return constant(plan, LIST, kind, path, depth)
    if rnd.random() < 0.06 or kind == 10:
        return constant(plan, rnd.choice(CONSTANTS), kind, path, depth)
    if kind in HOLDS:
        return integer_for(kind)
    if kind in (1, 2):
        how = rnd.random()
        return integer(middle()) if how < 0.35 else integer() if how < 0.55 else constant(plan, FLOAT, kind, path, depth)
    return constant(plan, {8: BOOL, 9: STRING, 12: STRING, 14: IDENT, 11: MESSAGE}[kind], kind, path, depth)


def url():
    if rnd.random() < 0.1:
        return rnd.choice((b"/", b"\xff", b"a" * 255, b"a b", b"."))
    return rnd.choice((b"t.co/o.F", b"type.googleapis.com/a.b.M", b"a/b"))


def pairs(plan, path, depth):
    """A message constant, its fields mostly of different names."""
    message, out, left = plan.messages.get(path), b"", None
    if message:
        left = message.fields[:]
        rnd.shuffle(left)
    for _ in range(rnd.choice((0, 1, 1, 2, 2, 3)) if depth > 1 else 0):
        how = rnd.random()
        if how < 0.1:
            out += f(0x28, rnd.choice((b"x", b"a.b", b"plant.order"))) + any_constant(plan, depth - 1)
        elif how < 0.2:
            out += f(0x29, url()) + any_constant(plan, depth - 1)
        elif how < 0.23 or not left:
            out += f(0x27, rnd.choice((b"none", b"a", b"v"))) + value(plan, rnd.choice((5, 8, 9)), None, depth - 1)
        else:
            declared = left[-1] if rnd.random() < 0.03 else left.pop()
            out += f(0x27, declared.name) + value(plan, declared.kind, declared.path, depth - 1)
    return f(MESSAGE, out)


def any_constant(plan, depth):
    if depth < 1:
        return f(BOOL, b"\0")
    return constant(plan, rnd.choice(CONSTANTS), rnd.choice((5, 8, 9)), None, min(depth, 3))


def deep_constant(plan, declared, depth):
    """A constant of just this depth: through the message that holds itself where there is one, else in lists."""
    kind, path, out = declared.kind, declared.path, None
    message = plan.messages.get(path)
    if kind == 11 and message and rnd.random() < 0.9:
        back = [d for d in message.fields if d.kind == 11 and d.path == path]
        if back and depth > 1:
            inner = deep_constant(plan, back[0], depth - 1)
            return f(LIST, inner) if depth > 2 and rnd.random() < 0.1 else f(MESSAGE, f(0x27, back[0].name) + inner)
        out = f(MESSAGE)
    out = out or value(plan, kind, path, 1)
    for _ in range(depth - 1):
        out = f(LIST, out)
    return out


# ---- requests
def spelled(full, scope):
    """An extension's name as a request may write it: absolute, or what is left of it after a parent of the scope."""
    if rnd.random() < 0.3:
        return b"." + dotted(full)
    common = 0
    while common < min(len(scope), len(full) - 1) and scope[common] == full[common]:
        common += 1
    cut = common if rnd.random() < 0.7 else rnd.randrange(len(full))
    return dotted(full[cut:])


def stray_part(plan):
    if rnd.random() < 0.5:
        return f(0x1A, rnd.choice(FIELDS + [b"none"]))
    return f(0x1B, rnd.choice((b"none", b".none", b".a.none", rnd.choice(plan.names), dotted(plan.scopes[-1]) or b"o")))


def name(plan, scope, wanted):
    """Parts that go from the options type inwards, and the declaration that they end at, where the plan knows it."""
    here, parts, deep = plan.kind, b"", 0
    while True:
        last = deep + 1 >= wanted
        choices = [(None, d) for d in plan.messages[here].fields if here in plan.messages and (deep or not last)]
        choices += plan.on.get(here, [])
        if not last and rnd.random() < 0.8:
            choices = [c for c in choices if c[1].kind == 11] or choices
        if not choices or rnd.random() < 0.02:
            return parts + stray_part(plan), None
        outer, declared = rnd.choice(choices)
        if outer is None and rnd.random() < 0.02:
            outer = here
        if rnd.random() < 0.03 and plan.extensions:
            outer, declared = rnd.choice(plan.extensions)
        parts += f(0x1A, declared.name) if outer is None else f(0x1B, spelled(outer + (declared.name,), scope))
        deep += 1
        if last and rnd.random() < 0.96:
            return parts, declared
        if declared.kind != 11 or declared.path not in plan.messages or last:
            if deep < 16 and rnd.random() < 0.5:
                parts += stray_part(plan)
            return parts, declared
        here = declared.path


def builtin(plan):
    message = plan.messages.get(plan.kind)
    how = rnd.random()
    if plan.kind == FIELD_OPTIONS and how < 0.15 or how < 0.02:
        part = rnd.choice((b"default", b"json_name"))
        return f(0x1A, part) + any_constant(plan, 3)
    if not message or not message.fields or how < 0.04:
        return f(0x1A, rnd.choice(FIELDS + plan.names)) + any_constant(plan, 2)
    good = [d for d in message.fields if d.label != 3 and d.kind in (8, 9, 14)]
    declared = rnd.choice(good if good and rnd.random() < 0.85 else message.fields)
    if declared in good and rnd.random() < 0.9:
        return f(0x1A, declared.name) + constant(plan, {8: BOOL, 9: STRING, 14: IDENT}[declared.kind], declared.kind, declared.path, 2)
    return f(0x1A, declared.name) + constant(plan, rnd.choice(CONSTANTS), declared.kind, declared.path, 3)


def option(plan, scope):
    if rnd.random() < 0.25:
        return f(8, builtin(plan))
    wanted = rnd.choice((1, 1, 1, 2, 2, 3)) if rnd.random() < 0.92 else rnd.randint(4, 16)
    parts, declared = name(plan, scope, wanted)
    if declared is None:
        return f(8, parts + any_constant(plan, 3))
    if rnd.random() < 0.04:
        return f(8, parts + deep_constant(plan, declared, rnd.choice(list(range(2, 17)) * 6 + [17])))
    if rnd.random() < 0.13:
        return f(8, parts + constant(plan, rnd.choice(CONSTANTS), declared.kind, declared.path, 4))
    return f(8, parts + value(plan, declared.kind, declared.path, rnd.choice((2, 3, 4, 6))))


def scope_of(plan):
    scope = rnd.choice(plan.scopes) if rnd.random() < 0.7 or not plan.extensions else rnd.choice(plan.extensions)[0]
    if rnd.random() < 0.06:
        scope = max(plan.messages, key=len)
    if rnd.random() < 0.08:
        scope += tuple(rnd.choice(plan.words + [b"Other"]) for _ in range(rnd.choice((1, 1, 2))))
    return scope


def sure_option(plan, scope):
    """An option that is not refused, mostly: a builtin of a matching constant, or a scalar extension."""
    good = [d for d in plan.messages[plan.kind].fields if d.label != 3 and d.kind in (8, 9, 14)]
    if good and rnd.random() < 0.8:
        declared = rnd.choice(good)
        if declared.kind == 9:
            return f(8, f(0x1A, declared.name) + f(STRING, rnd.choice(TEXTS)))
        if declared.kind == 14:
            return f(8, f(0x1A, declared.name) + ident(plan, declared.path))
        return f(8, f(0x1A, rnd.choice([d for d in good if d.kind == 8] or good).name) + f(BOOL, bytes([rnd.randrange(2)])))
    sure = [(outer, d) for outer, d in plan.on.get(plan.kind, []) if d.kind in HOLDS]
    if not sure:
        return option(plan, scope)
    outer, declared = rnd.choice(sure)
    return f(8, f(0x1B, b"." + dotted(outer + (declared.name,))) + integer(rnd.randrange(128)))


def long_request(plan):
    """Many options that go well: builtins are set again and again, in any order."""
    scope, many = scope_of(plan), rnd.choice((6, 10, 20, 40, 80, 127, 128, 128, 129))
    return f(0x18, dotted(scope)) + f(0x19, dotted(plan.kind)) + b"".join(sure_option(plan, scope) for _ in range(many))


# ---- requests that are refused further on
def way(plan, wanted):
    """Parts that go from a message into the next, so many or as many as the plan has, and the message that they lead to."""
    here, parts = plan.kind, []
    while len(parts) < wanted:
        choices = [(None, d) for d in plan.messages[here].fields] + plan.on.get(here, [])
        choices = [(outer, d) for outer, d in choices if d.kind == 11 and d.path in plan.messages]
        if not choices:
            break
        outer, declared = rnd.choice(choices)
        parts.append(part(outer, declared))
        here = declared.path
    return parts, here


def part(outer, declared):
    return f(0x1A, declared.name) if outer is None else f(0x1B, b"." + dotted(outer + (declared.name,)))


def misfit(plan, kind):
    """A constant that a declaration of this type does not take."""
    if kind in HOLDS and rnd.random() < 0.6:
        low, high = HOLDS[kind]
        return integer(rnd.choice((low - 1, high + 1)))
    if kind in (9, 14) and rnd.random() < 0.6:
        return f(STRING, rnd.choice(NO_TEXTS)) if kind == 9 else f(IDENT, b"NONE")
    if kind == 11 and rnd.random() < 0.5:
        return f(MESSAGE, f(0x27, b"none") + f(BOOL, b"\1"))
    return constant(plan, rnd.choice(CONSTANTS), kind, None, 2)


def deep_misfit(plan, kind, path, depth):
    """A misfit so deep in lists and, on a message, in pairs, behind constants that fit, mostly."""
    if depth < 2:
        return misfit(plan, kind)
    message = plan.messages.get(path) if kind == 11 else None
    if not message or not message.fields or rnd.random() < 0.25:
        return f(LIST, (value(plan, kind, path, 2) if rnd.random() < 0.3 else b"") + deep_misfit(plan, kind, path, depth - 1))
    inner = [d for d in message.fields if d.kind == 11]
    declared, before = rnd.choice(inner if inner and depth > 2 else message.fields), b""
    if rnd.random() < 0.3:
        first = rnd.choice(message.fields)
        before = f(0x27, first.name) + value(plan, first.kind, first.path, 2)
    return f(MESSAGE, before + f(0x27, declared.name) + deep_misfit(plan, declared.kind, declared.path, depth - 1))


def bent(plan):
    """An option that is refused, mostly, and not at its first part: at one behind which others stand, at one that goes no further, or for a
    constant deep inside."""
    parts, here = way(plan, rnd.choice((0, 1, 1, 2, 2, 2, 3, 3, 4, 6, 10)))
    more, how = b"".join(rnd.choice(parts or [stray_part(plan)]) for _ in range(rnd.choice((0, 1, 2)))), rnd.random()
    ends = [(None, d) for d in plan.messages[here].fields if parts] + plan.on.get(here, [])
    if how < 0.3 or not ends:
        return f(8, b"".join(parts) + stray_part(plan) + more + any_constant(plan, 2))
    outer, declared = rnd.choice(ends)
    parts.append(part(outer, declared))
    if how < 0.5:
        return f(8, b"".join(parts) + (more or stray_part(plan)) + any_constant(plan, 2))
    return f(8, b"".join(parts) + deep_misfit(plan, declared.kind, declared.path, rnd.choice((1, 1, 2, 2, 3, 4, 5, 7))))


def late_request(plan):
    """Options that go well, behind them one that does not, mostly, and then others."""
    scope, many = scope_of(plan), rnd.choice((0, 0, 1, 1, 2, 2, 3, 4, 8))
    options = [sure_option(plan, scope) for _ in range(many)]
    options.append(bent(plan) if rnd.random() < 0.75 else f(8, builtin(plan)) if rnd.random() < 0.5 else option(plan, scope))
    options += [option(plan, scope) for _ in range(rnd.choice((0, 0, 1, 2)))]
    return f(0x18, dotted(scope)) + f(0x19, dotted(plan.kind)) + b"".join(options)


def request(plan):
    scope = scope_of(plan)
    many = rnd.choice((1,) * 12 + (2, 2, 2, 3, 3, 4)) if rnd.random() < 0.97 else rnd.choice((0, 0, 5, 9, 14))
    kind = plan.kind
    if rnd.random() < 0.015:
        kind = rnd.choice((kind + (b"none",), (b"none",), kind[:-1] or (b"o",), rnd.choice(plan.scopes) or (b"o",)))
    return f(0x18, dotted(scope)) + f(0x19, dotted(kind)) + b"".join(option(plan, scope) for _ in range(many))


# ---- cases
def of_plan():
    """What kind of a case it is, a sheet, and its requests."""
    how = rnd.random()
    if how < 0.50:
        plan, what = Plan(), "own options type"
    elif how < 0.72:
        plan, what = Plan(google=True), "descriptor.proto's"
    elif how < 0.84:
        plan, what = Plan(google=rnd.random() < 0.2, wide=True), "every type"
    elif how < 0.89:
        plan, what = crossed(Plan(google=rnd.random() < 0.2)), "names of extensions meet"
    elif how < 0.94:
        plan, what = spoiled(Plan(google=rnd.random() < 0.1)), "not clean"
    else:
        plan, what = Plan(google=rnd.random() < 0.05), "malformed"
    queries = [request(plan) for _ in range(8)] + [late_request(plan)]
    if rnd.random() < 0.06:
        queries.append(long_request(plan))
    if what == "malformed" and rnd.random() < 0.3:
        return what, form.broken(plan.data), queries[:3]
    return what, plan.data, [form.broken(q) for q in queries] if what == "malformed" else queries


def cases():
    """Without end, those at the figures among them."""
    while True:
        for sheet, query in figures.limits():
            yield "limit", sheet, [query]
        for _ in range(2500):
            yield of_plan()
