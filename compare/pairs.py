"""Pairs of sheets for compare/evolve.py, an older and a newer one, and requests for the newer.

A pair is a plan of sheets.py and a twin of it with things left out, clean and contained; or such a pair with a change to one side, most of
which take cleanness or containment away; or two that have nothing in common; or damaged. Everything is drawn from sheets.rnd, which the
caller seeds.
"""
import copy

import figures
import form
import option_bytes
import queries
import sheets
import steps
from pair_edges import edges
from sheets import KINDS, LABELS, VALUES, Declared, Enum, Message, Plan, dotted, f, rnd


# ---- plans
def copied(scope):
    out = Message(scope.name, scope.full)
    out.messages = [copied(inner) for inner in scope.messages]
    out.extensions, out.fields = ([copy.copy(d) for d in some] for some in (scope.extensions, scope.fields))
    out.enums = [Enum(enum.name, enum.values[:]) for enum in scope.enums]
    return out


def twin(plan):
    """The same plan, of declarations of its own."""
    out = copy.copy(plan)
    out.files = [copied(file) for file in plan.files]
    return reread(out)


def scopes(files):
    for scope in files:
        yield scope
        yield from scopes(scope.messages)


def reread(plan):
    """What a plan says of its files, after these were changed. The options type stays, so that requests can be drawn."""
    plan.messages, plan.enums, plan.on, plan.numbers, plan.extensions = {}, {}, {}, {}, []
    for scope in scopes(plan.files):
        if scope.name is not None:
            plan.messages.setdefault(scope.full, scope)
        for enum in scope.enums:
            plan.enums.setdefault(scope.full + (enum.name,), enum)
        for declared in scope.extensions:
            plan.extensions.append((scope.full, declared))
            plan.on.setdefault(declared.extendee, []).append((scope.full, declared))
        for declared in scope.fields + scope.extensions:
            plan.numbers.setdefault(declared.extendee or scope.full, set()).add(declared.number)
    plan.taken = set(plan.messages) | set(plan.enums) | {outer + (d.name,) for outer, d in plan.extensions}
    plan.messages.setdefault(plan.kind, Message(plan.kind[-1], plan.kind))
    return plan


def some_plan():
    plan = Plan(google=rnd.random() < 0.15, wide=rnd.random() < 0.2)
    if rnd.random() < 0.6:
        # more inside messages, and more of them on the options type
        for path, message in plan.messages.items():
            if plan.own(path):
                plan.field(message, b"inner", rnd.choice((11, 11, 14)))
                plan.field(message, b"more")
        for name in (b"first", b"second"):
            plan.extension(plan.place(), plan.kind, rnd.choice((11, 11, None)), name)
    return plan


def cut(plan):
    """The plan with things left out, so that what is left is clean and contained in it."""
    rate = rnd.choice((0.05, 0.2, 0.2, 0.4, 0.7))

    def some(of):
        return [x for x in of if rnd.random() > rate]

    for scope in scopes(plan.files):
        scope.fields, scope.extensions = some(scope.fields), some(scope.extensions)
        for enum in scope.enums:
            enum.values = some(enum.values)
    declared = [d for scope in scopes(plan.files) for d in scope.fields + scope.extensions]
    used = {d.path for d in declared} | {d.extendee for d in declared} | ({plan.kind} if rnd.random() < 0.95 else set())

    def unused(message):
        return all(inner.full not in used and not named(inner) for inner in scopes([message]))

    def named(scope):
        return any(scope.full + (enum.name,) in used for enum in scope.enums)

    for scope in list(scopes(plan.files)):
        scope.enums = [e for e in scope.enums if scope.full + (e.name,) in used or rnd.random() > rate]
        scope.messages = [m for m in scope.messages if not unused(m) or rnd.random() > rate]
    plan.files = [x for x in plan.files if x.messages or x.enums or x.extensions or rnd.random() > rate]
    return reread(plan)


# ---- changes to one sheet: what is changed here counts for containment, or for nothing
def entries(plan):
    """(scope that it stands in, field or extension)"""
    return [(scope, d) for scope in scopes(plan.files) for d in scope.fields + scope.extensions]


def some_entry(plan, good=lambda d: True):
    """One of them, mostly of the options type."""
    every = [(scope, d) for scope, d in entries(plan) if good(d)]
    near = [(scope, d) for scope, d in every if (d.extendee or scope.full) == plan.kind]
    return rnd.choice(near if near and rnd.random() < 0.6 else every) if every else (None, None)


def other_type(plan):
    _, d = some_entry(plan)
    if d:
        alike = [kind for kind in range(1, 19) if option_bytes.WIRE[kind] == option_bytes.WIRE[d.kind] and kind != d.kind]
        d.kind = rnd.choice(alike if alike and rnd.random() < 0.5 else [kind for kind in KINDS if kind != d.kind])
        if d.kind in (10, 11) and d.path not in plan.messages:
            d.path = rnd.choice(list(plan.messages))
        elif d.kind == 14 and d.path not in plan.enums:
            d.path = rnd.choice(list(plan.enums) or [(b"none",)])


def other_name(plan):
    scope, d = some_entry(plan)
    if d:
        d.name = d.name[:60] + rnd.choice((b"_", b"2", b"_new"))


def other_type_path(plan):
    _, d = some_entry(plan, lambda d: d.kind in (10, 11, 14))
    if d:
        d.path = rnd.choice(list(plan.enums if d.kind == 14 and plan.enums else plan.messages))


def other_number(plan):
    scope, d = some_entry(plan)
    if d:
        d.number = plan.number(d.extendee or scope.full)


def left_out(plan):
    scope, d = some_entry(plan)
    if d:
        (scope.extensions if d.extendee else scope.fields).remove(d)


def drop(plan, gone):
    """Messages and enums that are gone, with all that names them."""
    for scope in list(scopes(plan.files)):
        scope.messages = [m for m in scope.messages if m.full not in gone]
        scope.enums = [e for e in scope.enums if scope.full + (e.name,) not in gone]
        for name in ("fields", "extensions"):
            setattr(scope, name, [d for d in getattr(scope, name) if d.path not in gone and d.extendee not in gone])


def message_left_out(plan):
    full = rnd.choice(list(plan.messages))
    if full != plan.kind or rnd.random() < 0.1:
        below = {path for path in list(plan.messages) + list(plan.enums) if path[: len(full)] == full}
        drop(plan, below if rnd.random() < 0.8 else {full})


def enum_left_out(plan):
    if plan.enums:
        drop(plan, {rnd.choice(list(plan.enums))})


def other_kind(plan):
    """A message where an enum was, or an enum where a message was, of the same name."""
    scope = rnd.choice([s for s in scopes(plan.files) if s.messages or s.enums] or plan.files)
    if scope.enums and rnd.random() < 0.5:
        enum = scope.enums.pop()
        drop(plan, {scope.full + (enum.name,)})
        scope.messages.append(Message(enum.name, scope.full + (enum.name,)))
    elif scope.messages:
        message = scope.messages[-1]
        drop(plan, {message.full})
        scope.enums.append(Enum(message.name, []))


def other_label(plan):
    for _, d in entries(plan):
        d.label = rnd.choice(LABELS)


def other_values(plan):
    for enum in plan.enums.values():
        enum.values = [(name, rnd.choice(VALUES)) for name, _ in enum.values if rnd.random() < 0.8]


def free_places(plan, d):
    return [scope for scope in scopes(plan.files) if scope.full + (d.name,) not in plan.taken]


def moved(plan):
    """An extension in another scope or file."""
    scope, d = some_entry(plan, lambda d: d.extendee)
    places = free_places(plan, d) if d else []
    if places:
        scope.extensions.remove(d)
        rnd.choice(places).extensions.append(d)


def turned(plan):
    """A field turned into an extension of the same number, or an extension into a field."""
    scope, d = some_entry(plan)
    places = free_places(plan, d) if d else []
    if d and d.extendee:
        message = plan.messages.get(d.extendee)
        if message and d.name not in {x.name for x in message.fields}:
            scope.extensions.remove(d)
            d.extendee = None
            message.fields.append(d)
    elif places:
        scope.fields.remove(d)
        d.extendee = scope.full
        rnd.choice(places).extensions.append(d)


# ---- changes that take cleanness away, beside those of sheets.py and option_bytes.py
def names_meet(plan):
    """Two of messages, enums and extensions of one full name: in one place, or by another file of that package."""
    full = rnd.choice(sorted(plan.taken))
    again = [scope for scope in scopes(plan.files) if scope.full == full[:-1]]
    if not again or rnd.random() < 0.4:
        again = [Message(None, full[:-1])]
        plan.files.append(again[0])
    scope, how = rnd.choice(again), rnd.randrange(3)
    if how == 0:
        scope.messages.append(Message(full[-1], full))
    elif how == 1:
        scope.enums.append(Enum(full[-1], []))
    else:
        scope.extensions.append(Declared(full[-1], plan.number(plan.kind), 13, 1, None, plan.kind))


def number_again(plan):
    """A number twice for a message: by an extension beside a field, by two extensions, by two fields; their types may be the same."""
    scope, d = some_entry(plan)
    if d:
        message, again = d.extendee or scope.full, copy.copy(d)
        again.name = rnd.choice((b"again", d.name))
        again.kind = d.kind if rnd.random() < 0.5 else rnd.choice((5, 9, 11, 13, 17))
        again.path = d.path or rnd.choice(list(plan.messages) + [(b"none",)])
        if rnd.random() < 0.3 and message in plan.messages and again.name != d.name:
            again.extendee = None
            plan.messages[message].fields.append(again)
        else:
            again.extendee = message
            rnd.choice(free_places(plan, again) or plan.files).extensions.append(again)


def another_kind(plan):
    """A type path or an extendee that names something of another kind."""
    if rnd.random() < 0.5:
        _, d = some_entry(plan, lambda d: d.kind in (10, 11, 14))
        if d:
            wrong = plan.messages if d.kind == 14 else plan.enums
            d.path = rnd.choice(list(wrong) + [outer + (x.name,) for outer, x in plan.extensions] or [(b"none",)])
    else:
        _, d = some_entry(plan, lambda d: d.extendee)
        if d:
            d.extendee = rnd.choice(list(plan.enums) + [outer + (x.name,) for outer, x in plan.extensions])


HARMLESS = {"label": other_label, "enum values": other_values, "extension moved": moved, "field and extension": turned}
CHANGES = {"type": other_type, "name": other_name, "type path": other_type_path, "number": other_number, "left out": left_out,
           "message left out": message_left_out, "enum left out": enum_left_out, "message and enum": other_kind}
UNCLEAN = {"names meet": names_meet, "number again": number_again, "number twice": option_bytes.twice, "another kind": another_kind,
           "hidden message": option_bytes.hidden, "message twice": sheets.double_message, "enum twice": sheets.double_enum,
           "extension twice": sheets.double_extension, "field twice": sheets.double_field, "same number": sheets.same_number,
           "value twice": sheets.double_value, "path to nowhere": sheets.other_path, "extendee of nowhere": sheets.other_extendee}


def changed(plan, some):
    name = rnd.choice(list(some))
    if plan.taken:
        some[name](plan)
    reread(plan)
    return name


# ---- pairs
KEPT = ("grown", "the same", "harmless")  # of these every pair is clean and contained
WHAT = ["grown"] * 8 + ["the same", "swapped"] + ["changed"] * 5 + ["harmless"] * 3 + ["not clean"] * 6 + ["both not clean"] * 2
WHAT += ["several changes", "unrelated", "malformed"]


def pair(what):
    """(what was changed on which side or None, the older's plan, the newer's)."""
    newer = some_plan()
    if what == "both not clean":
        name = changed(newer, UNCLEAN)
        return (name, "both"), cut(twin(newer)) if rnd.random() < 0.5 else twin(newer), newer
    if what == "unrelated":
        return None, some_plan(), newer
    older = twin(newer)
    if what == "swapped":
        return None, older, cut(newer)
    if what != "the same":
        cut(older)
    side = rnd.choice(("older", "newer"))
    plan = older if side == "older" else newer
    if what == "several changes":
        for _ in range(rnd.choice((2, 3, 4))):
            changed(rnd.choice((older, newer)), rnd.choice((HARMLESS, CHANGES, CHANGES, UNCLEAN)))
    some = {"changed": CHANGES, "harmless": HARMLESS, "not clean": UNCLEAN}.get(what)
    return (changed(plan, some), side) if some else None, older, newer


def encoded(plan):
    if rnd.random() < 0.3:
        rnd.shuffle(plan.files)
    return plan.encoded()


def asked(plan, sheet):
    """A request; of its options most are such that the newer sheet writes bytes for them."""
    how = rnd.random()
    if how < 0.12 or sheet.fault:
        return queries.request(plan)
    scope = queries.scope_of(plan)
    head = f(0x18, dotted(scope)) + f(0x19, dotted(plan.kind))
    out = b""
    for _ in range(rnd.choice((1, 2, 2, 3, 4, 5))):
        for _ in range(4):
            option = queries.option(plan, scope) if rnd.random() < 0.8 else queries.sure_option(plan, scope)
            if steps.Run(sheet, head + option).bytes or rnd.random() < 0.03:
                out += option
                break
    return form.broken(head + out) if how < 0.15 else head + out


def drawn(what):
    """(what was changed, the older sheet, the newer one, requests or None for none)"""
    change, older, newer = pair(what)
    data = [encoded(older), encoded(newer)]
    if what == "malformed":
        for which in rnd.choice(((0,), (1,), (0, 1))):
            data[which] = form.broken(data[which])
    sheet = steps.Sheet(data[1])
    requests = [None] if rnd.random() < 0.2 else [asked(newer, sheet) for _ in range(rnd.choice((1, 2, 3)))]
    return change, steps.Sheet(data[0]), sheet, requests


# ---- deep ones
def deep():
    """A message that holds itself, and a record at one of the levels that a request can reach, 0 to 30, that the older knows or not."""
    level, r = rnd.randrange(31), (b"o", b"R")
    v = rnd.choice((13, 9, 11)) if level else 9  # of one direct part only a builtin

    def sheet(names, v):
        every = [Declared(b"r", 1, 11, 1, r), Declared(b"v", 2, v, 1, r), Declared(b"w", 3, 13)]
        message, file = Message(b"R", r), Message(None, (b"o",))
        message.fields = [d for d in every if d.name in names]
        file.messages.append(message)
        return steps.Sheet(file.encoded(rnd.shuffle))

    parts = rnd.randint(max(1, level - 14), min(16, level + 1))
    w = f(0x27, b"w") + f(0x21, bytes(8))
    inside = {13: f(0x21, bytes(7) + b"\7"), 9: f(0x24, b"\x18\x05"), 11: f(0x26, w if level - parts < 14 else b"")}[v]
    name = f(0x1A, b"r") * (parts - 1) + f(0x1A, b"r" if parts <= level else b"v")
    if parts <= level:
        inside = f(0x26, f(0x27, b"v") + inside + (w if rnd.random() < 0.3 else b""))
    for _ in range(level - parts):
        inside = f(0x26, f(0x27, b"r") + inside)
    older = sheet(rnd.choice((b"rvw", b"rw", b"rw", b"r", b"vw")), v if rnd.random() < 0.8 else rnd.choice((9, 11, 12)))
    return None, older, sheet(b"rvw", v), [f(0x18) + f(0x19, b"o.R") + f(8, name + inside)]


def limits():
    """At each figure, and one past it: on both sides, and, of sheets, on one."""
    small = figures.one_file(b"")
    for data, query in figures.limits():
        for older, newer in [(data, data)] + ([(data, small), (small, data)] if data != small else []):
            yield None, steps.Sheet(older), steps.Sheet(newer), [query]


# what kind of a pair it is, what was changed, older, newer, requests
def fixed():
    """Those at the figures and at the edges, which are always the same."""
    for case in limits():
        yield "figure", *case
    for older, newer, request in edges():
        yield "edge", None, steps.Sheet(older), steps.Sheet(newer), [request]


def some_pair():
    if rnd.random() < 0.05:
        return "deep", *deep()
    what = rnd.choice(WHAT)
    return what, *drawn(what)


def cases():
    """Without end."""
    while True:
        yield from fixed()
        for _ in range(4000):
            yield some_pair()
