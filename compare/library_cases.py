"""The cases of compare/library.py: groups of cases that belong together, drawn with the generators of the other scripts here.

Every sheet is tested and asked whether it is clean; some of those that come of plans are damaged first, and keep their requests, names and
bytes. What is always the same, the cases at figures and at edges, comes once in a run. Everything else is drawn without end from
sheets.rnd, form.rnd and random, which the caller seeds.
"""
import copy
import functools
import itertools
import random

import evolve
import figures
import form
import lowering
import option_bytes
import pairs
import queries
import resolve
import search
import steps
from library_calls import Case, packed
from sheets import Plan, f, rnd


def whole_sheet(data, what):
    return [Case("sheet", data, what=what), Case("clean", data, what=what)]


# ---- damage
def places(nodes):
    """(list, index) of each field of a tree, at any depth."""
    for i, (_, inner) in enumerate(nodes):
        yield nodes, i
        if isinstance(inner, list):
            yield from places(inner)


def reshaped(data):
    """A sheet with declarations left out, doubled or put elsewhere, and leaves that are others of their kind; its lengths are right."""
    nodes = resolve.tree(data)
    if not nodes:
        return data
    for _ in range(rnd.choice((1, 1, 2, 3))):
        every = list(places(nodes))
        some = [(of, i) for of, i in every if (of[i][0] > 6) == (rnd.random() < 0.4)]
        if not some:
            break
        of, i = rnd.choice(some)
        if of[i][0] > 6:
            of[i] = rnd.choice([other[j] for other, j in every if other[j][0] == of[i][0]])
        elif rnd.random() < 0.3:
            del of[i]
        else:
            into = of if rnd.random() < 0.5 else rnd.choice([other for other, j in every if other[j][0] <= 6])
            into.append(copy.deepcopy(of[i]))
    return resolve.joined(nodes)


def changed(data, what):
    """A sheet as it is, mostly; or damaged by its bytes or by its fields, or with the files of another."""
    how = rnd.random()
    if how < 0.07:
        return form.broken(data), "damaged, by its bytes"
    if how < 0.14:
        return reshaped(data), "damaged, by its fields"
    return (data + Plan().data, "of two plans") if how < 0.17 else (data, what)


# ---- the form
def of_form():
    sheet, request = form.some_case()
    return whole_sheet(sheet, "of the form, mostly broken") + ([] if request is None else [Case("request", request)])


# ---- the search
def of_search():
    sheet, case = search.some_sheet(), Case("find", *search.plain_case())
    case.plain = True
    return whole_sheet(sheet, "of few names") + [Case("find", sheet, *search.asked_of(sheet)) for _ in range(5)] + [case]


# ---- the resolver
def parts_of(request):
    """(scope, path) of the extension parts of a request that is in form."""
    if not steps.in_form(request):
        return []
    (_, scope), _, *options = steps.fields(request)
    return [(scope, part) for _, option in options for tag, part in steps.fields(option) if tag == 0x1B]


def of_requests(what, data, requests):
    names = [name for request in requests for name in parts_of(request)]
    group = whole_sheet(data, what) + [Case("resolve", data, request, what=what) for request in requests]
    group += [Case("request", request, what=what) for request in requests[:2]]
    return group + [Case("find", data, *name, what=what) for name in names[:2]]


def longer(request):
    """A request with its options several times over, up to the most bytes or a little past them."""
    if not steps.in_form(request):
        return request
    scope, kind, *options = [f(*field) for field in steps.fields(request)]
    some = b"".join(options)
    return scope + kind + some * min(rnd.randint(2, 40), 1 + 8192 // (1 + len(some)))


def of_resolver():
    what, data, requests = queries.of_plan()
    data, what = changed(data, what)
    if rnd.random() < 0.1:
        requests.append(longer(rnd.choice(requests)))
    swapped = [Case("resolve", requests[0], data, what="swapped")] if rnd.random() < 0.05 else []
    return of_requests(what, data, requests) + swapped


# ---- listing and query
def reading(what, data, kind, payload, name, label=None):
    inputs = (data, kind, payload) if name is None else (data, kind, name, payload)
    return Case("list" if name is None else "query", *inputs, what=what, label=label)


def of_options():
    every = list(option_bytes.of_plan())
    data, what = changed(every[0][1].data, every[0][0])
    some = [(kind, payload * (rnd.randint(2, 60) if rnd.random() < 0.01 else 1), name) for _, _, kind, payload, name in every]
    return whole_sheet(data, what) + [reading(what, data, *of) for of in some]


def long_bytes():
    """(sheet, options type, bytes, name) of the longest option bytes and of one more: one record, one inside another, as many as there can
    be; with inputs before them that are fine or not, so that it is seen what is judged first."""
    sheet, name, varint = option_bytes.self_sheet(), f(0x1A, b"f13"), option_bytes.varint
    for size in (65536, 65537):
        record = varint(9 * 8 + 2) + varint(size - 4) + bytes(size - 4)
        inside = option_bytes.nest(1, varint(9 * 8 + 2) + varint(size - 9) + bytes(size - 9))
        for data in (record, inside, b"\x68\x01" * (size // 2) + bytes(size % 2), bytes(size), b"\xff" * size):
            assert len(data) == size
            yield sheet, b"o.F", data, name
        for of, kind, by in ((sheet, b"none", name), (b"\1", b"o.F", name), (sheet, b"o..F", name), (sheet, b"o.F", b"")):
            yield of, kind, record, by


def of_long(sheet, kind, data, name):
    size = len(data)
    group = [reading("longest", sheet, kind, data, by) for by in (None, name)]
    return group + [Case("payload", data, numbers=numbers, what="longest") for numbers in ((4, size - 4), (0, size), (size, 0), (size, 1))]


# ---- the ends of inputs
NOTHING = {"sheet": (b"",), "request": (b"",), "resolve": (b"", b""), "find": (b"", b"", b""), "list": (b"", b"", b""),
           "query": (b"", b"", b"", b""), "payload": (b"",), "ranges": (b"",), "fields": (b"",), "fields_by": (b"",), "clean": (b"",),
           "contained": (b"", b"")}


def extremes():
    """(call, inputs): no inputs at all; and each in turn far longer than is allowed, past 16 bits too, with others that are fine."""
    yield from NOTHING.items()
    sheet = option_bytes.self_sheet()
    fine = {**NOTHING, "resolve": (sheet, figures.asked(b"", b"")), "find": (sheet, b"", b"x"), "list": (sheet, b"o.F", b""),
            "query": (sheet, b"o.F", f(0x1A, b"f13"), b""), "contained": (sheet, sheet)}
    for call, inputs in fine.items():
        for i in range(len(inputs)):
            for long in (bytes(70000), b"a" * 70000, b"aaa." * 17500 + b"aaaa", f(0x1A, b"a") * 20000, f(1, f(0x10)) * 12000,
                         b"\0\0\0\1" * 17500):
                yield call, inputs[:i] + (long,) + inputs[i + 1 :]


# ---- the payload
FAR = (2**31, 2**32 - 1, 2**32, 2**32 + 1, 2**63 - 1, 2**63, 2**64 - 1, 2**64 - 2)


def place_and_length(size):
    """Near the ends of the bytes, far out, or such that their sum comes round to the bytes again."""
    near = (0, 1, 2, size - 1, size, size + 1, size // 2, 65535, 65536, 65537)
    place = rnd.choice(near) if rnd.random() < 0.7 else rnd.choice(FAR) if rnd.random() < 0.5 else rnd.randint(0, 2 * size)
    how = rnd.random()
    if how < 0.3:
        length = size - place + rnd.choice((-1, 0, 0, 0, 1))
    elif how < 0.5:
        length = rnd.choice((2**64, 2**32)) - place + rnd.choice((0, 1, size, size // 2))
    else:
        length = rnd.choice(near + FAR) if how < 0.9 else rnd.randint(0, size)
    return place % 2**64, length % 2**64


def of_payload():
    size = rnd.choice((65535, 65536, 65536, 65537)) if rnd.random() < 0.02 else rnd.choice((0, 1, 2, 3, 4, 10, 200, rnd.randint(0, 40)))
    data = rnd.randbytes(size)
    return [Case("payload", data, numbers=place_and_length(size)) for _ in range(6)]


# ---- lowering
LONG = (4094, 4095, 4096, 4096, 4097, 4098)


def some_ranges():
    kind = random.choice((0, 1, 2)) if random.random() < 0.9 else random.choice((3, 4, 2**31, 2**32 - 2, 2**32 - 1))
    many = random.choice(LONG) if random.random() < 0.004 else 2 * random.randint(0, 12) + (random.random() < 0.1)
    words = [lowering.word() for _ in range(many)]
    if words and random.random() < 0.2:
        words[random.randrange(len(words))] = 2**31 - 1
    return Case("ranges", packed(words), numbers=(kind, 0))


def some_words():
    """Fields, and sometimes many, or with a word among them that is none there."""
    words = lowering.some_fields()
    if random.random() < 0.004:
        words = list(itertools.islice(itertools.cycle(words or [1, 2, 3]), random.choice(LONG)))
    if random.random() < 0.25:
        words.insert(random.randint(0, len(words)), random.choice((3, 3, 4, 4, 5, 2**31, 2**32 - 1, 2**32 - 3)))
    return packed(words)


def some_numbering():
    """Mostly synthetic last: about the other one the original is asked."""
    return random.choice((0, 1, 1, 1)) if random.random() < 0.9 else random.choice((2, 3, 4, 2**31, 2**32 - 2, 2**32 - 1))


def of_lowering():
    """Of each two, the second such that the original can be asked."""
    kind, words = random.randint(0, 2), [lowering.word() for _ in range(2 * random.randint(0, 20))]
    asked = [Case("ranges", packed(words), numbers=(kind, 0)), Case("fields", packed(lowering.some_fields())),
             Case("fields_by", packed(lowering.some_fields()), numbers=(lowering.DECLARED, 0))]
    for case in asked:
        case.plain = True
    return [some_ranges(), Case("fields", some_words()), Case("fields_by", some_words(), numbers=(some_numbering(), 0))] + asked


# ---- pairs of sheets
def of_pair(what, change, older, newer, requests):
    pair = evolve.Pair(what, change, older, newer)
    label, old, new = "pairs: " + what, older.data, newer.data
    both = Case("contained", old, new, what=label)
    group = [Case("clean", old, what=label), Case("clean", new, what=label), both, Case("contained", new, old, what=label)]
    both.seen += [("pairs", key) for key in pair.seen]
    for request in requests:
        told = evolve.Case(pair, request)
        if request is not None:
            group.append(Case("resolve", new, request, what=label))
        (both if request is None else group[-1]).seen += [("pairs", key) for key in told.seen]
        if told.lists:
            group += [Case("list", data, told.kind, told.run.bytes, what=label) for data in (old, new)]
            group[-2].foretold = told
    return group


def of_pairs():
    return of_pair(*pairs.some_pair())


# ---- all of them
def fixed():
    """What is always the same, as functions that give a group each."""
    seen = set()
    for what, sheet, *of in option_bytes.fixed():
        if sheet.data not in seen:
            yield functools.partial(whole_sheet, sheet.data, what)
        seen.add(sheet.data)
        yield lambda what=what, data=sheet.data, of=of: [reading(what, data, *of)]
    for of in long_bytes():
        yield functools.partial(of_long, *of)
    for data, request in figures.limits():
        yield functools.partial(of_requests, "limit", data, [request])
    for call, inputs in extremes():
        yield lambda call=call, inputs=inputs: [Case(call, *inputs, what="extreme")]
    for of in pairs.fixed():
        yield functools.partial(of_pair, *of)


# of a hundred cases so many; what is always the same comes to its end
SHARES = {of_form: 13, of_search: 11, of_resolver: 28, of_options: 26, of_payload: 5, of_lowering: 7, of_pairs: 10}
FIXED_SHARE = 5


def drawn(total, size, seed, worker, workers):
    """As many cases as are asked for, in batches: the next group is of that which lags most behind its share."""
    every = list(fixed())
    random.Random(seed).shuffle(every)
    streams = [(share, map(lambda _, of=of: of(), itertools.count())) for of, share in SHARES.items()]
    streams.append((FIXED_SHARE, (group() for group in every[worker::workers])))
    done, batch = [0] * len(streams), []
    while total:
        at = min(range(len(streams)), key=lambda at: done[at] / streams[at][0])
        group = next(streams[at][1], None)
        if group is None:
            del streams[at], done[at]
            continue
        done[at] += len(group)
        batch += group[: total - len(batch)]
        if len(batch) >= min(size, total):
            yield batch
            total, batch = total - len(batch), []
