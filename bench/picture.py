"""The picture of a run, as SVG: ratios to Rust, `resolve` beside the original, and how the cost grows. No library but Python's own."""
import math
from xml.sax.saxutils import escape

from measure import HERE, ORIGINAL, RUST

WIDTH = 900
INK, FAINT, GRID = "#1f2328", "#59636e", "#d8dee4"
FIGURES = {"instructions": "#1f5fa8", "time": "#7db3e8"}
PROGRAMS = {HERE: "#1f5fa8", RUST: "#c8641e", ORIGINAL: "#7a7f87"}
CURVES = {"check": "#1f5fa8", "find": "#2e8b57", "resolve": "#c8641e", "list": "#8e4ec6", "query": "#b3261e"}
NESTED = "#0b7a75"


# ---- marks
def text(x, y, said, size=12, anchor="start", fill=INK, weight="normal"):
    return '<text x="%.1f" y="%.1f" font-size="%d" text-anchor="%s" fill="%s" font-weight="%s">%s</text>' % (
        x, y, size, anchor, fill, weight, escape(said))


def line(x1, y1, x2, y2, stroke=GRID, width=1, dash=""):
    return '<line x1="%.1f" y1="%.1f" x2="%.1f" y2="%.1f" stroke="%s" stroke-width="%s"%s/>' % (
        x1, y1, x2, y2, stroke, width, ' stroke-dasharray="%s"' % dash if dash else "")


def bar(x, y, width, height, fill):
    return '<rect x="%.1f" y="%.1f" width="%.1f" height="%.1f" fill="%s"/>' % (x, y, width, height, fill)


def title(x, y, said, below):
    return [text(x, y, said, 15, weight="bold"), text(x, y + 18, below, 12, fill=FAINT)]


def key(x, y, entries):
    """Coloured squares, each with what it stands for."""
    out = []
    for said, fill in entries.items():
        out += [bar(x, y - 9, 10, 10, fill), text(x + 15, y, said)]
        x += 30 + 7 * len(said)
    return out


# ---- bars
def ratios(x, y, rows, aim):
    """A pair of bars for each call: its instructions and its time over those of Rust."""
    pairs = [[figures[HERE] / figures[RUST] for figures in (row.counts, row.times)] for row in rows]
    left, step = x + 220, 30
    scale = 600 / max([aim + 0.05] + [ratio for pair in pairs for ratio in pair])
    out = title(x, y, "Ratio to the same walk in Rust", "a call, this library over Rust: below 1.0 it needs less than Rust does")
    out += key(WIDTH - 190, y + 18, FIGURES)
    top, bottom = y + 56, y + 56 + step * len(rows)
    for tick in (0, 0.2, 0.4, 0.6, 0.8, 1.0, aim):
        strong = tick in (1.0, aim)
        out.append(line(left + tick * scale, top - 4, left + tick * scale, bottom, FAINT if strong else GRID, 1.5 if strong else 1))
        said = "%.1f, the aim" % tick if tick == aim else "%.1f" % tick
        out.append(text(left + tick * scale, top - 10, said, 11, "middle", INK if strong else FAINT))
    for i, (row, pair) in enumerate(zip(rows, pairs)):
        at = top + i * step + 2
        out.append(text(left - 8, at + 16, row.what, 12, "end"))
        for k, (ratio, (fill, ink)) in enumerate(zip(pair, zip(FIGURES.values(), ("#ffffff", INK)))):
            out.append(bar(left, at + 12 * k, ratio * scale, 11, fill))
            out.append(text(left + ratio * scale - 4, at + 9 + 12 * k, "%.2f" % ratio, 10, "end", ink))
    return out, bottom


def beside_original(x, y, rows):
    """Of `resolve` the instructions and the time of each program."""
    row = next((row for row in rows if ORIGINAL in row.counts), None)
    if not row:
        return [], y
    left, scale = x + 220, 480
    said = "a request, the sheet tested once; the original is handed requests that are read already"
    out = title(x, y, "resolve beside the original", said)
    top = y + 34
    groups = [("instructions", row.counts, "{:,.0f}".format), ("processor time", row.times, lambda t: "%.2f us" % (t * 1e6))]
    for i, (said, figures, form) in enumerate(groups):
        at = top + i * 62
        out.append(text(left - 90, at + 31, said, 12, "end"))
        for k, (name, fill) in enumerate(PROGRAMS.items()):
            width = figures[name] / max(figures.values()) * scale
            out.append(text(left - 8, at + 14 + 17 * k, name, 12, "end", FAINT))
            out.append(bar(left, at + 4 + 17 * k, width, 13, fill))
            out.append(text(left + width + 6, at + 14 + 17 * k, form(figures[name]), 11))
    return out, top + 124


# ---- curves
def spread(places, gap):
    """Places for labels, no two nearer than the gap, in the order of the given ones."""
    out = list(places)
    order = sorted(range(len(out)), key=lambda i: places[i])
    for before, after in zip(order, order[1:]):
        out[after] = max(out[after], out[before] + gap)
    return out


def curve(points, across, up, fill, dash, hollow):
    marks = [(across(size), up(count)) for size, count in points]
    out = ['<polyline points="%s" fill="none" stroke="%s" stroke-width="1.8"%s/>' % (
        " ".join("%.1f,%.1f" % mark for mark in marks), fill, ' stroke-dasharray="%s"' % dash if dash else "")]
    inside = "#ffffff" if hollow else fill
    return out + ['<circle cx="%.1f" cy="%.1f" r="3" fill="%s" stroke="%s" stroke-width="1.4"/>' % (*mark, inside, fill) for mark in marks]


STYLES = {HERE: ("", False), RUST: ("5 4", True), ORIGINAL: ("1 4", True)}


def axes(box, sizes, counts, below):
    """A grid by powers of ten over sizes, both by their logarithms, and where a size and a count stand in it."""
    left, right, top, bottom = box
    low, high = math.floor(math.log10(min(counts))), math.ceil(math.log10(max(counts)))

    def across(size):
        return left + (right - left) * math.log(size / sizes[0]) / math.log(sizes[-1] / sizes[0])

    def up(count):
        return bottom - (bottom - top) * (math.log10(count) - low) / (high - low)

    out = [text((left + right) / 2, bottom + 33, below, 12, "middle")]
    for count in (10**power for power in range(low, high + 1)):
        out += [line(left, up(count), right, up(count)), text(left - 8, up(count) + 4, "{:,}".format(count), 11, "end", FAINT)]
    for size in sizes:
        out += [line(across(size), top, across(size), bottom), text(across(size), bottom + 16, str(size), 11, "middle", FAINT)]
    return out, across, up


def growth(x, y, said, below, sizes, curves, labels):
    """Instructions over sizes: a line for each curve and each program, and a label at the right of each curve."""
    right, bottom = x + 305, y + 320
    counts = [count for one in curves for _, figures in one.points for count in figures.values()]
    out, across, up = axes((x + 62, right, y + 40, bottom), sizes, counts, below)
    out += title(x, y, said, "instructions of a call")
    ends = []
    for one, label in zip(curves, labels):
        fill = NESTED if one.axis == "constants nested" else CURVES[one.what]
        for name, (dash, hollow) in STYLES.items():
            points = [(size, figures[name]) for size, figures in one.points if name in figures]
            out += curve(points, across, up, fill, dash, hollow) if points else []
        ends.append((up(one.points[-1][1][HERE]), label, fill))
    for at, (_, label, fill) in zip(spread([end[0] for end in ends], 15), ends):
        out.append(text(right + 9, at + 4, label, 11, fill=fill))
    return out, bottom + 40


def lines_key(x, y, names):
    said = {HERE: "this library", RUST: "Rust", ORIGINAL: "the original (resolve)"}
    out = []
    for name in names:
        dash, hollow = STYLES[name]
        out += curve([(x, y - 4), (x + 34, y - 4)], lambda v: v, lambda v: v, FAINT, dash, hollow)
        out.append(text(x + 44, y, said[name]))
        x += 74 + 6 * len(said[name])
    return out


# ---- the picture
def svg(rows, curves, aim):
    out, y = ratios(20, 34, rows, aim)
    more, y = beside_original(20, y + 44, rows)
    out += more
    wide, deep = [x for x in curves if x.axis == "extensions"], [x for x in curves if x.axis != "extensions"]
    more, _ = growth(20, y + 40, "Growth with extensions", "extensions in the sheet", (50, 200, 800), wide, [x.what for x in wide])
    out += more
    labels = [x.what + ", " + x.axis.split()[0] for x in deep]
    more, bottom = growth(470, y + 40, "Growth with depth", "parts, constants or levels", (1, 2, 4, 8, 16, 31), deep, labels)
    names = [name for name in STYLES if any(name in figures for x in wide for _, figures in x.points)]
    out += more + lines_key(82, bottom + 24, names)
    head = '<svg xmlns="http://www.w3.org/2000/svg" width="%d" height="%d" viewBox="0 0 %d %d" font-family="%s">' % (
        WIDTH, bottom + 44, WIDTH, bottom + 44, "Helvetica, Arial, sans-serif")
    return "\n".join([head, '<rect width="100%" height="100%" fill="#ffffff"/>'] + out + ["</svg>", ""])
