#!/usr/bin/env python3
"""Brings this repository's own names in specs/, proofs/, ghost clauses, edits and pages to snake case.

usage: python3 tools/snake.py        at the top, once, on what the kit's port.py wrote

A word of antt is in snake case, a type or a module in camel case, a fact too. Words in quotes keep their text, and so do names of src/: these
were in snake case before. It fits the commit that docs/PORT.md names second and no later one: today definitions stand in proofs under names
that it would take for lemmas.
"""

import os
import re
import sys

# Lemmas that port.py spelled as a definition is spelled now: they get back the dash that they had, since a dash joins two names.
WITH_DASH = {
    "first_some": "first-some",
    "no_bytes": "no-bytes",
    "on_step": "on-step",
    "by_field": "by-field",
    "at_first": "at-first",
    "on_read": "on-read",
    "built_of": "built-of",
    "numbers_of": "numbers-of",
    "clean_at": "clean-at",
    "nth_seen": "nth-seen",
    "by_key": "by-key",
    "last_row": "last-row",
    "body_is": "body-is",
}
# Laws of `get_or`, which the library called getD, and two facts.
SPELLED = {
    "get_d_sets_before": "get_or-sets_before",
    "nothingBehind": "NothingBehind",
}
WORD = r"(?<![A-Za-z0-9_'])%s(?![A-Za-z0-9_'])"
CAMEL = re.compile(r"(?<![A-Za-z0-9_'\\])[a-z][a-z0-9]*(?:[A-Z][a-z0-9]*)+(?![A-Za-z0-9_])")
SNAKE = re.compile(r"(?<![A-Za-z0-9_'])[a-z][a-z0-9]*(?:_[a-z0-9]+)+(?![A-Za-z0-9_])")
QUOTED = re.compile(r'"(?:[^"\\\n]|\\.)*"')


def snake(word):
    return re.sub(r"[A-Z]", lambda m: "_" + m.group().lower(), word)


def files(*endings):
    for top in ("crates", "docs", "README.md"):
        if os.path.isfile(top):
            yield top
        for folder, dirs, names in os.walk(top):
            dirs[:] = sorted(d for d in dirs if d != "out")
            for name in sorted(names):
                if name.endswith(endings):
                    yield os.path.join(folder, name)


def outside_quotes(text, turn):
    """The text, with what stands outside quotes turned."""
    pieces, at = [], 0
    for m in QUOTED.finditer(text):
        pieces += [turn(text[at : m.start()]), m.group()]
        at = m.end()
    return "".join(pieces) + turn(text[at:])


def own():
    """The words in camel case that this repository's definitions, lemmas and bound names have, and those of pages that port.py turned in them."""
    words, snakes, named = {"onLast", "nothingBehind"}, set(), set()
    for path in files(".antt", ".rt", ".edit", ".md"):
        with open(path, encoding="utf-8") as f:
            text = f.read()
        if path.endswith((".antt", ".rt")):
            outside_quotes(text, lambda t: words.update(CAMEL.findall(t)) or snakes.update(SNAKE.findall(t)) or t)
        else:
            named.update(CAMEL.findall(text))
    words |= {w for w in named if snake(w) in snakes}
    return words - {"getD"}


def turned(text, words):
    for old, new in SPELLED.items():
        text = re.sub(WORD % old, new, text)
    text = re.sub(r"(?<![A-Za-z0-9_'])getD(?![A-Za-z0-9_'])", "get_or", text)
    return CAMEL.sub(lambda m: snake(m.group()) if m.group() in words else m.group(), text)


def main():
    words = own()
    changed = 0
    for path in files(".antt", ".rt", ".edit", ".md"):
        with open(path, encoding="utf-8") as f:
            before = f.read()
        text = before
        if path.endswith(".antt") and "/proofs/" in path:
            for old, new in WITH_DASH.items():
                text = re.sub(WORD % old, new, text)
        if path.endswith((".antt", ".rt")):
            text = outside_quotes(text, lambda t: turned(t, words))
        else:
            text = turned(text, words)
        if text != before:
            with open(path, "w", encoding="utf-8") as f:
                f.write(text)
            changed += 1
    print(f"snake: {len(words)} names, {changed} files")
    return 0


if __name__ == "__main__":
    sys.exit(main())
