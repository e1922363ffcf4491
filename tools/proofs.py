#!/usr/bin/env python3
"""Answer the goals that the check of a crate leaves open, each by a search over rulesets.

    python3 tools/proofs.py CRATE [--laws RULESET ..] [--again FUNCTION ..]

Run it at the root of the repository. It runs `rt check` in crates/CRATE once. Each goal that this finds no proof of is answered in the
function's Answers.antt by `search (rules, RULESET, FACT)`. RULESET is what the function's attribute names, `#[tactic(auto, using(..))]`, or
what --laws names, a `pub ruleset` or a `pub` law. FACT is what a step of a `for` gave (`c.in-Some.ensures.steps`), or what stood before a
`?` (`c.in_ok-x.was`); where a `for` starts, or a `?` returns, the search stands behind the rewriting that this takes. What a file has
already stays. An Invariants.antt that the check asks for is written as the check proposes it: fill its holes, `?`, and run this again. A
function that calls one without a proof is asked for only when that one has one: run this again then too.

--again FUNCTION takes the searches of that function away first, so that only those come back which the check still asks for; without
--laws as they were, and a new goal with all their laws. Other answers stay. If the check does not come to the function, its file is as it
was. A cycle of calls has one file: name any of its functions.

`rt fmt` sets the layout, and `rt tidy` drops imports that nothing uses.
"""
import argparse
import pathlib
import re
import subprocess
import sys

ASKED = re.compile(r"help: (?:write|add these lines to) (\./proofs/\S+\.antt)[ ,]")
USE = re.compile(r"(?m)^use [^{\n]*(?:\{[^}]*\})?.*\n")
GOAL = re.compile(r"(?m)^pub \S+ : .*\n\S+(?: \S+)* = \?$")
SEARCH = re.compile(r"(?:--.*\n)*pub (\S+) : goal\.\S+\n\1((?: \w+)*) =\s+((?:rw|handed-on) \S+ \()?search (?:\(([^()]*)\)|([^\s()]+))\)?\s*\Z")
NOTE = re.compile(r"note: `([^`]+)` of (proofs/\S+) must prove: ")
USING = r"#\[tactic\(auto, using\(([^)]*)\)[^\]]*\]\s*(?:#\[[^\]]*\]\s*)*(?:pub(?:\(\w+\))? )?(?:extern \"C\" )?fn %s\b"


def check(crate, *words):
    """What `rt check` prints of a crate, and whether it is proved."""
    run = subprocess.run(["rt", "check", *words], cwd=crate, encoding="utf-8", stdout=subprocess.PIPE, stderr=subprocess.STDOUT)
    return run.stdout, run.returncode == 0


def asked_for(log):
    """The lines that the check wants to see in proof files: of each a path below the crate's folder, and the lines."""
    path, lines = None, []
    for line in log.split("\n") + ["end"]:
        if path and line.startswith("    "):
            lines.append(line[4:])
            continue
        if path:
            yield path, "\n".join(lines).strip() + "\n"
        found = ASKED.match(line)
        path, lines = (found.group(1), []) if found else (None, [])


def steps_of(log):
    """Of each goal, by its file and its name, the steps before it in their order, each with what the check says of its fields."""
    found, at = {}, None
    for line in log.split("\n"):
        note = NOTE.match(line)
        if note:
            at = note.group(2), note.group(1)
            found[at] = {}
        elif at and line.startswith("  | as in `"):
            goal, last = re.match(r"  \| as in `([^`]+)` above, as far as (\S+)", line).groups()
            before = list(found[at[0], goal].items())
            found[at].update(before[: [step for step, _ in before].index(last) + 1])
        elif at and line.startswith("  | "):
            step, fields = line[4:].split(": ", 1)
            found[at][step] = found[at].get(fields[8:], fields) if fields.startswith("same as ") else fields
        elif not line.startswith("  "):
            at = None
    return found


def term(goal, steps, laws):
    """A search for a goal over laws, with the facts of the steps before it, behind the rewriting that a `for` or a `?` takes."""
    facts = [step + ".ensures.steps" for step, fields in steps.items() if step.startswith("c.in-") and ".ensures {.steps" in fields]
    facts += [step + ".was" for step, fields in steps.items() if re.match(r"c\.in_(?:ok|err)-", step) and ".was" in fields]
    all_laws = ["rules"] + laws + facts
    search = "search (%s)" % ", ".join(all_laws) if all_laws[1:] else "search rules"
    for step, fields in reversed(list(steps.items())):
        if step.startswith("c.from_residual"):
            return "%s (%s)" % ("rw %s.ensures" % step if "._residual" in fields else "handed-on %s.ensures.1" % step, search)
        if goal.endswith("-init") and ".into_iter_gives" in fields:
            return "rw %s.ensures.into_iter_gives (%s)" % (step, search)
    return search


def parts(text):
    """A proof file as its opening comment, its `use` lines, and its blocks."""
    opening = re.match(r"(?:--.*\n)*", text).group(0)
    uses, rest = USE.findall(text), USE.sub("", text[len(opening):])
    return opening, uses, [block for block in re.split(r"\n\s*\n", rest.strip()) if block]


def named(search):
    """What a search names: laws, and facts of its goal."""
    return re.split(r",\s*", search.group(4) or search.group(5))


def laws_of(blocks):
    """The laws that searches name, beside `rules`."""
    found = [law for search in map(SEARCH.match, blocks) if search for law in named(search)]
    return [law for law in dict.fromkeys(found) if law != "rules" and not law.startswith("c.")]


def laws_used(crate, function):
    """The laws that the attribute of a function names, each with its module."""
    source = "".join(file.read_text(encoding="utf-8") for file in sorted(crate.glob("src/**/*.rt")))
    attribute = re.search(USING % re.escape(function), source)
    paths = [path.split("::") for path in re.split(r",\s*", attribute.group(1))] if attribute else []
    return {path[-1]: ".".join(["Rattle", crate.name if path[0] == "crate" else path[0]] + path[1:-1]) for path in paths}


def module_of(crate, law):
    """The module that declares a ruleset or a law."""
    declares = re.compile(r"(?m)^\s*(?:\w+ )*pub (?:ruleset )?%s\s*[=:]" % re.escape(law))
    for top in sorted(crate.parent.iterdir(), key=lambda p: (p != crate, p.name)):
        for file in sorted(top.glob("proofs/**/*.antt")):
            text = file.read_text(encoding="utf-8")
            if " as goal\n" not in text and declares.search(text):
                return "Rattle.%s.proofs.%s" % (top.name, ".".join(file.relative_to(top / "proofs").with_suffix("").parts))
    sys.exit("proofs.py: no file under crates/*/proofs declares `pub ruleset %s`, nor a `pub` law of that name" % law)


def heading(crate, path):
    """The comment that a new file opens with."""
    *inside, name = path.parent.relative_to(crate / "proofs").parts
    name = "::".join([crate.name] + inside + [name.lstrip("+")])
    kept = ": what its loops keep, and why it ends" if path.name == "Invariants.antt" else ""
    return "-- `%s` meets its contract%s.\n-- Assumes nothing.\n" % (name, kept)


def write(path, opening, uses, blocks):
    path.parent.mkdir(parents=True, exist_ok=True)
    path.write_text(opening + "".join(uses) + "\n" + "\n\n".join(blocks) + "\n", encoding="utf-8")


def answer(crate, path, asked, steps, given, old):
    """Adds an answer to each goal of the lines that are asked for: what the old file has for it, where no laws are given."""
    opening, uses, blocks = parts(path.read_text(encoding="utf-8") if path.exists() else old or heading(crate, path))
    before = {} if given else {SEARCH.match(block).group(1): block for block in parts(old)[2] if SEARCH.match(block)}
    blocks, laws = [block for block in blocks if not old or not SEARCH.match(block)], given or laws_of(list(before.values()))
    wanted, new = {"rules": "Rattle.basis.proofs.Kit", **{law: module_of(crate, law) for law in laws}}, []
    for goal in GOAL.findall(asked):
        name = goal.split()[1]
        of = {law: wanted[law] for law in laws} or laws_used(crate, name.split("-")[0] if path.parent.name[0] == "+" else path.parent.name)
        wanted.update(of)
        new.append(before.get(name, goal[:-1] + term(name, steps.get((str(path.relative_to(crate)), name), {}), list(of))))
    if any(" = handed-on " in block for block in new):
        wanted["handed-on"] = "Rattle.reply.proofs.VerdictLaws"
    brought = set(re.findall(r"[^\s{},]+", " ".join(uses)))
    uses += ["use %s.{%s}\n" % (module, name) for name, module in wanted.items() if name not in brought]
    if not any(use.endswith(" as goal\n") for use in uses):
        uses.append(re.search(r"(?m)^use \S+ as goal\n", asked).group(0))
    write(path, opening, uses, blocks + new)
    print("%s: %d answers" % (path, len(new)))


def files_of(crate, function):
    """The answers of a function, or of the cycle that it is in."""
    source = "".join(file.read_text(encoding="utf-8") for file in crate.glob("src/**/*.rt"))
    cycle = re.search(r"#\[cycle\((\w+)\)\]\n(?:#.*\n)*(?:pub(?:\(\w+\))? )?fn %s\b" % re.escape(function), source)
    folder = "+" + cycle.group(1) if cycle else function
    return sorted(crate.glob("proofs/**/%s/Answers.antt" % folder)) or sys.exit("proofs.py: no answers of `%s`" % function)


def main():
    parser = argparse.ArgumentParser(description=__doc__, formatter_class=argparse.RawDescriptionHelpFormatter)
    parser.add_argument("crate", metavar="CRATE")
    parser.add_argument("--laws", nargs="+", default=[], metavar="RULESET")
    parser.add_argument("--again", nargs="+", default=[], metavar="FUNCTION")
    args = parser.parse_args()
    crate = pathlib.Path("crates", args.crate)
    if not crate.is_dir():
        sys.exit("proofs.py: no folder crates/%s here" % args.crate)
    [module_of(crate, law) for law in args.laws]  # one that is not there is refused before anything is done
    again = {path: function for function in args.again for path in files_of(crate, function)}
    old = {path: path.read_text(encoding="utf-8") for path in again}
    done = set()
    try:
        for path, text in old.items():
            opening, uses, blocks = parts(text)
            others = [block for block in blocks if not SEARCH.match(block)]
            write(path, opening, uses, others) if others else path.unlink()
        log, _ = check(crate)
        steps = steps_of(log)
        done = {path for path, function in again.items() if re.search(r"(?m)^fn (?:\w+::)+%s: proved$" % function, log)}
        for found, asked in asked_for(log):
            path = crate / found
            if path.name == "Answers.antt":
                answer(crate, path, asked, steps, args.laws, old.get(path, ""))
                done.add(path)
            elif not path.exists():
                path.parent.mkdir(parents=True, exist_ok=True)
                path.write_text(heading(crate, path) + asked, encoding="utf-8")
                print("%s: fill its holes" % path)
    finally:
        for path in set(old) - done:
            path.write_text(old[path], encoding="utf-8")
            print("%s: as it was, the check did not come to it" % path)
    for line in log.split("\n"):  # what is left for another run, and what stands in the way
        if re.match(r"fn \S+: no(?:t proved| proof: (?:it calls|expected a measure))|\S+: error:|error", line):
            print(line[:200])


if __name__ == "__main__":
    main()
