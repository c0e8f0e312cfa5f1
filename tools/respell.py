#!/usr/bin/env python3
"""Spells this repository's own definitions and lemmas as Rattle does today: words in snake case, types and modules in camel case.

It ran once, after the kit's port.py, at the commit that docs/PORT.md names. It takes each name that a file of specs/ or a lemma
file of proofs/ declares, and that has a capital inside or a dash, and writes it so everywhere: in definitions, proofs, clauses,
must-fail edits and the code spans of the pages. --check writes nothing and lists the names with what each would collide with.
"""
import collections
import os
import re
import sys

NAME = r"[^\s(){}.;,@\"«»]+"
DECLARED = re.compile(r"^\s*(?:(?:abbrev|unfoldable|pub|data|record|ruleset) +)*(" + NAME + r")(?: +\{[^}]*\})* +:(?: |$)")
# Lemmas that would fall together with the definition that they are about: these end in '_lem', as in the library.
LEMMAS = """counts-fit finished-by going-on hint-fits idle-fits in-range max-fits max-of mirror-value operation-fits order-fits own-leaves place-fits
record-of same-plain stage-fits step-leaves strip-fits turned-away""".split()
CLAUSE = re.compile(r"(?:requires|ensures)\s*\*?\s*(?:\w+\s*)?\{|ghost\s+use\b")
# What port.py had turned in the sources before, for the edits and pages, which it leaves.
PORTED = """add-at add-read add-wide add-words after-call all-of-each all-read all-three all-valid allBelow alone-at as-long as-many
askedOf at-of at-set at-stage atEntry atPlace before-of below-parts by-answer by-tests bytes-left bytes-of bytesOf callAt callIn callOf
calls-count callsOf came-from carriedOf carries-over cellsIn claimOf comes-back comes-home copied-all copied-more each-below each-fits
effect-is end-is end-of ends-at entry-row every-append every-call every-drop every-one every-set every-take fieldOf fill-spec filled-is
first-fits first-piece first-read firstOf frees-local fresh-at front-length full-at getD-any getD-past gives-up goes-on going-on
header-is imageOf in-order in-place inTurn is-below isOrder joins-array lacks-both laidOf leaves-all left-is left-typed lends-again
lends-first length-taken lengthOf let-through lies-in lies-out line-at lineAt lineOf linesFrom linesOf linesTold listedOf localTy look-is
main-spec maxOf mul-at namedOf no-lower no-number number-fits number-is number-read numberAt numberIn numberOf of-left of-right
one-digit-more one-more one-place one-word-more order-is out-of-range own-alone ownOf pairs-set part-at past-next place-inside place-is
place-of placeIn placeOf placesOf plainOf puts-then read-done read-meets read-spec record-is record-of refusal-is row-at row-count rowOf
rowsFrom run-ends run-spec runOf said-of said-typed saidOf same-after same-length same-number same-spec says-at second-fits seenAt set-is
some-left some-number some-right spelled-is stands-after stands-at start-of start-spec startOf stateOf step-spec stepOf sub-same swap-spec
swapped-fits table-kept tableOf test-of text-of to-front to-read to-write told-is told-typed turnOf twoWords validOf value-after valueAt
valueOf values-length valuesOf when-looks whole-run word-fits word-in wordAt wordBytes wordOf words-are words-are-parts words-inside
words-left words-more words-of wordsTo write-done write-meets write-spec writtenOf""".split()


def snake(name):
    """The name with its words joined by '_'. A word of capitals alone is one of the figure's own, and keeps them."""
    name = re.sub(r"(?<=[a-z0-9])(?=[A-Z])", "_", name)
    name = re.sub(r"(?<=[A-Z])([a-z]+)(?=[0-9])", r"\1_", name)
    return "_".join(w.lower() if re.match(r"[A-Z][a-z]", w) else w for w in re.split(r"[-_]", name))


def files(*kinds):
    for root, dirs, names in os.walk("."):
        dirs[:] = sorted(d for d in dirs if d not in ("out", ".git", "target"))
        for name in sorted(names):
            if name.endswith(kinds):
                yield os.path.join(root, name)[2:]


def is_own(path):
    """A file of definitions or of lemmas: not the proof of one function."""
    parts = path.split("/")
    return path.startswith("crates/") and path.endswith(".antt") and parts[2] in ("specs", "proofs") and len(parts) == 4


def read(path):
    with open(path, encoding="utf-8") as f:
        return f.read()


def from_the_kit():
    """The names that some file takes from a module that isn't this repository's."""
    crates = set(os.listdir("crates"))
    got = set()
    for path in files(".antt", ".rt"):
        for module, items in re.findall(r"use ([^\s;{]+)\.\{([^}]*)\}", read(path)):
            parts = module.split(".")
            if parts[0] != "Rattle" or parts[1] not in crates:
                for item in items.split(","):
                    got |= set(item.split(" as "))
    return {g.strip() for g in got}


def table():
    declared = collections.defaultdict(set)
    for path in files(".antt"):
        if is_own(path):
            for line in read(path).split("\n"):
                m = DECLARED.match(line) if not line.lstrip().startswith("--") else None
                if m:
                    declared[m[1]].add(path)
    kit = from_the_kit()
    rows = {}
    for name in declared:
        if name in kit or snake(name) in kit or not name[0].islower():
            continue
        if "-" in name or re.search(r"[a-z0-9][A-Z]", name):
            rows[name] = snake(name) + ("_lem" if name in LEMMAS else "")
    return {a: b for a, b in rows.items() if a != b}, declared, kit


def turner(rows):
    word = re.compile(r"[^\s(){}.;,@\"«»]+")
    return lambda text: word.sub(lambda m: rows.get(m[0], m[0]), text)


def code_lines(text, turn, mark):
    """Each line's code turned, its comment left."""
    out = []
    for line in text.split("\n"):
        at = 0 if line.lstrip().startswith(mark) else len(line)
        out.append(turn(line[:at]) + line[at:])
    return "\n".join(out)


def comments(text, rows, mark):
    """In comments only names with a capital inside: a dash there is English."""
    camel = turner({a: b for a, b in rows.items() if "-" not in a})
    prose = re.compile(r"[A-Za-z0-9_]+")
    small = {a: b for a, b in rows.items() if "-" not in a}
    out = []
    for line in text.split("\n"):
        if line.lstrip().startswith(mark):
            line = prose.sub(lambda m: small.get(m[0], m[0]), line)
        out.append(line)
    return "\n".join(out)


def clauses(text, turn):
    """The clauses and ghost lines of a source, turned."""
    out, at = [], 0
    for m in CLAUSE.finditer(text):
        if m.start() < at:
            continue
        if m[0].startswith("ghost"):
            end = text.index(";", m.end())
        else:
            deep, end = 1, m.end()
            while deep:
                deep += (text[end] == "{") - (text[end] == "}")
                end += 1
        out += [text[at:m.start()], turn(text[m.start():end])]
        at = end
    return "".join(out) + text[at:]


def spans(text, turn):
    """The code spans and fenced blocks of a page, turned."""
    return re.sub(r"```.*?```|`[^`\n]+`", lambda m: turn(m[0].replace("`", " ` ")).replace(" ` ", "`") if "```" not in m[0] else turn(m[0]), text, flags=re.S)


def edit(text, rows):
    """An edit's lines of definitions or clauses, turned: a dash in Rust's code has spaces beside it."""
    turn = turner(rows)
    return "\n".join(turn(line) if re.match(r"(old|new):", line) else line for line in text.split("\n"))


def main():
    check = "--check" in sys.argv
    rows, declared, kit = table()
    turn = turner(rows)
    by_new = collections.defaultdict(set)
    for a, b in rows.items():
        by_new[b].add(a)
    tokens = collections.defaultdict(set)
    for path in files(".antt", ".rt"):
        for t in re.findall(r"[^\s(){}.;,@\"«»]+", read(path)):
            tokens[t].add(path)
    for new, olds in sorted(by_new.items()):
        if len(olds) > 1:
            print("falls together:", new, sorted(olds))
        if new in kit:
            print("is the kit's:", new, sorted(olds))
        if new in declared:
            print("is declared:", new, sorted(olds), sorted(declared[new]), sorted(set().union(*(declared[o] for o in olds))))
        elif new in tokens:
            print("is used:", new, sorted(olds), sorted(tokens[new])[:6])
    if check:
        for a, b in sorted(rows.items()):
            print(a, b)
        return
    for path in files(".antt"):
        text = read(path)
        new = comments(code_lines(text, turn, "--"), rows, "--")
        if new != text:
            open(path, "w", encoding="utf-8").write(new)
    for path in files(".rt"):
        text = read(path)
        new = comments(clauses(text, turn), rows, "//")
        if new != text:
            open(path, "w", encoding="utf-8").write(new)
    every = {**{name: snake(name) for name in PORTED}, **rows}
    for path in files(".edit"):
        text = read(path)
        new = edit(text, every)
        if new != text:
            open(path, "w", encoding="utf-8").write(new)
    for path in files(".md"):
        text = read(path)
        new = spans(text, turner(every))
        if new != text:
            open(path, "w", encoding="utf-8").write(new)


main()
