"""Holds README.md and docs/*.md against the tree. Run in the repository's root."""
import re
import sys
from pathlib import Path

LINK = re.compile(r"\[[^\]]*\]\(([^)\s]+)\)")
NAME = re.compile(r"`([A-Za-z][\w'-]*)`")
# docs/PORT.md, docs/DESIGN-PASS.md and docs/LOOK-BACK.md tell what names and texts were before, and are held against nothing.
PAGES = [Path("README.md"), Path("twin/README.md"), *(page for page in sorted(Path("docs").glob("*.md")) if page.name not in ("PORT.md", "DESIGN-PASS.md", "LOOK-BACK.md"))]
CRATES = {}  # name: the crates of ours that it uses
for line in Path("crates.txt").read_text().splitlines():
    if line and not line.startswith("#"):
        crate, uses = line.split(":")
        CRATES[crate.split()[0]] = uses.split()

faults = []
counts = dict.fromkeys(["links", "names", "statements", "calls", "paths", "edits", "crates", "programs", "bytes", "helpers"], 0)


def check(kind, held, fault):
    counts[kind] += 1
    if not held:
        faults.append(fault)


def occurs(name, text):
    return re.search(rf"(?<![\w'-]){re.escape(name)}(?![\w'-])", text) is not None


def prose(page):
    """The lines of a page outside its fenced blocks, with their numbers."""
    fenced = False
    for number, line in enumerate(page.read_text().splitlines(), 1):
        if line.startswith("```"):
            fenced = not fenced
        elif not fenced:
            yield f"{page}:{number}", line


def sources(page, text):
    """The code and proof files that a text links to."""
    linked = [page.parent / target for target in LINK.findall(text)]
    return [path for path in linked if path.suffix in (".antt", ".rt") and path.is_file()]


def check_links():
    for page in PAGES:
        for where, line in prose(page):
            for target in LINK.findall(line):
                if not re.match(r"[a-z]+:", target):
                    check("links", (page.parent / target.split("#")[0]).exists(), f"{where}: no file {target}")


def held_by(where, names, paths):
    text = "\n".join(path.read_text() for path in paths)
    for name in names:
        check("names", occurs(name, text), f"{where}: `{name}` is not in {', '.join(map(str, paths))}")


def check_names():
    """A name beside a link stands in the linked file: names and links in one part of a cell, or a cell of links after one of names;
    in running text, names followed by 'in [..](..)'."""
    for page in PAGES:
        for where, line in prose(page):
            if line.startswith("|"):
                before = []
                for cell in line.strip("|").split(" | "):
                    for part in cell.split(";"):
                        names = NAME.findall(part)
                        if sources(page, part):
                            held_by(where, names or before, sources(page, part))
                    before = NAME.findall(cell)
            else:
                for names, link in re.findall(r"((?:`[^`]+`(?:, | and )?)+) in (\[[^\]]*\]\([^)]+\))", line):
                    if sources(page, link):
                        held_by(where, NAME.findall(names), sources(page, link))


def check_known():
    """A theorem's sentence, a definition's, a function's or a crate's name stands somewhere in the sources, linked or not."""
    text = "\n".join(path.read_text() for kind in ["*.antt", "*.rt"] for path in Path("crates").rglob(kind))
    for path in ["crates.txt", "include/pds.h", "tools/build-lib", "rust/src/lib.rs", "rust/build.rs"]:
        text += Path(path).read_text()
    edits = {path.stem for path in Path("crates").glob("*/must-fail/*.edit")}
    for page in PAGES:
        for where, line in prose(page):
            for name in NAME.findall(line):
                if page.parent.name != "twin" and name not in edits and re.search(r"-\w+-|[a-z][A-Z]|_", name):
                    check("names", occurs(name, text), f"{where}: `{name}` is nowhere in the sources")


def defined_in(proofs):
    """The public definitions of a file of proofs. A view (`data`) is none: its cases are what a theorem says."""
    return set(re.findall(r"^ *(?:(?:abbrev|unfoldable) pub|pub record) ([^\s:({]+)", proofs.read_text(), re.M))


def at_hand(proofs):
    """Those of a file and of the files of proofs that it uses."""
    names = defined_in(proofs)
    for crate, module, imported in re.findall(r"^use Rattle\.(\w+)\.proofs\.([\w.+]+)\.\{([^}]*)\}", proofs.read_text(), re.M):
        used = Path("crates", crate, "proofs", *module.split(".")).with_suffix(".antt")
        names |= defined_in(used) & {name.strip() for name in imported.split(",")} if used.is_file() else set()
    return names


def statements(text):
    """Each public theorem's name and statement, with what the modules around it assume."""
    theorem = r"^( *)pub ([^\s:]+) :(.*?)\n\1(?:unfolding .*?\n\1)?\2(?= )"
    around = [(m.start(), len(m[1]), m[2]) for m in re.finditer(r"^( *)module _ (.*?) where$", text, re.M | re.S)]
    for m in re.finditer(theorem, text, re.M | re.S):
        assumed, depth = "", len(m[1])
        for start, indent, said in reversed(around):
            if start < m.start() and indent < depth:
                assumed, depth = said + assumed, indent
        yield m[2], assumed + m[3]


def check_statements():
    """What the statement of a theorem that a page names speaks of is defined in specs/, not among proofs. A theorem's name is a sentence,
    and a page that names a function or a definition of specs/ by the same words means that."""
    named = {name for page in PAGES for _, line in prose(page) for name in NAME.findall(line)}
    for path in Path("crates").glob("*/src/**/*.rt"):
        named -= set(re.findall(r"\bfn (\w+)", path.read_text()))
    for path in Path("crates").glob("*/specs/**/*.antt"):
        named -= set(re.findall(r"^ *(?:abbrev|unfoldable) pub (\S+)", path.read_text(), re.M))
    for path in sorted(Path("crates").glob("*/proofs/**/*.antt")):
        there = at_hand(path)
        for theorem, said in statements(path.read_text()):
            if theorem in named and "_" in theorem:
                among = sorted(name for name in there if occurs(name, said))
                check("statements", not among, f"{path}: `{theorem}` speaks of {', '.join(among)}, defined among proofs")


def check_calls():
    """`crate::name` is a public function, type or module of that crate. BENCHMARK has the compiler's names, of the day it ran."""
    for page in PAGES:
        if page.name == "BENCHMARK.md":
            continue
        for where, line in prose(page):
            for crate, name in re.findall(r"`([a-z_]+)::(?:[a-z_]+::)*([\w]+)`", line):
                if crate in CRATES:
                    text = "\n".join(path.read_text() for path in Path("crates", crate, "src").rglob("*.rt"))
                    found = re.search(rf"^pub (fn|struct|enum|mod) {name}\b", text, re.M)
                    check("calls", found, f"{where}: no public {name} in {crate}")


def check_paths():
    """A path in backquotes is there, from the root or from the page, or from crates/ with or without the ending."""
    top = {path.name for path in Path(".").iterdir()} - {"target"}
    for page in PAGES:
        for where, line in prose(page):
            for path in re.findall(r"`([\w.-]+/[\w./-]*)`", line):
                first = path.split("/")[0]
                if "NAME" in path:
                    continue
                if first in top:
                    found = Path(path).exists() or (page.parent / path).exists()
                    check("paths", found, f"{where}: no {path}")
                elif first in CRATES:
                    file = Path("crates", path)
                    check("paths", file.exists() or file.with_suffix(".antt").exists(), f"{where}: no crates/{path}")


def check_edits():
    """Every edit that PROMISES names, as crate/`edit` and further `edit`s in that part, is there; and every edit is named."""
    page, named = Path("docs/PROMISES.md"), set()
    for where, line in prose(page):
        for cell in line.split(" | "):
            for crate, rest in re.findall(r"(?<![\w/.-])([a-z_]+)/((?:`[^`/]+`(?:, )?)+)", cell):
                for edit in re.findall(r"`([^`]+)`", rest):
                    named.add((crate, edit))
                    check("edits", Path("crates", crate, "must-fail", f"{edit}.edit").is_file(), f"{where}: no edit {crate}/{edit}")
    for path in sorted(Path("crates").glob("*/must-fail/*.edit")):
        crate, edit = path.parts[1], path.stem
        check("edits", (crate, edit) in named, f"{page}: does not name the edit {crate}/{edit}")


def public_functions():
    """Each `pub fn` that another crate can reach, of every crate but the programs: crate, name, and whether it has a `requires`."""
    for crate in CRATES:
        root = Path("crates", crate, "src/lib.rt")
        text = root.read_text() if root.is_file() else ""
        files = [root] * bool(text) + [root.with_name(f"{name}.rt") for name in re.findall(r"^pub mod (\w+);", text, re.M)]
        for file in files:
            for name, contract in re.findall(r"^pub fn (\w+)(.*?)(?:^| )\{$", file.read_text(), re.M | re.S):
                yield crate, name, "requires" in contract


def check_helpers():
    """PROMISES has every public function of the library: as `crate::name`, a call, or in a row of helpers, with what it asks."""
    page = Path("docs/PROMISES.md")
    text = page.read_text()
    asks = {}
    for crate, names, what in re.findall(r"^\| `(\w+)` \| ([^|]*) \| ([^|]*) \|", text, re.M):
        asks.update({(crate, name): what != "nothing" for name in re.findall(r"`(\w+)`", names)})
    for crate, name, requires in public_functions():
        call = f"`{crate}::{name}`" in text
        check("helpers", call or (crate, name) in asks, f"{page}: does not name {crate}::{name}")
        check("helpers", requires == asks.get((crate, name), False), f"{page}: what {crate}::{name} asks is not as its contract has it")


def check_map():
    """Every crate has a row in ARCHITECTURE and its place in the map; the arrows say what crates.txt says, with what follows."""
    page = Path("docs/ARCHITECTURE.md")
    text = page.read_text()
    arrows = {pair for pair in re.findall(r"^ *(\w+) --> (\w+)$", text, re.M) if set(pair) <= CRATES.keys()}
    for crate, uses in CRATES.items():
        check("crates", re.search(rf"^\| `{crate}` \|", text, re.M), f"{page}: no row for the crate {crate}")
        check("crates", any(crate in pair for pair in arrows), f"{page}: the crate {crate} is not in the map")
        reached, new = set(), {crate}
        while new:
            new = {to for of, to in arrows if of in new} - reached
            reached |= new
        for used in (set(uses) | reached) & CRATES.keys():
            check("crates", used in reached, f"{page}: no way in the map from {crate} to {used}, which it uses")
    for of, to in sorted(arrows):
        check("crates", to in CRATES[of], f"{page}: {of} --> {to}, and crates.txt does not say so")


def check_programs():
    """A fenced block after a line that ends in a link to a file and a colon is that file."""
    shown = re.findall(r"\]\(([^)]+)\):\n\n```\w*\n(.*?)^```$", Path("README.md").read_text(), re.M | re.S)
    for path, block in shown:
        check("programs", Path(path).is_file() and Path(path).read_text() == block, f"README.md: {path} is not as shown")
    for path in ["examples/first.c", "rust/examples/first.rs"]:
        check("programs", path in dict(shown), f"README.md: does not show {path}")


def bytes_of(path, name, close):
    """The bytes that a file writes out between a name with `=` and a closing sign."""
    block = re.search(rf"^.*\b{name}\b[^\n]*=(.*?){re.escape(close)}", Path(path).read_text(), re.M | re.S).group(1)
    return bytes(map(int, re.findall(r"\d+", block)))


def check_bytes():
    """What a definition spells out is what lies in the example, or what the C test expects."""
    for name in ["fight", "withdrawal"]:
        spec = f"crates/marks/specs/{name.title()}.antt"
        for defined, file in [(name, f"examples/{name}.pdo"), (f"{name}_text", f"examples/{name}.listing")]:
            check("bytes", bytes_of(spec, defined, "[]") == Path(file).read_bytes(), f"{spec}: {defined} is not {file}")
    spec, test = "crates/conventions/specs/Spelled.antt", "tests/c/spelled.c"
    check("bytes", bytes_of(spec, "bytes", "[]") == bytes_of(test, "bytes", "}"), f"{test}: other bytes than {spec}")


for part in [check_links, check_names, check_known, check_statements, check_calls, check_paths, check_edits, check_helpers, check_map, check_programs, check_bytes]:
    part()
for kind, count in counts.items():
    if count == 0:
        faults.append(f"docs: no {kind} found to check")
for fault in faults:
    print(fault, file=sys.stderr)
print("documents: " + ", ".join(f"{count} {kind}" for kind, count in counts.items()) + f" checked, {len(faults)} faults")
sys.exit(1 if faults else 0)
