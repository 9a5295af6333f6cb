"""What docs/PROMISES.md names, held against the sources.

A name in italics is a definition below `specs/`. One in backticks is an item of code, as `Slice::act`, `chi_node::parts`
or `step_on`; a clause of an item, a field of a record, or a constructor; a file or a folder; a word of a command line;
or one of the `TEXTS`. In a row of a table each clause and each definition has to be one of the items that the
row names, or else the row before: it stands in their contracts, or in a definition that these come to.
"""

import re
from pathlib import Path

TOP = Path(__file__).resolve().parent.parent
# (what the page shows that is no name of a source: a file's first bytes, the end of some names, and other programs)
TEXTS = {"CHIS", ".._end", "rt version", "rumur"}
ITEM = re.compile(r"( *)(?:pub(?:\([^)]*\))? +)?(?:extern \"C\" +)?(fn|struct|enum|trait|const|rule) +(\w+)")
OWNER = re.compile(r"impl(?:<.*?>)? +(?:.* for +)?(\w+)")
KEPT = re.compile(r"impl\b.*?\b(\w+)(?:<[^>]*>)? for ")
DEFINED = re.compile(r"(?:(?:abbrev|unfoldable|pub|record|data) +)*(\w+)")


class Item:
    """A function or a type: whose it is, its name, and the text of its contract."""

    def __init__(self, crate, owner, name, contract):
        self.places = {name, f"{crate}::{name}", f"{owner}::{name}", f"{crate}::{owner}::{name}"}
        self.crate = crate
        self.clauses = set(re.findall(r"\b(?:ensures|requires|ghost) +(\w+)(?=:| [={])", contract))
        self.words = set(re.findall(r"\w+", contract))


def contract_of(lines, at, ends):
    """The lines of an item from its name to the first that ends its contract."""
    taken = []
    for line in lines[at:]:
        taken.append(line)
        if ends(line):
            break
    return "\n".join(taken)


def ends_of(line, indent, kind):
    """What the last line of an item's contract is like, by the item's first line."""
    if kind != "fn":
        return lambda it: it.startswith(indent + "}") or it.endswith(";") and it.startswith(indent + kind)
    if line.endswith(("{", "}", ";")):
        return lambda it: True
    return lambda it: it in (indent + "{", indent + "}") or it.endswith(";") or it.startswith(indent + ")") and it.endswith("{")


def items_in(path):
    """The items of a file of code; what a type keeps is in its contract."""
    lines, items, owner = path.read_text().splitlines(), [], ""
    crate = path.relative_to(TOP / "crates").parts[0]
    for at, line in enumerate(lines):
        if found := OWNER.match(line):
            owner = found[1]
            if kept := KEPT.match(line):
                contract = contract_of(lines, at, lambda it: it == "}")
                items += [Item(crate, crate, owner, contract), Item(crate, owner, kept[1], contract)]
        elif line.startswith("}"):
            owner = ""
        elif found := ITEM.match(line):
            contract = contract_of(lines, at, ends_of(line, found[1], found[2]))
            items.append(Item(crate, owner or crate, found[3], contract))
    return items


def listed_words():
    """The words of each line of crates.txt but for its comment: a crate, what it may do, and what it uses."""
    lines = [it.partition("#")[0] for it in (TOP / "crates.txt").read_text().splitlines()]
    return [re.findall(r"\w+", it) for it in lines if it.strip()]


def crates():
    """The crates of crates.txt."""
    return {it[0] for it in listed_words()}


def definitions():
    """The definitions of all `specs/`: of each name the words of its blocks."""
    words = {}
    for path in (TOP / "crates").glob("*/specs/**/*.antt"):
        text = re.sub(r"(?m)--.*$", "", path.read_text())
        for block in re.split(r"\n\s*\n", text):
            names = {it[1] for it in map(DEFINED.match, block.splitlines()) if it and it[1] not in ("use", "where")}
            for name in names:
                words.setdefault(name, set()).update(re.findall(r"[\w-]+", block))
    return words


class Sources:
    """All that the page may name."""

    def __init__(self):
        self.items, self.of_crate, self.clauses = {}, {}, set()
        for path in sorted((TOP / "crates").glob("*/src/**/*.rt")):
            for item in items_in(path):
                self.add(item)
        self.program = "".join(it.read_text() for it in (TOP / "crates/chi_program/src").glob("*.rt"))
        self.definitions = definitions()
        # (crates, ported ones too; fields of records and constructors; and what definitions take of a ported crate)
        specs = "".join(it.read_text() for it in (TOP / "crates").glob("*/specs/**/*.antt"))
        ported = re.findall(r"use Rattle\.(?!chi_|std)[\w.]+\.\{([^}]*)\}", specs)
        self.words = {it for words in listed_words() for it in words} | set(re.findall(r"\w+", " ".join(ported)))
        self.words |= set(re.findall(r"(?m)^ +(?:pub )?(\w+) :", specs))

    def add(self, item):
        """Puts an item in all its places."""
        self.clauses |= item.clauses
        self.of_crate.setdefault(item.crate, []).append(item)
        for place in item.places:
            self.items.setdefault(place, []).append(item)

    def reached(self, words):
        """The words that definitions come to from these."""
        reached, left = set(words), [it for it in words if it in self.definitions]
        while left:
            new = self.definitions[left.pop()] - reached
            reached |= new
            left += [it for it in new if it in self.definitions]
        return reached

    def of_row(self, names):
        """The items that a row names: of a bare name those of a type that the row names, if there are such."""
        owners = {it.rpartition("::")[0] for it in names if "::" in it} | {it for it in names if it[0].isupper()}
        found = []
        for name in names:
            own = [item for owner in sorted(owners) for item in self.items.get(f"{owner}::{name}", [])]
            known = [] if name in self.clauses else self.items.get(name, self.of_crate.get(name, []))
            found += own or known
            found += self.items.get(name.rpartition("::")[0], [])
        return [it for it in found if not it.crate.endswith("_tests")]


def is_there(sources, name):
    """Whether a name in backticks is there: an item, a clause, a file or a folder, or a word of a command line."""
    if name in TEXTS or name in sources.items or name in sources.words or name in sources.clauses:
        return True
    if name.startswith(("--", "chihome ")):
        return f'"{name.removeprefix("chihome ").strip("-")}"' in sources.program
    folders = [TOP, TOP / "library", TOP / "tests/murphi", *(TOP / "crates").iterdir()]
    return any((it / name).exists() for it in folders) if re.search(r"[./]", name) else name in sources.definitions


def names_in(text):
    """The names of a text in backticks, and those in italics."""
    return re.findall(r"`([^`]+)`", text), re.findall(r"(?<!\*)\*(\w+)\*(?!\*)", text)


def wrong_in_row(sources, cell, items):
    """What a row's last cell names that isn't one of these items."""
    names, words = names_in(cell)
    reached = sources.reached({word for item in items for word in item.words})
    own = reached.union(*(it.clauses for it in items))
    return [it for it in names if it in sources.clauses and it not in sources.items and it not in own] + [
        it for it in words if it not in reached]


def wrong_promises():
    """What the page names that isn't there, and what is there of no item of its row."""
    sources, text = Sources(), (TOP / "docs/PROMISES.md").read_text()
    names, words = names_in(text)
    wrong = [f"there is no {it}" for it in sorted(set(names)) if not is_there(sources, it)]
    wrong += [f"there is no definition {it}" for it in sorted(set(words)) if it not in sources.definitions]
    items = []
    for number, line in enumerate(text.splitlines(), 1):
        if line.startswith("| "):
            cell = line.rstrip(" |").rpartition(" | ")[2]
            items = sources.of_row(names_in(cell)[0]) or items
            wrong += [f"line {number}: {it} is of no item that the row names" for it in wrong_in_row(sources, cell, items)]
    return wrong
