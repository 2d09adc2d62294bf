#!/usr/bin/env python3
"""contracts.py [--check]: writes the tables of docs/CONTRACTS.md, each between <!-- made: NAME --> and <!-- end -->.

NAME is `exports` or a crate. With --check the page stays, and it is an error where it differs from what the sources give.
The sources are read by their lines, as rt fmt lays them out."""
import re
import sys
from collections import Counter
from pathlib import Path

ROOT = Path(__file__).resolve().parent.parent
PAGE = ROOT / "docs/CONTRACTS.md"
CRATES = re.findall(r"^(\w+)[\w =]*:", (ROOT / "crates.txt").read_text(), re.M)
# How many arguments of these are shown. The others are what is lent, and what is left of it.
SHOWN = {"Gives": 1, "Answers": 1, "Does": 2, "DoesWithoutJournal": 1, "Lent": 1, "Admits": 1, "Puts": 1}
# A wrong program is a call's own where at most FEW calls share it. A call has FEWEST of them, and the table of the exports names up to NAMED.
FEW, FEWEST, NAMED = 4, 2, 8


class Item:
    """A function, a constant or an enum of the code, or a definition."""

    def __init__(self, kind, file, owner, name, text, notes, trait=None, given=None):
        self.kind, self.file, self.owner, self.name, self.text, self.notes = kind, file, owner, name, text, notes
        # Of a method: its trait, and what the impl gives the clauses of that, which are the promise of the method.
        self.trait, self.given, self.promise = trait, given or {}, text
        self.crate, _, *modules = file.relative_to(ROOT / "crates").with_suffix("").parts
        self.place = (self.crate, *(module for module in modules if module not in ("lib", "main")))
        self.key = (*self.place, *owner, name)
        self.uses, self.users, self.edits = [], [], []

    def public(self):
        return self.kind == "fn" and (self.trait is not None or self.text.lstrip().startswith("pub "))

    def exported(self):
        return self.kind == "fn" and self.text.startswith("pub extern ")

    def clauses(self, word):
        """What the contract of a function requires or ensures."""
        head = re.split(r"\n *\{\n", self.promise, maxsplit=1)[0]
        return [inside(head, begins.end()) for begins in re.finditer(rf"^ *{word}(?: \w+)? \{{", head, re.M)]


def inside(text, start):
    """What stands between a brace, before the start, and the one that closes it."""
    depth = 1
    for at in range(start, len(text)):
        depth += {"{": 1, "}": -1}.get(text[at], 0)
        if depth == 0:
            return text[start:at].strip()
    sys.exit(f"contracts: no brace closes {text[start:]}")


class Edit:
    """A must-fail edit: what is true, and what it changes."""

    def __init__(self, file):
        text = file.read_text()
        self.crate, self.label, self.true = file.parts[-3], file.stem, text.split("\n", 1)[0].strip("# ")
        self.file = file.parents[1] / re.search(r"^file: (.*)", text, re.M)[1]
        self.olds = re.findall(r"^old: (.*)", text, re.M)


def imports(text, word):
    """The paths that the use items of a file bring in."""
    for path, names in re.findall(rf"^{word} ([\w:]+?)(?:::\{{([\w\s,]*)\}})?;", text, re.M):
        for name in re.findall(r"\w+", names) or [None]:
            yield tuple(path.split("::")) + ((name,) if name else ())


def code_of(file):
    """The functions, constants and enums of a file of src/, each with the comment over it."""
    lines, notes, owner, trait, given = iter(file.read_text().split("\n")), [], (), None, {}
    for line in lines:
        begins = re.match(r'( *)(?:pub )?(?:extern "C" )?(fn|const|enum) (\w+)', line)
        if begins:
            body, end = [line], begins[1] + ("];" if begins[2] == "const" else "}")
            # A method that a trait leaves to its impls ends with its last clause.
            while body[-1] != end and not (body[-1].endswith(";") and not any(part.endswith("{") for part in body)):
                body.append(next(lines))
            yield Item(begins[2], file, owner, begins[3], "\n".join(body), " ".join(notes), trait, given)
        of = re.match(r"impl(?:<.*?>)? (?:(\S+) for )?(\w+)|pub trait (\w+)", line)
        if of or line.startswith("}"):
            declared = of and re.sub(r"^\w+::", "", of[1] or of[3] or "")
            owner, trait, given = ((f"{declared} for {of[2]}" if of[1] else of[2] or of[3],), declared or None, {}) if of else ((), None, {})
        told = re.match(r" +ghost (\w+) = \{ (.*) \};", line)
        if told:
            given[told[1]] = told[2]
        if not line.lstrip().startswith("#["):
            notes = notes + [line.strip(" /")] if line.lstrip().startswith("//") else []


def definitions_of(file):
    """The definitions of a file of specs/. A comment speaks of all of them up to the next comment."""
    notes = ""
    for block in file.read_text().split("\n\n"):
        notes = " ".join(line[2:].strip() for line in block.split("\n") if line.startswith("--")) or notes
        begins = re.search(r"^(?:(?:unfoldable|abbrev|pub|record|data) )+(?!use |mod )(\S+)", block, re.M)
        if begins:
            yield Item("definition", file, (), begins[1], block, notes)


class Sources:
    """All items by their keys, each with what it uses, who uses it and the edits that change it."""

    def __init__(self):
        code = [file for crate in CRATES for file in sorted(ROOT.glob(f"crates/{crate}/src/**/*.rt"))]
        specs = [file for crate in CRATES for file in sorted(ROOT.glob(f"crates/{crate}/specs/**/*.antt"))]
        self.edits = [Edit(file) for crate in CRATES for file in sorted(ROOT.glob(f"crates/{crate}/must-fail/*.edit"))]
        self.texts = {file: file.read_text() for file in code + specs}
        self.code = {item.key: item for file in code for item in code_of(file)}
        self.definitions = {item.key: item for file in specs for item in definitions_of(file)}
        for item in self.code.values():
            if item.trait and f"{item.trait} for " in item.owner[0]:
                item.promise = self.promised_by_the_trait(item)
        self.items = [*self.code.values(), *self.definitions.values()]
        self.passed_on = dict(pair for item in self.items for pair in self.passed_on_at(item))
        for item in self.items:
            text = item.text if item.kind == "definition" else " ".join(item.clauses("ensures"))
            found = [*self.called_by(item), *self.definitions_in(item, text)]
            item.uses = [used for used in dict.fromkeys(found) if used and used is not item]
            for used in item.uses:
                used.users.append(item)
        for edit in self.edits:
            for item in self.changed_by(edit):
                item.edits.append(edit)

    def promised_by_the_trait(self, item):
        """What the trait of an impl declares of its method; of the library's, what the impl gives it."""
        for declared in self.code.values():
            if declared.owner == (item.trait,) and declared.name == item.name:
                return declared.text
        return "\n".join(f"ensures {{ {given} }}" for given in item.given.values()) + "\n{\n"

    def passed_on_at(self, item):
        """The names that the module of an item passes on from others (`pub use`)."""
        for path in imports(self.texts[item.file], "pub use"):
            yield (*item.place, path[-1]), path if path[0] in CRATES else (*item.place, *path)

    def find(self, item, path):
        """The function or constant that a path means at an item."""
        brought = [one for one in imports(self.texts[item.file], "(?:pub )?use") if one[-1] == path[0]]
        path = (*brought[0], *path[1:]) if brought else path
        for key in [(item.crate, *path[1:])] if path[0] == "crate" else [(*item.place, *path), path]:
            for length in range(1, len(key) + 1):
                if key[:length] in self.passed_on:
                    key = (*self.passed_on[key[:length]], *key[length:])
            if key in self.code:
                return self.code[key]

    def called_by(self, item):
        """The functions that an item calls, and the constants that it names."""
        if item.kind == "definition":
            return
        text = re.sub(r"//.*", "", item.text)
        for path in re.findall(r"(?<![.:\w])((?:\w+::)*(?:[A-Z][A-Z0-9_]+\b|\w+(?=\()))", text):
            yield self.find(item, tuple(path.split("::")))
        for name in re.findall(r"\.(\w+)\(", text):
            methods = [method for method in self.code.values() if method.owner and method.name == name]
            yield from [method for method in methods if method.owner[0] in self.texts[item.file]] or methods

    def definitions_in(self, item, text):
        """The definitions that a text of an item names."""
        names = {}
        for crate, module, brought in re.findall(r"use Rattle\.(\w+)\.specs\.([\w.]+)\.\{([^}]*)\}", self.texts[item.file]):
            for given, here in re.findall(r"([^\s,]+)(?: as ([^\s,]+))?", brought):
                names[here or given] = (crate, *module.split("."), given)
        found = [self.definitions.get(names.get(word, (*item.place, word))) for word in re.findall(r"[^\s(){};,.«»]+", text)]
        return [one for one in dict.fromkeys(found) if one]

    def changed_by(self, edit):
        """The items that have the text that an edit changes."""
        found = [item for item in self.items if item.file == edit.file and any(old in item.text for old in edit.olds)]
        if not found:
            sys.exit(f"contracts: {edit.crate}/{edit.label} changes no function, constant, enum or definition")
        return found


def reached(start, step):
    """The items that steps lead to, each with the number of steps; the start is among them."""
    found, nexts = {start: 0}, [start]
    for item in nexts:
        for other in step(item):
            if other not in found:
                found[other] = found[item] + 1
                nexts.append(other)
    return found


def row_of(item):
    """The public functions of an item's crate that are nearest above it, or the item where there are none."""
    above = reached(item, lambda one: [] if one.public() else [user for user in one.users if user.crate == item.crate])
    nearest = min((steps for one, steps in above.items() if one.public()), default=0)
    return [one for one, steps in above.items() if steps == nearest and one.public()] or [item]


def short(clause):
    """A clause without what a reader need not see: x is what is lent, x′ what is left of it."""
    clause = re.sub(r"«(\w+)»", r"\1", " ".join(clause.split()))
    clause = re.sub(r"\b(\w+)\.(?:now|old)\b", r"\1", clause)
    clause = re.sub(r"\b(\w+)\.new\b", r"\1′", clause)
    words = re.findall(r"[^\s()]+|\((?:[^()]|\((?:[^()]|\((?:[^()]|\([^()]*\))*\))*\))*\)", clause)
    return " ".join(words[: 1 + SHOWN[words[0]]]) if words[0] in SHOWN else clause


def code(text):
    return "`" + text.replace("|", "\\|") + "`"


def signature(item):
    lent = re.search(r"fn \w+[^(]*\((.*?)\)(?: ->| \{|\n)", item.text, re.S)[1]
    names = re.findall(r"self|\w+(?=: )", lent)
    return code("::".join(item.key[1:]) + f"({', '.join(names)})")


def contract(item):
    given = ", ".join(code(short(clause)) for clause in item.clauses("requires"))
    promised = "; ".join(code(short(clause)) for clause in item.clauses("ensures"))
    named = "; ".join(f"{code(name)} is {code(text)}" for name, text in item.given.items() if name in promised and text not in promised)
    return (f"where {given}: " if given else "") + promised + (f", where {named}" if named else "")


def sentence(sources, item):
    """The comment over the crate's own definition that a clause gives; where there is none the one over the function, or another crate's."""
    own, others = [], []
    for clause in item.clauses("ensures"):
        given = [one for one in sources.definitions_in(item, clause.split("≡", 1)[-1]) if one.name not in SHOWN]
        own += [one.notes for one in given if one.crate == item.crate][:1]
        others += [one.notes for one in given][:1]
    return "; ".join(dict.fromkeys(own)) or item.notes or "; ".join(dict.fromkeys(others))


def table(heads, rows):
    return "\n".join(f"| {' | '.join(cells)} |" for cells in [heads, ["---"] * len(heads), *rows])


def room(sources, crate):
    """The table of a crate: its public functions, then what else an edit changes."""
    tried = {}
    for item in sources.items:
        for edit in item.edits:
            for shown in row_of(item) if edit.crate == crate else []:
                tried.setdefault(shown, {})[edit.label] = edit
    items = [item for item in sources.items if item.crate == crate]
    bare = [item for item in items if item.public() and not item.clauses("ensures") and item not in tried]
    rows = []
    for item in items:
        if item in tried or item.public() and item not in bare:
            refused = "; ".join(f"{edit.true} (`{edit.label}`)" for edit in tried.get(item, {}).values())
            promised = contract(item) if item.kind == "fn" else item.kind
            rows.append([signature(item) if item.kind == "fn" else code(item.name), promised, sentence(sources, item).replace("|", "\\|"), refused])
    told = [table(["function", "contract", "it states", "what is true (the wrong program that is refused)"], rows)] if rows else []
    if bare:
        told.append("Safe, and nothing more is promised: " + ", ".join(signature(item) for item in bare) + ".")
    return "\n\n".join(told)


def exports(sources):
    """The table of what C calls, with the edits of all that a call runs and that its contract names."""
    ways = {}
    for item in filter(Item.exported, sources.items):
        steps = reached(item, lambda one: one.uses)
        ways[item] = {edit: steps[one] for one in reversed(steps) for edit in one.edits}
    shared, rows = Counter(edit for way in ways.values() for edit in way), []
    for item, way in ways.items():
        own = sorted((edit for edit in way if shared[edit] <= FEW), key=lambda edit: (shared[edit], way[edit]))
        if item.clauses("requires") or len(own) < FEWEST:
            sys.exit(f"contracts: {item.name} requires something, or has fewer than {FEWEST} wrong programs of its own")
        named = ", ".join(f"`{edit.crate}/{edit.label}`" for edit in own[:NAMED]) + (", .." if own[NAMED:] else "")
        rows.append([signature(item).replace("::".join(item.place[1:]) + "::", ""), contract(item), named, str(len(own)), str(len(way))])
    return table(["call", "contract", "its own wrong programs", "own", "in all"], rows)


def page(sources, text):
    """The page with its tables made anew, and the names of those that change."""
    tables = {crate: room(sources, crate) for crate in CRATES if crate != "rikkovan"} | {"exports": exports(sources)}
    wanted, marks = Counter(name for name in tables if tables[name]), Counter(re.findall(r"<!-- made: (\w+) -->", text))
    if marks != wanted:
        sys.exit(f"contracts: marks that docs/CONTRACTS.md lacks: {[*wanted - marks]}; that it has and nothing makes: {[*marks - wanted]}")
    changed = []

    def made(mark):
        name = mark[1]
        block = f"<!-- made: {name} -->\n\n{tables[name]}\n\n<!-- end -->"
        if block != mark[0]:
            changed.append(name)
        return block

    text = re.sub(r"<!-- made: (\w+) -->\n.*?<!-- end -->", made, text, flags=re.S)
    edits = {(edit.crate, edit.label) for edit in sources.edits}
    for crate, label in re.findall(r"`(\w+)/(\w+)`", text):
        if crate in CRATES and label not in ("src", "specs", "proofs") and (crate, label) not in edits:
            sys.exit(f"contracts: docs/CONTRACTS.md names {crate}/{label}, and there is no such edit")
    return text, changed


def main():
    text, changed = page(Sources(), PAGE.read_text())
    if sys.argv[1:] == ["--check"]:
        if changed:
            sys.exit(f"contracts: the sources give other tables of {', '.join(changed)} in docs/CONTRACTS.md; run make contracts, and read what changes")
        return
    PAGE.write_text(text)
    print(f"contracts: docs/CONTRACTS.md, changed tables: {', '.join(changed) or 'none'}")


main()
