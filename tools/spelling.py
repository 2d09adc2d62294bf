#!/usr/bin/env python3
"""Brings the repository's own definitions and lemmas to Rattle's spelling: words in snake case.

usage: tools/spelling.py [FOLDER]

A definition `setDll` becomes `set_dll`. A lemma's dash stays where it joins the names of two things, and is `_` elsewhere. A name that
would fall together with another one keeps its dash, or stops the script. Functions of src/, exported names, strings, inputs and outputs
keep their names. It is run once, right after port.py; a second run changes nothing.
"""

import collections
import glob
import os
import re
import sys

TOKEN = re.compile(r"--[^\n]*|\"(?:[^\"\\]|\\.)*\"|[^\s(){}.;,@\"«»\[\]\\`]+|`")
DECLARED = re.compile(r"^ *(?:(?:pub|abbrev|unfoldable) )*([^\s:(){}]+) :(?: |$)")
OF_LIBRARY = re.compile(r"^use (?:lib|mathlib|native|Prim|borrow|denote|base|Rattle\.std)\b[^{]*\{([^}]*)\}", re.M)
# Words of std and of the language that a dash may join.
NAMES = set("length take drop set append get_or replicate map reverse cons nil mod div add mul sub zero suc cond".split())


def read(path):
    with open(path, encoding="utf-8", newline="") as it:
        return it.read()


def snake(name):
    """`hrc48ReadyAt` as `hrc48_ready_at`."""
    return re.sub(r"(?<=[a-z0-9])([A-Z])", lambda it: "_" + it.group(1).lower(), name)


def files(root):
    for part in ("specs", "proofs"):
        yield from sorted(glob.glob(f"{root}/crates/*/{part}/**/*.antt", recursive=True))


def declared(root):
    """Each name that a file of specs/ or proofs/ declares; a proof of a function names only goals."""
    found = collections.Counter()
    for path in files(root):
        for line in read(path).splitlines():
            it = DECLARED.match(line)
            if it and (not path.endswith("/Proof.antt") or snake(it.group(1)) != it.group(1)):
                found[it.group(1)] += 1
            # variables of a telescope
            for several in re.findall(r"[({]([^(){}:]+) : ", line):
                found.update(it for it in several.split() if re.fullmatch(r"[a-z]\w*[A-Z]\w*", it))
    return found


def renamed(names, tokens):
    """The new spelling of each name that gets one; `tokens` are all words in use. Definitions come first, and a lemma that would have the name of one gets `_lem`."""
    new, taken = {}, set(names) | tokens
    for name in sorted(names, key=lambda it: (snake(it) == it, it)):
        if not re.match(r"[a-z]", name):
            continue
        parts = snake(name).split("-")
        out = parts[0]
        for left, right in zip(parts, parts[1:]):
            out += ("-" if left in NAMES and right in NAMES else "_") + right
        if out == name:
            continue
        if out in names and snake(out) == out and snake(name) != name:
            new[out] = out + "_lem"
        elif out in taken:
            if out not in names and out not in new.values():
                print(f"left: {name}: {out} is taken")
                continue
            out += "_lem"
        new[name] = out
        taken.add(out)
    return new


def words(text):
    """The words of a text, but not those of comments and strings, nor the fields and the parts of paths, which follow a dot."""
    return {it.group() for it in TOKEN.finditer(text) if not it.group().startswith(("--", '"')) and text[it.start() - 1 : it.start()] != "."}


def turned(text, new, all_text):
    """The text with each of its names in the new spelling; in comments and pages only those between backticks."""

    def one(it):
        word = it.group()
        if word.startswith("--"):
            return re.sub(r"[\w'-]+", lambda w: new.get(w.group(), w.group()) if re.search("[A-Z]", w.group()) else w.group(), word)
        return new.get(word, word)

    return TOKEN.sub(one, text) if all_text else re.sub(r"[A-Za-z][\w'-]*", lambda w: new.get(w.group(), w.group()) if re.search("[A-Z]", w.group()) else w.group(), text)


def main(root):
    names = declared(root)
    tokens = set()
    for path in files(root):
        text = read(path)
        # a module's or a field's name hides nothing
        tokens |= words(re.sub(r"(?m)^(pub )?mod .*|(^ +|[{;] *)\w+ = ", "", text))
        for it in OF_LIBRARY.findall(text):
            for name in it.replace(" ", "").split(","):
                names.pop(name, None)
    # a parameter hides a definition of its name in the clauses of its file
    for path in glob.glob(f"{root}/crates/*/src/**/*.rt", recursive=True):
        text = read(path)
        cited = {snake(it) for it in re.findall(r"[a-z]\w*", text) if it in names and snake(it) != it}
        tokens |= cited & {it for params in re.findall(r"fn \w+\(([^)]*)\)", text) for it in re.findall(r"(\w+): ", params)}
    new = renamed(names, tokens)
    for path in files(root):
        was = read(path)
        now = turned(was, new, True)
        if now != was:
            open(path, "w", encoding="utf-8", newline="").write(now)
    pages = glob.glob(f"{root}/crates/*/src/**/*.rt", recursive=True) + glob.glob(f"{root}/crates/*/must-fail/*.edit") + glob.glob(f"{root}/docs/**/*.md", recursive=True) + [f"{root}/README.md"]
    for path in pages:
        if os.path.exists(path):
            was = read(path)
            now = turned(was, new, False)
            if now != was:
                open(path, "w", encoding="utf-8", newline="").write(now)
    print(f"spelling: {len(new)} names")
    return 0


if __name__ == "__main__":
    raise SystemExit(main(sys.argv[1] if len(sys.argv) > 1 else "."))
