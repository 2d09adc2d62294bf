#!/usr/bin/env python3
"""rattle.py check|build CRATE WORDS..: runs rattle, with these words, on a crate over the libraries that stand in crates/*/out/rlib.

rt lib makes the archive of a static library only over libraries that it built itself, and rt ci leaves others; this takes what rt ci proved
a moment ago, so that nothing is proved a second time but the crate itself. With --in FOLDER the text of the crate is read there."""
import os
import re
import subprocess
import sys
from pathlib import Path

ROOT = os.path.dirname(os.path.dirname(os.path.realpath(__file__)))


def kit():
    """The folder of the kit: rt doc names a page at its top."""
    return os.path.dirname(subprocess.run(["rt", "doc"], check=True, capture_output=True, text=True).stdout.strip())


def listed():
    """The crates of crates.txt: each with the word for its kind, and the libraries that it uses."""
    with open(f"{ROOT}/crates.txt", encoding="utf-8") as file:
        rows = re.findall(r"^(\w+)( +staticlib)?[^:#\n]*:([^#\n]*)", file.read(), re.M)
    return {name: (kind.strip(), re.findall(r"\w+", used)) for name, kind, used in rows}


def below(crates, name):
    """The repository's libraries below a crate, each once."""
    found = []
    for used in crates[name][1]:
        if used in crates:
            found += [one for one in [*below(crates, used), used] if one not in found]
    return found


def rlib(name):
    return f"{ROOT}/crates/{name}/out/rlib/{name}.rlib"


def words(name, folder):
    """What rattle is told of a crate: its name and root, the libraries, the logic, and its kind."""
    at, crates = kit(), listed()
    root = "src/main.rt" if os.path.isfile(f"{folder}/src/main.rt") else "src/lib.rt"
    said = ["--crate-name", name, root]
    for used in ["std", *crates[name][1]]:
        said += ["--extern", f"{used}={rlib(used) if used in crates else f'{at}/rlibs/{used}.rlib'}"]
    for folder_of in [f"{at}/rlibs", *(os.path.dirname(rlib(used)) for used in below(crates, name))]:
        said += ["-L", f"dependency={folder_of}"]
    said += ["--antt-project", f"{at}/rattle/logic/antt-project.json", "--logic-built", f"{at}/logic_built"]
    said += ["--links", f"{name}=", "--jobs", str(min(4, os.cpu_count() or 1))]
    return said + (["--crate-type", "staticlib"] if crates[name][0] else [])


def edited(edit):
    """The files of a crate that a must-fail edit changes, each with its text after it."""
    texts, file, old = {}, "", ""
    for line in edit.read_text(encoding="utf-8").split("\n"):
        word, _, text = line.partition(": ")
        if word == "file":
            file = text.strip()
        elif word == "old":
            old = text
        elif line.startswith("new:"):
            was = texts[file] if file in texts else (edit.parents[1] / file).read_text(encoding="utf-8")
            texts[file] = was.replace(old, re.sub(r"\A ", "", line[len("new:") :]), 1)
    return texts


def edits(crate="*"):
    return sorted(Path(ROOT).glob(f"crates/{crate}/must-fail/*.edit"))


def run(verb, name, more, folder=None, **how):
    folder = folder or f"{ROOT}/crates/{name}"
    command = [f"{kit()}/bin/rattle", verb, *words(name, folder), *more]
    return subprocess.run(command, cwd=folder, stdin=subprocess.DEVNULL, check=False, **how)


if __name__ == "__main__":
    verb, name, *more = sys.argv[1:]
    folder = None
    if more[:1] == ["--in"]:
        folder, more = more[1], more[2:]
    sys.exit(run(verb, name, more, folder).returncode)
