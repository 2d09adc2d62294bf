#!/usr/bin/env python3
"""measure-gate.py COMMAND..: runs a command that proves crates, such as `rt ci`, and writes what each check took.

Standard output gets a table in Markdown, a row for each crate: the processor seconds and the largest memory of its proof, of the proof of
its tests, of the check that its must-fail edits begin with (the seed), and of each edit. The command's own output goes to standard error.
A check may be several processes: their seconds are summed, and of their memory the largest counts. What an earlier run proved is not in
the table, since nothing checks it again. Linux alone: it reads /proc five times a second, so a figure may lack the last fifth of one."""
import os
import re
import subprocess
import sys
import time
from pathlib import Path

sys.dont_write_bytecode = True
import rattle  # noqa: E402

TICKS = os.sysconf("SC_CLK_TCK")
# Of each folder in which rt checks a crate with an edit: the edit's name.
names = {}


def edit_in(folder, crate):
    """Which edit's text stands in a copy of the crate, or the seed where none does."""
    if folder not in names:
        def stands(edit):
            return all((folder / file).read_text(encoding="utf-8") == text for file, text in rattle.edited(edit).items())
        found = [edit.stem for edit in rattle.edits(crate) if stands(edit)]
        names[folder] = found[0] if found else "the seed"
    return names[folder]


def check_of(process, session):
    """The crate that a process of the session checks, and what of it ('' for its own proof), or None for any other process."""
    if os.getsid(int(process)) != session:
        return None
    with open(f"/proc/{process}/cmdline", "rb") as file:
        words = file.read().decode(errors="replace").split("\0")
    if os.path.basename(words[0]) != "rattle" or "--crate-name" not in words:
        return None
    crate, folder = words[words.index("--crate-name") + 1], Path(os.readlink(f"/proc/{process}/cwd"))
    if folder.name.startswith("rt-edit-"):
        return (crate, edit_in(folder, crate))
    return (crate, "its tests" if "--test" in words else "")


def figures_of(process):
    """Processor seconds and the largest memory in MiB so far."""
    with open(f"/proc/{process}/stat") as file:
        fields = file.read().rsplit(")", 1)[1].split()
    with open(f"/proc/{process}/status") as file:
        most = re.search(r"VmHWM:\s+(\d+)", file.read())
    return (int(fields[11]) + int(fields[12])) / TICKS, int(most.group(1)) // 1024 if most else 0


def sample(found, session):
    for process in filter(str.isdigit, os.listdir("/proc")):
        try:
            check = check_of(process, session)
            if check:
                seconds, memory = figures_of(process)
                of_process = found.setdefault(check, {})
                before = of_process.get(process, (0, 0))
                of_process[process] = (max(before[0], seconds), max(before[1], memory))
        except OSError:
            pass


def row(crate, found):
    seconds, memory = found.get((crate, ""), (0, 0))
    others = sorted((what, *found[crate, what]) for name, what in found if name == crate and what)
    told = ", ".join(f"{what} {taken:.1f} s {most} MiB" for what, taken, most in others)
    return f"| `{crate}` | {seconds:.1f} | {memory} | {told} |"


def main():
    processes, began = {}, time.time()
    command = subprocess.Popen(sys.argv[1:], stdout=sys.stderr, start_new_session=True)
    while command.poll() is None:
        sample(processes, command.pid)
        time.sleep(0.2)
    found = {}
    for check, each in processes.items():
        found[check] = (sum(seconds for seconds, _ in each.values()), max(memory for _, memory in each.values()))
    own = sum(figures[0] for check, figures in found.items() if not check[1])
    tests = sum(figures[0] for check, figures in found.items() if check[1] == "its tests")
    edits = sum(figures[0] for check, figures in found.items()) - own - tests
    took = f"proofs {own:.0f}, those of tests {tests:.0f}, must-fail edits {edits:.0f}"
    print(f"{time.time() - began:.0f} s by the clock; processor seconds: {took}.\n")
    print("| crate | s | MiB | its tests and must-fail edits |\n|---|---|---|---|")
    for crate in dict.fromkeys(check[0] for check in found):
        print(row(crate, found))
    return command.returncode


if __name__ == "__main__":
    sys.exit(main())
