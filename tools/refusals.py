#!/usr/bin/env python3
"""refusals.py: finds the must-fail edits of rt ci of which the checker only says that a proof fits no longer: a rewrite finds nothing, a name
is gone. Such a refusal says nothing of the contract. What other words are worth is for the reader of build/log/ci.

rt ci prints the first of the checker's lines for each edit. Where that one says no more, the edit is checked once more here, for all lines."""
import re
import shutil
import subprocess
import sys
import tempfile
from pathlib import Path

sys.dont_write_bytecode = True
import rattle  # noqa: E402

LOG = Path(rattle.ROOT) / "build/log/ci"
STALE_PROOF = re.compile(
    r"was not admitted|no occurrence of|no part of the goal|has an instance in the goal|has no field|can be named from here|is not in scope"
)


def says_more(line):
    return "it is not proved that" in line or ": error: " in line and not STALE_PROOF.search(line)


def whole_refusal(edit):
    """All that the checker says of a crate with the edit, over the libraries that rt ci left."""
    crate = edit.parts[-3]
    with tempfile.TemporaryDirectory() as room:
        for part in ("src", "specs", "proofs"):
            if (edit.parents[1] / part).is_dir():
                shutil.copytree(edit.parents[1] / part, Path(room) / part)
        for file, text in rattle.edited(edit).items():
            (Path(room) / file).write_text(text, encoding="utf-8")
        how = {"stdout": subprocess.PIPE, "stderr": subprocess.STDOUT, "text": True, "errors": "replace"}
        return rattle.run("check", crate, [], room, **how).stdout


def main():
    said = dict(re.findall(r"^rt: must-fail (\S+\.edit): refused, as it must be(.*)$", LOG.read_text(errors="replace"), re.M))
    edits, others = rattle.edits(), 0
    for edit in edits:
        name = f"{edit.parts[-3]}/{edit.name}"
        if name not in said:
            print(f"refusals: {name} has no line in build/log/ci that says it was refused")
            others += 1
        elif "only by a limit of the prover" in said[name]:
            print(f"refusals: note: {name} is refused only by a limit of the prover, which says less of the contract")
        elif "only because a proof file names" in said[name] or not says_more(said[name]):
            whole = whole_refusal(edit)
            if "\nlogic=not-proved" not in whole or not any(map(says_more, whole.split("\n"))):
                print(f"refusals: {name} is refused only since a proof fits no longer{said[name]}")
                others += 1
    print(f"refusals: {len(edits) - others} of {len(edits)} must-fail edits are refused for more than a proof that fits no longer")
    return 1 if others else 0


if __name__ == "__main__":
    sys.exit(main())
