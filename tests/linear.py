#!/usr/bin/env python3
"""No program can drop a retired front or a sequencer: the prover refuses each function that does, and finds no fault in one that hands them on.

    linear.py

It needs the kit, and the proofs of ct_house and of the crates below it, which `rt ci` keeps. It puts a small crate beside a copy of these crates, in a folder of its own,
and runs `rt ci` there over all of them.
The status is 1 if the faults that are reported are others than these two.
"""
import pathlib
import re
import shutil
import subprocess
import sys
import tempfile

ROOT = pathlib.Path(__file__).resolve().parent.parent
NAME = "drops"
SOURCE = """//! Functions that hand on what must not be dropped, and functions that drop it.
#![tactic(auto)]

use ct_house::{Retired, Sequencer};

/// Hands both on.
pub fn hand_on(front: Retired, sequencer: Sequencer) -> (Retired, Sequencer) {
    (front, sequencer)
}

/// Drops a retired front.
pub fn drop_front(front: Retired) {
    let _front = front;
}

/// Drops a sequencer.
pub fn drop_sequencer(sequencer: Sequencer) {
    let _sequencer = sequencer;
}
"""
# The faults that must be reported, and no other: the type that is let go of, by the variable that has it.
FAULTS = {"_front": "Retired", "_sequencer": "Sequencer"}


def crates_below(name, below):
    """The crate of that name and all crates below it, in a set."""
    return {name}.union(*(crates_below(each, below) for each in below.get(name, [])))


def write_crates(folder):
    """Writes a repository that holds the small crate and those below it, and no other."""
    lines = [line for line in (ROOT / "crates.txt").read_text().splitlines() if line and not line.startswith("#")]
    stands_on = {line.partition(":")[0].split()[0]: line.partition(":")[2].split() for line in lines}
    wanted = crates_below("ct_house", {name: [each for each in below if each in stands_on] for name, below in stands_on.items()})
    for name in wanted:
        shutil.copytree(ROOT / "crates" / name, folder / "crates" / name, ignore=shutil.ignore_patterns("out", "must-fail", "wrong-bodies"))
    shutil.copy(ROOT / "HANDLES", folder)
    kept = [line for line in lines if line.partition(":")[0].split()[0] in wanted]
    (folder / "crates.txt").write_text("\n".join([*kept, f"{NAME}: ct_house", ""]))
    source = folder / "crates" / NAME / "src"
    source.mkdir(parents=True)
    (source / "lib.rt").write_text(SOURCE)


def main():
    with tempfile.TemporaryDirectory() as folder:
        write_crates(pathlib.Path(folder))
        run = subprocess.run(["rt", "ci"], cwd=folder, stdout=subprocess.PIPE, stderr=subprocess.STDOUT, text=True)
    found = re.findall(r"\berror\b.*", run.stdout)
    dropped = dict(re.findall(r"error\[linear-value-let-go\]: `(\w+)` is let go where its block ends, and `(\w+)` is not `Drop`", run.stdout))
    if f"rt: {NAME} NOT PROVED" not in run.stdout or len(found) != len(FAULTS) or dropped != FAULTS:
        sys.exit(f"{run.stdout}\nlinear.py: other faults are reported than those of the two functions that drop a value")
    print("A retired front and a sequencer can be handed on, and not dropped.")


if __name__ == "__main__":
    main()
