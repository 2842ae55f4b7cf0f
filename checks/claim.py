#!/usr/bin/env python3
"""Proves what one claim of docs/CHECKING.md needs, and shows that the prover refuses a wrong body that breaks the claim (make claim CLAIM=verifiers).

    claim.py [CLAIM]

A claim needs the crates whose contracts its page (docs/checking) has, and all crates below them. The script copies these crates, adds the wrong body of BREAKS to the copy,
and has `rt ci` prove and try them there. `rt ci` keeps the proofs for later runs, also for the gate. The status is 0 if everything is proved and the wrong body is refused,
1 if not, and 2 if there is no such claim. Without an argument, the script prints the claims.
"""
import importlib.util
import pathlib
import re
import shutil
import subprocess
import sys
import tempfile

import prove
from source import CRATES, ROOT

SPEC = importlib.util.spec_from_file_location("build", ROOT / "examples" / "build.py")
BUILD = importlib.util.module_from_spec(SPEC)
SPEC.loader.exec_module(BUILD)

# For each claim, the edit of crates/*/wrong-bodies that breaks it.
BREAKS = {
    "log": "ct_house/settles_an_item_that_no_front_sent",
    "nodes": "ct_node/lost_swap_taken_as_won",
    "guard": "ct_guard/a_fork_of_one_size_is_let_through",
    "fallen-lock": "libwagtenib/the_accepted_head_is_judged_in_place_of_the_next",
    "witness": "ct_witness/a_fork_is_let_through",
    "verifiers": "ct_verify/inclusion_ends_below_the_root",
    "subtrees": "ct_subtrees/an_element_beside_the_subtree_joins_it",
    "reader": "ct_tiles/path_checked_against_another_root",
    "names": "ct_names/the_last_extension_is_not_read",
    "monitor": "ct_monitor/smaller_head_taken",
}


def claims():
    """Returns each claim of docs/CHECKING.md with its text."""
    text = (ROOT / "docs" / "CHECKING.md").read_text()
    return dict(re.findall(r"^\| \[[\w-]+\]\(checking/([\w-]+)\.md\) \| (.*) \|$", text, re.M))


def crates_of(claim):
    """Returns the crates whose contracts the page of a claim has, with all crates below them, the lowest first."""
    text = (ROOT / "docs" / "checking" / f"{claim}.md").read_text()
    return BUILD.Crates().below(*sorted({*re.findall(r"^<!-- Made by checks/checking\.py --write: crates/(\w+)/", text, re.M)}))


def minutes_of(crates):
    """Returns about how many processor minutes the crates take from nothing: a second for each kB of their code, specs and proofs."""
    return sum(prove.size_of(CRATES / name) for name in crates) / 60_000


def copy(crates, folder):
    """Copies these crates into a folder, as a repository."""
    for name in crates:
        shutil.copytree(CRATES / name, folder / "crates" / name, ignore=shutil.ignore_patterns("out", "must-fail", "wrong-bodies"))
    shutil.copy(ROOT / "HANDLES", folder)
    lines = (ROOT / "crates.txt").read_text().splitlines(keepends=True)
    (folder / "crates.txt").write_text("".join(line for line in lines if re.split(r"[ :]", line)[0] in crates))


def is_refused(claim, crates):
    """Has rt prove the crates and try the wrong body. Reports whether all of them are proved, and it is refused."""
    crate, name = BREAKS[claim].split("/")
    edit = CRATES / crate / "wrong-bodies" / f"{name}.edit"
    with tempfile.TemporaryDirectory(prefix="wagtenib-claim-") as folder:
        folder = pathlib.Path(folder)
        copy(crates, folder)
        (folder / "crates" / crate / "must-fail").mkdir()
        (folder / "crates" / crate / "must-fail" / edit.name).write_text(prove.for_rt(edit))
        ran = subprocess.Popen(["rt", "ci"], cwd=folder, env=prove.surroundings(), stdout=subprocess.PIPE, text=True, errors="replace")
        try:
            said = []
            for line in ran.stdout:
                said.append(line)
                print(line, end="", flush=True)
            proved = ran.wait() == 0
        finally:
            # (if this program is ended, rt ends its own work before the copy is deleted)
            ran.terminate()
            ran.wait()
    refused = re.search(rf"must-fail {crate}/{edit.name}: refused, as it must be(?:: (.*))?\n", "".join(said))
    print(f"\nThe claim {claim}: {claims()[claim]}")
    print(f"{'Proved' if proved else 'NOT PROVED (the lines above say why)'}: the crates {', '.join(crates)}.")
    print(f"The wrong body crates/{crate}/wrong-bodies/{edit.name} is {'refused' if refused else 'NOT REFUSED (the lines above say why)'}:\n")
    print(prove.for_rt(edit).rstrip("\n"))
    if refused:
        print(f"\nThe prover says of it: {refused[1]} ..")
    return proved and bool(refused)


def main():
    known = claims()
    claim = " ".join(sys.argv[1:])
    if claim not in known:
        if claim:
            print(f"claim.py: there is no claim {claim} (name one of these)", file=sys.stderr)
        for name, text in known.items():
            print(f"make claim CLAIM={name}: {text}", file=sys.stderr)
        sys.exit(2)
    crates = crates_of(claim)
    print(f"The claim {claim} needs {len(crates)} of {len(prove.own_crates())} crates: {', '.join(crates)}. {prove.estimate(minutes_of(crates))}", flush=True)
    sys.exit(0 if is_refused(claim, crates) else 1)


if __name__ == "__main__":
    prove.end_in_order()
    main()
