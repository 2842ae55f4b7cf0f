#!/usr/bin/env python3
"""Checks the mutants (wrong bodies): that each can be applied to its crate and, for the named crates, that the prover refuses each.

    wrong_bodies.py [CRATE..]

crates/NAME/wrong-bodies/ has edits: a line 'file: PATH', and then pairs of lines 'old: TEXT' and 'new: TEXT'. Each old TEXT must occur in that file exactly
once. The gate (prove.py) tries those whose first line is 'tried: by each gate' each time. It tries those whose first line is 'tried: by every ninth gate' in a
ninth of the crates, because one edit costs up to a minute of a processor, and a crate's first one a proof of the crate.

Without a name, this script checks within seconds whether all edits can be applied, and whether checks/README.md names those that each gate tries. With
names, rt tries all edits of these crates, in a copy of the repository that includes the proofs done so far.
"""
import os
import pathlib
import re
import shutil
import subprocess
import sys
import tempfile

import prove
from source import CRATES, MADE, ROOT


def why_not(edit, crate):
    """Returns the reason why the edit cannot be applied to the crate, or None."""
    texts, path, old, pairs = {}, None, None, 0
    for line in prove.for_rt(edit).splitlines():
        if line.startswith("file: "):
            path = line[len("file: "):].strip()
        elif line.startswith("old: "):
            old = line[len("old: "):]
        elif line.startswith("new:"):
            if path is None or old is None:
                return "a 'new:' line comes before any 'file:' or 'old:' line"
            if not (crate / path).is_file():
                return f"there is no file {path}"
            text = texts.setdefault(path, (crate / path).read_text())
            if text.count(old) != 1:
                return f"an 'old:' text is in {path} {text.count(old)} times, but must be there exactly once"
            texts[path] = text.replace(old, re.sub("^ ", "", line[len("new:"):]))
            old, pairs = None, pairs + 1
        else:
            return f"a line does not start with 'file:', 'old:' or 'new:', and is not a first line '{prove.EACH}' or '{prove.IN_TURN}': {line}"
    return None if pairs else "it has no 'old:' and 'new:' pair"


def looked():
    """Reports whether all edits can be applied, and prints each that cannot."""
    found = []
    for edit in sorted(CRATES.glob("*/wrong-bodies/*.edit")):
        if why := why_not(edit, edit.parent.parent):
            found.append(f"{edit.relative_to(ROOT)}: {why}")
    print("\n".join(found), end="\n" * bool(found))
    return not found


def untold():
    """Reports whether the table in README.md fails to name exactly the edits that each gate tries. It prints each edit that is not named, and each name that is no such edit."""
    named = set(re.findall(r"`([a-z_0-9]+/[a-z_0-9]+)`", (ROOT / "checks" / "README.md").read_text()))
    tried_each_time = {f"{edit.parent.parent.name}/{edit.stem}" for edit in CRATES.glob("*/wrong-bodies/*.edit") if edit.read_text().startswith(prove.EACH)}
    for edit in sorted(tried_each_time - named):
        print(f"crates/{edit.replace('/', '/wrong-bodies/')}.edit is tried by each gate, and the table in checks/README.md does not name it (name it there)")
    for edit in sorted(name for name in named - tried_each_time if (CRATES / name.split("/")[0]).is_dir()):
        print(f"checks/README.md names {edit}, which is no edit with the first line '{prove.EACH}' (write that line, or take the name out)")
    return tried_each_time != {name for name in named if (CRATES / name.split("/")[0]).is_dir()}


def passed_over(folder, names):
    """Returns the names in a folder that no copy needs: generated files, except built ones, and other things than files and folders (such as sockets)."""
    paths = {name: pathlib.Path(folder, name) for name in names}
    return [name for name, path in paths.items() if name in MADE - {"out"} or not (path.is_symlink() or path.is_file() or path.is_dir())]


def tried(names):
    """Reports whether the prover refuses each edit of these crates' folders."""
    for name in names:
        if not any((CRATES / name / "wrong-bodies").glob("*.edit")):
            sys.exit(f"wrong_bodies.py: crates/{name} has no edit in wrong-bodies")
    prove.end_in_order()
    # (the copy takes several GB, so its folder must be on the disk, not in memory)
    if not shutil.which("rt"):
        sys.exit("checks/wrong_bodies.py lacks rt, the command of the Rattle kit: put the kit's folder bin on the PATH (README.md, 'With the kit')")
    disk = None if "TMPDIR" in os.environ or not os.access("/var/tmp", os.W_OK) else "/var/tmp"
    with tempfile.TemporaryDirectory(prefix="wagtenib-", dir=disk) as room:
        copy = pathlib.Path(room, "copy")
        shutil.copytree(ROOT, copy, symlinks=True, ignore=passed_over)
        (copy / ".git").mkdir()
        for name in names:
            crate = copy / "crates" / name
            shutil.rmtree(crate / "must-fail", ignore_errors=True)
            (crate / "must-fail").mkdir()
            for edit in (crate / "wrong-bodies").glob("*.edit"):
                (crate / "must-fail" / edit.name).write_text(prove.for_rt(edit))
        trial = subprocess.Popen(["rt", "must-fail", *names], cwd=copy)
        try:
            return trial.wait() == 0
        finally:
            # (if this program is ended, rt ends its own work before the copy is deleted)
            trial.terminate()
            trial.wait()


if __name__ == "__main__":
    sys.exit(0 if looked() and not untold() and (not sys.argv[1:] or tried(sys.argv[1:])) else 1)
