#!/usr/bin/env python3
"""Tries parts.py and prove.py over a made-up repository, and an `rt` that is a script: they must see a test that fails, say what was left out, and leave no edit
behind. Tries .ci/run with a `make` that is a script. Tries that definitions.py sees a statement that some two strings collide.

It prints nothing if everything is right. Otherwise it prints the fault and ends with status 1.
"""
import json
import os
import pathlib
import shutil
import signal
import subprocess
import sys
import tempfile

ROOT = pathlib.Path(__file__).resolve().parent.parent
sys.path.insert(1, str(ROOT / "checks"))

import definitions  # noqa: E402
import parts  # noqa: E402
import prove  # noqa: E402

# Edits of the made-up crate as rt reads them: one that each gate tries, two of every ninth gate, and one that only `make wrong` tries. One in must-fail is
# of another's.
EDIT = "file: src/lib.rt\nold: one\nnew: {}\n"
EACH, IN_TURN = {"each.edit": EDIT.format("each")}, {name: EDIT.format(name) for name in ("first.edit", "second.edit")}
WRONG = {"asked.edit": EDIT.format("asked")}
WRONG.update({name: f"{prove.EACH}\n{text}" for name, text in EACH.items()} | {name: f"{prove.IN_TURN}\n{text}" for name, text in IN_TURN.items()})
OWN = {"own.edit": EDIT.format("own")}


def fail(why):
    sys.exit(f"checks.py: {why}")


def hold(what, found, due):
    if found != due:
        fail(f"{what}: {found}, and due is {due}")


class Repository:
    """A repository of one crate with prove.py, parts.py and .ci/run, and programs beside it."""

    def __init__(self, top):
        folder = self.folder = top / "repository"
        self.crate, self.bin = folder / "crates" / "made_up", top / "bin"
        for script in ("checks/prove.py", "tests/parts.py", ".ci/run"):
            (folder / script).parent.mkdir(parents=True)
            shutil.copy(ROOT / script, folder / script)
        self.put("src", {"lib.rt": "one\n"})
        self.put("wrong-bodies", WRONG)
        self.bin.mkdir()

    def put(self, name, texts):
        """Has a folder of the crate hold these files."""
        (self.crate / name).mkdir(parents=True, exist_ok=True)
        for file, text in texts.items():
            (self.crate / name / file).write_text(text)

    def texts(self, name):
        """The files of a folder of the crate; none where it isn't there."""
        return {path.name: path.read_text() if path.is_file() else None for path in (self.crate / name).glob("*")}

    def put_scripts(self, lines, python, shell):
        """Puts a script in place of each of these, with this text in its language."""
        for script in (line.split()[0] for line in lines):
            path = self.folder / script
            path.parent.mkdir(parents=True, exist_ok=True)
            path.write_text(python if script.endswith(".py") else f"#!/bin/sh\n{shell}\n")
            path.chmod(0o755)

    def program(self, name, text):
        """Puts a program beside the repository."""
        (self.bin / name).write_text(f"#!/bin/sh\n{text}\n")
        (self.bin / name).chmod(0o755)

    def run(self, script, *words, turn=""):
        """Runs a script with these programs first on the PATH. Returns its status, and all that it wrote."""
        place = {**os.environ, "PATH": f"{self.bin}:{os.environ['PATH']}", "PYTHONDONTWRITEBYTECODE": "1", "TURN": turn}
        how = {"stdout": subprocess.PIPE, "stderr": subprocess.STDOUT, "text": True, "cwd": self.folder, "env": place}
        # (the signal may be ignored here, as under nohup)
        how["preexec_fn"] = lambda: signal.signal(signal.SIGHUP, signal.SIG_DFL)
        ran = subprocess.run([*[sys.executable] * script.endswith(".py"), self.folder / script, *words], **how)
        return ran.returncode, ran.stdout

    def prove(self, rt, turn=""):
        """Runs prove.py, with an `rt` that does this."""
        self.program("rt", rt)
        return self.run("checks/prove.py", turn=turn)


def try_edits(repository):
    """While rt runs, must-fail has the edits of each gate and of the gate's turn, without the line that says when they are tried. Afterwards it has none, also
    if a signal ended the run, or a killed one had left some. If one of the edits goes meanwhile, the run fails."""
    repository.put_scripts(prove.SCRIPTS, "", "")
    looks = "cat crates/made_up/must-fail/*.edit | cmp -s - due || exit 3"
    repository.put("must-fail", {**OWN, "second.edit": IN_TURN["second.edit"][:20]})
    for what, turn, rt, status in (
        ("a run of another turn", "5", f"{looks}; echo 1 passed, 0 failed", 0),
        ("a run whose terminal ends", "", f"{looks}; kill -HUP $PPID", 1),
        ("a run whose edits go meanwhile", "0", f"{looks}; rm crates/made_up/must-fail/first.edit; echo 1 passed, 0 failed", 1),
    ):
        there = {**OWN, **EACH, **(IN_TURN if turn != "5" else {})}
        (repository.folder / "due").write_text("".join(there[name] for name in sorted(there)))
        ended, said = repository.prove(rt, turn)
        hold(f"{what} ends with {said}", ended, status)
        hold(f"{what} leaves in must-fail", repository.texts("must-fail"), OWN)
        hold(f"{what} says what it leaves out", f"{len(WRONG) - len(there) + len(OWN)} others" in said, True)


def try_proofs(repository):
    """After the proofs have passed, each script that prove.py runs counts as passed or failed, and the status says whether all passed."""
    scripts = len(prove.SCRIPTS)
    for what, python, shell, passed, failed in (
        ("all of it as due", "", "exit 0", 3 + scripts, 0),
        ("all of it wrong", "import sys\nsys.exit('other bytes')", "echo other bytes; exit 1", 3, scripts),
    ):
        repository.put_scripts(prove.SCRIPTS, python, shell)
        ended, said = repository.prove("echo 3 passed, 0 failed")
        hold(f"a run with {what}", (ended, said.splitlines()[-1]), (min(failed, 1), f"{passed} passed, {failed} failed"))
        hold(f"how often it says why with {what}", said.count("other bytes"), failed)
    ended, said = repository.prove("echo 2 passed, 1 failed; exit 1")
    hold("a run whose proofs fail", (ended, said.splitlines()[-1]), (1, "2 passed, 1 failed"))
    ended, said = repository.prove("exit 0")
    hold("a run of an rt that says nothing", ended, 1)


def go(*events):
    """A script that prints events as `go test -json` does, and ends with status 1 if one says that something failed."""
    lines = [json.dumps(dict(zip(("Package", "Test", "Action", "Output"), event))) for event in events]
    return "\n".join([*(f"echo '{line}'" for line in lines), f"exit {int('fail' in str(events))}"])


PASSED = go(("one", "TestA", "pass"), ("one", "TestA/sub", "pass"), ("one", "TestB", "output", "    b_test.go:7: nginx is not installed"), ("one", "TestB", "skip"), ("one", "", "pass"))
FAILED = go(("one", "TestA", "pass"), ("one", "TestB", "output", "other bytes"), ("one", "TestB", "fail"), ("one", "", "fail"))
DIED = go(("one", "TestA", "pass"), ("one", "TestB", "output", "other bytes"), ("one", "", "fail"))
ABSENT = "print('left out: a comparison (gcc is not installed)')"


def try_parts(repository):
    """parts.py counts each script, and each test of the Go part. It says what was left out, and runs what is asked for."""
    others, all_of_it = len(parts.PARTS), (*parts.ALONE, *parts.PARTS)
    nginx, gcc = "TestB (nginx is not installed)", "a comparison (gcc is not installed)"
    for what, python, build, words, status, passed, failed, says in (
        ("all of it as due", "", PASSED, (), 0, 2 + others, 0, f"{parts.OTHERS}; {nginx}"),
        ("a Go test that fails", "", FAILED, (), 1, 2 + others, 1, parts.OTHERS),
        ("a Go test that dies", "", DIED, (), 1, 2 + others, 1, parts.OTHERS),
        ("a Go part that is not built", "", "exit 1", ("cmd/build.sh test",), 1, 0, 1, parts.OTHERS),
        ("no Go test", "", "exit 0", ("cmd/build.sh test",), 1, 0, 1, parts.OTHERS),
        ("a script that fails", "import sys\nsys.exit('other bytes')", "exit 1", ("tests/scripts.py",), 1, 0, 1, parts.OTHERS),
        ("a script that leaves all out", ABSENT, "exit 1", ("tests/scripts.py",), 0, 0, 0, gcc),
        ("a script that leaves a part out", f"{ABSENT}\nprint('the rest is right')", "exit 1", ("tests/scripts.py",), 0, 1, 0, gcc),
        ("a part that there is not", "", "exit 0", ("tests/none",), 2, None, None, None),
    ):
        repository.put_scripts(all_of_it, python, "exit 0")
        (repository.folder / "cmd" / "build.sh").write_text(f"#!/bin/sh\n[ $1 != vet ] || exit 0\n{build}\n")
        shutil.copy(ROOT / "tests" / "parts.py", repository.folder / "tests")
        ended, said = repository.run("tests/parts.py", *words)
        hold(f"make test with {what} ends with {said}", ended, status)
        if says:
            hold(f"make test with {what} says {said}", said.splitlines()[-2], f"{passed} passed, {failed} failed")
            hold(f"make test with {what} says at last {said}", said.splitlines()[-1].startswith("Not checked: ") and says in said.splitlines()[-1], True)
            hold(f"how often make test says why with {what}", said.count("other bytes"), int("fails" in what or "dies" in what))


def try_gate(repository):
    """.ci/run adds up what make test and make prove say. It proves nothing if a test fails, and its status says whether all passed."""
    for what, test, proofs, status, last in (
        ("both as due", "echo 5 passed, 0 failed; echo Not checked: it.", "echo 1 passed, 0 failed; echo 7 passed, 0 failed", 0, "12 passed, 0 failed"),
        ("a test that fails", "echo 4 passed, 1 failed; exit 1", "echo 7 passed, 0 failed", 1, "4 passed, 1 failed"),
        ("a proof that fails", "echo 5 passed, 0 failed", "echo 6 passed, 1 failed; exit 1", 1, "11 passed, 1 failed"),
        ("proofs that end early", "echo 5 passed, 0 failed", "exit 2", 1, "5 passed, 1 failed"),
    ):
        repository.program("make", f"case $2 in test) {test} ;; prove) {proofs} ;; *) exit 9 ;; esac")
        ended, said = repository.run(".ci/run")
        hold(f"the gate with {what}", (ended, said.splitlines()[-1]), (status, last))


def try_collisions():
    """A statement that some two strings collide is found, and none that says which they are, or among which they are."""
    for text, found in (
        ("SomeCollide H = (a b : List ℕ) × Collides H a b", True),
        ("Law = A ⊎ ((x : List ℕ) × (y : List ℕ) × (¬ (x ≡ y)) × (H x ≡ H y))", True),
        ("Law = (c a b : List ℕ) × (H a ≡ c) × Collides sha256 b a", True),
        ("Law = (a : List ℕ) × Collides H a s.bundle.items", False),
        ("Law = (H : List ℕ → List ℕ) (a b : List ℕ) → H a ≡ H b → a ≢ b → Collides H a b", False),
        ("Law = (D E : List ℕ) × (D ≡ E) ⊎ CollideAmong H (λ s. IsHashedIn H D s)", False),
    ):
        hold(f"that some two strings collide is found in {text}", definitions.some_collide(text), found)


def main():
    try_collisions()
    for case in (try_edits, try_proofs, try_parts, try_gate):
        with tempfile.TemporaryDirectory() as folder:
            case(Repository(pathlib.Path(folder)))


if __name__ == "__main__":
    main()
