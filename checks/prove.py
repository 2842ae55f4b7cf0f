#!/usr/bin/env python3
"""Proves all crates, tries wrong bodies, and runs what needs the crates' builds (make prove).

It runs `rt ci`, which proves every crate and its tests, tries the wrong bodies, and runs the tests and the programs, and prints each of its lines after the
time so far. Then it runs SCRIPTS. The last line, 'N passed, M failed', is that of `rt ci` with these included. The status is that of `rt ci`, or 1 if one of
these failed.

`rt ci` tries the edits of crates/NAME/wrong-bodies whose first line is 'tried: by each gate'. It also tries those whose first line is 'tried: by every ninth
gate', in a ninth of the crates that have such edits: the commit's hash determines which, or TURN=0 to 8 in the environment. While `rt ci` runs, these edits
are in must-fail, which it reads. The next run removes the edits that a killed one has left there. The edits of a crate cost one more proof of the crate, and
about a sixth of that for each edit. So the ninths consist of whole crates, and cost about the same.

`rt ci` estimates the memory that a proof needs at two to three times what was seen. It lets a large crate wait while smaller ones use that memory, although
the large crate may be in the longest chain of crates. If each processor has memory for a proof, RT_JOBS makes `rt ci` use them all.
"""
import os
import pathlib
import re
import resource
import signal
import subprocess
import sys
import threading
import time

ROOT = pathlib.Path(__file__).resolve().parent.parent
sys.path.append(str(ROOT / "tests"))

from parts import Progress, run_parts  # noqa: E402

NINTHS = 9

# The first lines of edits of wrong-bodies, which say when an edit is tried. Only `make wrong` tries an edit with another first line.
EACH, IN_TURN = "tried: by each gate", "tried: by every ninth gate"

# About the processor minutes of a run from nothing.
MINUTES = 150

# About the maximum memory that a proof was seen to take, in bytes.
MEMORY = 4_000_000_000

# The tests that need what `rt ci` built, or the kit (make sweep refuses each allocation).
SCRIPTS = ["tests/command_lines.py", "tests/sessions.py", "tests/memory.py ctlog --step 40", "checks/dist.py", "tests/linear.py", "examples/demo.sh log"]

# How often it says that the gate is still at work, in seconds, while nothing else happens.
EVERY = 60

# The signals at which it ends in order, unless they are ignored already.
ENDINGS = (signal.SIGTERM, signal.SIGHUP)


def own_crates():
    """Returns the folders of all crates."""
    return sorted(path.parent for path in ROOT.glob("crates/*/src"))


def turn():
    """Returns which part of the crates is tried: the first if no commit is known."""
    said = os.environ.get("TURN", "")
    if said.isdigit():
        return int(said) % NINTHS
    try:
        commit = subprocess.run(["git", "rev-parse", "HEAD"], cwd=ROOT, capture_output=True, text=True).stdout.strip()
    except OSError:
        # (git is not installed)
        commit = ""
    return int(commit or "0", 16) % NINTHS


def edits(crate, *when):
    """Returns the edits of a crate that are tried at one of these times."""
    return [edit for edit in sorted((crate / "wrong-bodies").glob("*.edit")) if edit.read_text().partition("\n")[0] in when]


def for_rt(edit):
    """Returns the text of an edit as rt reads it: without the line that says when it is tried."""
    first, end, rest = edit.read_text().partition("\n")
    return rest if first in (EACH, IN_TURN) else first + end + rest


def put_out():
    """Removes the edits of wrong-bodies from must-fail: those of this run, and those that a killed run has left there. An edit with another name stays."""
    for crate in ROOT.glob("crates/*"):
        folder = crate / "must-fail"
        for edit in edits(crate, EACH, IN_TURN):
            (folder / edit.name).unlink(missing_ok=True)
        if folder.is_dir() and not any(folder.iterdir()):
            folder.rmdir()


def size_of(crate):
    """Returns the number of bytes of a crate's code, specs and proofs."""
    return sum(path.stat().st_size for part in ("src", "specs", "proofs") for path in (crate / part).rglob("*") if path.is_file())


def cost_of(crate):
    """Returns the relative cost of a turn of the crate: a proof, which is proportional to its size, and a sixth of a proof for each edit."""
    return size_of(crate) * (6 + len(edits(crate, IN_TURN)))


def ninths():
    """Returns the crates that have edits in turn, in parts: beginning with the most expensive crate, each joins the part with the least cost so far."""
    found = [[] for _ in range(NINTHS)]
    for crate in sorted((crate for crate in ROOT.glob("crates/*") if edits(crate, IN_TURN)), key=lambda it: (-cost_of(it), it.name)):
        min(found, key=lambda part: sum(map(cost_of, part))).append(crate)
    return found


def put_in():
    """Puts the edits of each gate and of this turn into must-fail, and returns their paths there."""
    put_out()
    found, part = [], ninths()[turn()]
    for crate in sorted(ROOT.glob("crates/*")):
        for edit in edits(crate, EACH, *[IN_TURN] * (crate in part)):
            (crate / "must-fail").mkdir(exist_ok=True)
            found.append(crate / "must-fail" / edit.name)
            found[-1].write_text(for_rt(edit))
    return found


def stop(*_):
    """Ends the program, and ignores further signals meanwhile."""
    for number in ENDINGS:
        signal.signal(number, signal.SIG_IGN)
    sys.exit(1)


def end_in_order():
    """Makes each of these signals end the program as an exit does."""
    for number in ENDINGS:
        if signal.getsignal(number) != signal.SIG_IGN:
            signal.signal(number, stop)


def main():
    end_in_order()
    try:
        there = put_in()
        names = sorted({edit.parent.parent.name for edit in there})
        every = sum(1 for _ in ROOT.glob("crates/*/wrong-bodies/*.edit"))
        print(f"It proves {len(own_crates())} crates and tries {len(there)} wrong bodies, of {', '.join(names) or 'no crate'} ({every - len(there)} others: make wrong CRATE=..).")
        print(estimate(MINUTES), flush=True)
        status = run()
        if gone := [edit.name for edit in there if not edit.exists()]:
            sys.exit(f"prove.py: {len(gone)} edits, such as {gone[0]}, were removed from must-fail while it ran (run it again)")
        sys.exit(status)
    finally:
        put_out()


def estimate(minutes):
    """Returns a sentence about how long so many processor minutes of proofs take here."""
    here = len(os.sched_getaffinity(0))
    return f"From nothing this takes some {max(1, round(minutes / here))} minutes on {here} processors with nothing else to do. What this machine keeps of earlier runs makes it shorter."


def surroundings():
    """Returns the environment of `rt ci`."""
    processors = len(os.sched_getaffinity(0))
    free = re.search(r"MemAvailable:\s+(\d+)", pathlib.Path("/proc/meminfo").read_text())
    jobs = {"RT_JOBS": str(processors)} if free and int(free[1]) * 1024 >= processors * MEMORY else {}
    return {**jobs, **os.environ, "PYTHONUNBUFFERED": "1"}


def run():
    """Runs `rt ci` and reports its progress, and then SCRIPTS. Returns the status."""
    start, said = time.monotonic(), time.monotonic()
    ended, telling = threading.Event(), threading.Lock()

    def say(text):
        nonlocal said
        with telling:
            said = time.monotonic()
            seconds = int(said - start)
            print(f"{seconds // 60:4} min {seconds % 60:02} s  {text}", flush=True)

    def wait():
        while not ended.wait(1):
            if time.monotonic() - said >= EVERY:
                say("at work")

    proofs = subprocess.Popen(["rt", "ci"], stdout=subprocess.PIPE, text=True, errors="replace", env=surroundings())
    threading.Thread(target=wait, daemon=True).start()
    last = ""
    try:
        for line in proofs.stdout:
            last = line.strip() or last
            say(line.rstrip("\n"))
        status = proofs.wait()
    finally:
        # (if this program is ended, rt ci is ended too)
        proofs.terminate()
    ended.set()
    used = resource.getrusage(resource.RUSAGE_CHILDREN)
    say(f"rt ci took {(used.ru_utime + used.ru_stime) / 60:.1f} processor minutes")
    found = re.fullmatch(r"(\d+) passed, (\d+) failed", last)
    if status or not found:
        print(last, flush=True)
        return max(status, 1)
    progress = Progress(len(SCRIPTS))
    run_parts(SCRIPTS, 1, progress)
    print(f"{int(found[1]) + progress.passed} passed, {int(found[2]) + progress.failed} failed", flush=True)
    return min(progress.failed, 1)


if __name__ == "__main__":
    main()
