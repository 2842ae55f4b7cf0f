#!/usr/bin/env python3
"""Makes thousands of calls of every function of dist/ again: with NULL for no bytes, in 64 threads at once, and by the code for arm64.

    replays.py [--keep FOLDER]

record.c wraps the functions while comparisons with models run over them, and writes calls of each function and code. replay.c makes these calls again.

1. With a length of 0, NULL must do what another pointer does, in each place of each function that has a length.
2. Made in 64 threads at once, over the same memory that is only read, each call must reply what it replies in one thread.
3. Compiled statically for arm64 and run by qemu, the code of dist/ must reply the same bytes to each call, and must take NULL alike. arm64.py says what this needs.

Without gcc for this processor it says so. It ends with status 1 if something differs.
"""
import argparse
import contextlib
import pathlib
import platform
import shutil
import subprocess
import sys
import tempfile
import time

import arm64
import signatures

HERE = pathlib.Path(__file__).resolve().parent
ROOT = HERE.parent.parent
DIST = ROOT / "dist"
WARNINGS = ["-std=gnu11", "-O2", "-Wall", "-Wextra", "-Werror", "-Wno-cast-function-type"]


def say(text):
    print(f"tests/library/replays.py: {text}", flush=True)


def recording(folder):
    """A file of calls, which the comparisons made."""
    library, made = signatures.wrapped(folder, "-fvisibility=hidden", *WARNINGS, HERE / "record.c", DIST / "memory.c"), folder / "calls"
    signatures.run_over(library, "tests/library/replays.py", RECORDING=str(made))
    return made


def replayer(folder, processor, compiler, *words):
    """The program replay over the code for a processor."""
    made = folder / f"replay-{processor}"
    sources = [HERE / "replay.c", DIST / "memory.c", DIST / f"libwagtenib_linux_{processor}.s"]
    subprocess.run([compiler, *WARNINGS, *words, f"-I{folder}", f"-I{ROOT / 'include'}", *sources, "-pthread", "-o", made], check=True)
    return made


def replay(program, mode, calls):
    """Returns the output of a replay, and how many seconds it takes."""
    began = time.monotonic()
    ran = subprocess.run([*program, mode, calls], stdout=subprocess.PIPE, stderr=subprocess.STDOUT, text=True)
    if ran.returncode:
        sys.exit(f"{ran.stdout[-2000:]}tests/library/replays.py: {' '.join(map(str, program))} {mode} ends with status {ran.returncode}")
    return ran.stdout, time.monotonic() - began


def try_replies(replies):
    """Each function must have been called."""
    called = {line.split(" ", 1)[0] for line in replies.splitlines()}
    absent = [name for name, _, _ in signatures.functions() if name not in called]
    if absent:
        sys.exit(f"tests/library/replays.py: no call was recorded of {', '.join(absent)}")
    say(f"{len(replies.splitlines())} calls of {len(called)} functions, with {len({tuple(line.split(' ', 2)[:2]) for line in replies.splitlines()})} pairs of a function and a code")


def try_nulls(program, calls, of):
    """NULL must do what another pointer does, and each place must have been tried."""
    told, seconds = replay(program, "nulls", calls)
    places = [line.split() for line in told.splitlines()]
    untried = [f"{name} {place}" for name, place, compared, _ in places if not int(compared)]
    if untried:
        sys.exit(f"tests/library/replays.py: no call was made with NULL for {', '.join(untried)}")
    good = sum(1 for *_, replied in places if int(replied))
    say(f"{of}: NULL of no bytes does what another pointer does, in {len(places)} places, in {sum(int(compared) for _, _, compared, _ in places)} calls; in {good} places calls returned 0 ({seconds:.1f} s)")


def main():
    said = argparse.ArgumentParser(description=__doc__.partition("\n")[0])
    said.add_argument("--keep", type=pathlib.Path, help="the folder in which the calls and the programs are kept")
    asked = said.parse_args()
    if not shutil.which("gcc") or platform.machine() != "x86_64":
        print("left out: tests/library/replays.py (there is no gcc for amd64)")
        return
    with contextlib.ExitStack() as stack:
        folder = asked.keep or pathlib.Path(stack.enter_context(tempfile.TemporaryDirectory(prefix="wagtenib-replays-")))
        calls = recording(folder)
        here = [replayer(folder, "amd64", "gcc")]
        replies, _ = replay(here, "replies", calls)
        try_replies(replies)
        try_nulls(here, calls, "amd64")
        told, seconds = replay(here, "threads", calls)
        say(f"{told.strip()}, and each replies what it replies in one ({seconds:.1f} s)")
        if lacking := arm64.lacking():
            print(f"left out: arm64 ({lacking})")
            return
        there = [arm64.QEMU, replayer(folder, "arm64", arm64.COMPILER, "-static")]
        others, seconds = replay(there, "replies", calls)
        if others != replies:
            line = next(number for number, pair in enumerate(zip(replies.splitlines(), others.splitlines())) if pair[0] != pair[1])
            sys.exit(f"tests/library/replays.py: the code for arm64 replies\n{others.splitlines()[line][:400]}\nand the code for amd64\n{replies.splitlines()[line][:400]}")
        say(f"arm64: all replies are those of amd64, byte for byte ({seconds:.1f} s)")
        try_nulls(there, calls, "arm64")


if __name__ == "__main__":
    main()
