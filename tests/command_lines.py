#!/usr/bin/env python3
"""Gives the built ctlog command lines: command_lines.py [FOLDER]

Std's contracts don't say which arguments a process has, or what its standard streams contain. So no clause excludes a program that ignores its arguments, or
that reads its input although it was asked for help. FOLDER has the built program as ctlog/out/ctlog (by default crates; `rt run -- --help` in crates/ctlog builds
it). It gets its stored lines, and then the same lines with arguments that ask for help, for the version, and for something that does not exist; an argument that
isn't UTF-8; an input that can't be read, and outputs that can't be written. The expected output is that of docs/LINES.md and of its stored run. If no lines are
asked for, none may be read. The status is 1 if something is wrong, and if ctlog isn't built. sessions.py has the tests of ctlog over lines.
"""
import os
import pathlib
import re
import subprocess
import sys
import tempfile

from memory import CRATES

OWN = CRATES / "ctlog"
LINES, UNREADABLE, LIMIT = OWN / "stdin", b"\xff", 60
VERSION = f"ctlog {(CRATES.parent / 'VERSION').read_text().strip()}\n".encode()
# Arguments that ask for a log, and arguments that ask for something that does not exist.
OPTIONS = ["--fronts", "1", "--ring", "4"]
NO_LOG = ["--fronts 17 --ring 4", "--fronts 0 --ring 4", "--fronts 1 --ring 0", "--fronts 1 --ring 4097", "--fronts 1 --ring 4 --close-at 9007199254740992", "--fronts 1", "lines"]
HELP = rb"Usage: ctlog \[OPTIONS\] --fronts <N> --ring <K>\n(?s:.*)docs/LINES\.md(?s:.*)The input is read whole before the log opens\.\n"
REFUSED = rb"error: (?s:.*)\n\nRequests come on standard input, a line of JSON each\.\n"


def ran(program, words, sink=subprocess.PIPE):
    """The status of a run over the stored lines, its output, its messages, and how many bytes of the lines it read."""
    with open(LINES, "rb") as lines:
        run = subprocess.run([program, *words], stdin=lines, stdout=sink, stderr=subprocess.PIPE, timeout=LIMIT)
        return run.returncode, run.stdout, run.stderr, os.lseek(lines.fileno(), 0, os.SEEK_CUR)


def due(what, found, wanted):
    if found != wanted:
        sys.exit(f"ctlog: {what}: {str(found)[:300]} and not {str(wanted)[:300]}")


def judge_words(program):
    """Judges the runs that depend only on the arguments, and returns how many these are."""
    usage = ran(program, ["--help"])[1]
    due("the text of --help", bool(re.fullmatch(HELP, usage)), True)
    shown = [(words, usage) for words in (["--help"], ["-h"], [*OPTIONS, "--help", "lines"], [*OPTIONS, "-h", ""])]
    shown += [(words, VERSION) for words in (["--version"], [*OPTIONS, "--version", "--help"], ["-V"])]
    for words, text in shown:
        due(words, ran(program, words), (0, text, b"", 0))
    refused = [(words, REFUSED) for words in [*map(str.split, NO_LOG), [""], ["a" * 3000]]]
    refused += [(words, rb"error: an argument isn't UTF-8\n(?s:.*)") for words in ([UNREADABLE], [*OPTIONS, UNREADABLE], ["--help", UNREADABLE])]
    for words, form in refused:
        status, written, told, read = ran(program, words)
        due(f"{words!r:.80}", (status, written, read), (2, b"", 0))
        due(f"what {words!r:.80} is told, {told[:200]}", bool(re.fullmatch(form, told)), True)
    return len(shown) + len(refused)


def judge_streams(program):
    """Judges what it does over its stored lines, over an input that can't be read, and where its output can't be written; and returns how many runs that are."""
    words = (OWN / "args").read_text().splitlines()
    due("its stored run", ran(program, words), (0, (OWN / "stdout").read_bytes(), b"", LINES.stat().st_size))
    with tempfile.TemporaryDirectory() as folder:
        source = os.open(folder, os.O_RDONLY)
        run = subprocess.run([program, *words], stdin=source, capture_output=True, timeout=LIMIT)
        os.close(source)
    due("an input that is a folder", (run.returncode, run.stdout, run.stderr), (1, b"", b"ctlog: read\n"))
    for asked in (words, ["--help"], ["--version"]):
        with open("/dev/full", "wb") as full:
            status, _, told, _ = ran(program, asked, full)
        due(f"{asked} where the output is full", (status, told), (1, b"ctlog: write\n"))
    return 5


def main():
    program = pathlib.Path(sys.argv[1] if len(sys.argv) > 1 else CRATES) / "ctlog" / "out" / "ctlog"
    if not program.exists():
        sys.exit(f"command_lines.py: {program} is not built")
    print(f"ctlog: {judge_words(program) + judge_streams(program)} command lines as due")


if __name__ == "__main__":
    main()
