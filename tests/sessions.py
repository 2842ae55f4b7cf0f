#!/usr/bin/env python3
"""Runs the sessions of tests/sessions with the built ctlog: sessions.py [FOLDER]

FOLDER has the built program as ctlog/out/ctlog (by default crates; `rt run -- --help` in crates/ctlog builds it). A session has the arguments of a command line,
standard input, and the expected standard output, standard error and status, which are compared byte for byte. Each file of tests/sessions is text. An empty line
separates one session from the next:

    Its purpose, which is its name.
    Further lines say why that is expected.
    $ ctlog --fronts 1 --ring 4
    > a line of standard input
    < a line of standard output
    ! a line of standard error
    = 1

If there is no `=`, the status is 0. If there are no lines of a stream, it is empty. A line with only a mark is an empty line. In an input, `>| text` is a last line
without an end, and `>\\r text` ends with a carriage return before its end. `>9 text` and `>9| text` have spaces in front, so that they have 9 bytes. Adjacent lines
`<* text` come in any order.

It names each failed session with the found and the expected output, and then says how many sessions passed, and how many did not. The status is 1 if a session
failed, if ctlog isn't built, or if a file has anything else in it.
"""
import itertools
import pathlib
import re
import subprocess
import sys
import typing

from memory import CRATES, HERE

LIMIT = 60
# How much of a stream is shown that isn't as due.
SHOWN = 2000
LINE = re.compile(r"([$><!=])(\d*)(\*|\||\\r)?(?: (.+))?")
ENDS = {None: b"\n", "\\r": b"\r\n", "|": b""}


class Session(typing.NamedTuple):
    """A session, with the expected output. A line of the output whose mark isn't empty may come in any order among adjacent lines with a mark."""

    file: str
    name: str
    words: list
    given: bytes
    marks: list
    output: bytes
    told: bytes
    status: int

    def ordered(self, output):
        """An output with its lines sorted where they may come in any order."""
        pairs = zip(output.split(b"\n"), itertools.chain(self.marks, itertools.repeat("")))
        groups = [(mark, [line for line, _ in group]) for mark, group in itertools.groupby(pairs, key=lambda pair: pair[1])]
        return b"\n".join(line for mark, lines in groups for line in (sorted(lines) if mark else lines))

    def faults(self, program):
        """The differences of a run from the expected one."""
        try:
            run = subprocess.run([program, *self.words], input=self.given, capture_output=True, timeout=LIMIT)
        except subprocess.TimeoutExpired:
            return [f"it doesn't end within {LIMIT} seconds"]
        found, due = (self.ordered(run.stdout), run.stderr, run.returncode), (self.ordered(self.output), self.told, self.status)
        return [f"{what} is {str(one)[:SHOWN]} and not {str(other)[:SHOWN]}" for what, one, other in zip(("standard output", "standard error", "the status"), found, due) if one != other]


def session_of(file, lines):
    """The session of such lines."""
    words, given, marks, output, told, status = None, b"", [], "", "", 0
    for line in lines:
        found = LINE.fullmatch(line)
        mark, size, end, text = found.groups("") if found else ("", "", "", line)
        if mark == "$" and words is None:
            words = text.split(" ")
        elif (words is None) != (mark == "") or mark == "$":
            sys.exit(f"sessions.py: {file}: no line of a session, or not in its place: {line}")
        elif mark == ">":
            given += text.encode().rjust(int(size or 0)) + ENDS[end or None]
        elif mark == "<":
            output, marks = f"{output}{text}\n", [*marks, end]
        elif mark == "!":
            told += f"{text}\n"
        elif mark == "=":
            status = int(text)
    if words is None or words[0] != "ctlog" or LINE.fullmatch(lines[0]):
        sys.exit(f"sessions.py: {file}: no name, or no command of ctlog: {lines[0]}")
    return Session(file, lines[0], words[1:], given, marks, output.encode(), told.encode(), status)


def read_sessions():
    """All sessions."""
    return [session_of(path.name, part.split("\n")) for path in sorted((HERE / "sessions").glob("*.txt")) for part in re.split(r"\n\n+", path.read_text().strip("\n"))]


def main():
    program, others = pathlib.Path(sys.argv[1] if len(sys.argv) > 1 else CRATES) / "ctlog" / "out" / "ctlog", 0
    sessions = read_sessions()
    if not program.exists():
        sys.exit(f"ctlog: 0 sessions as due, {len(sessions)} not: it isn't built")
    for session in sessions:
        faults = session.faults(program)
        others += bool(faults)
        print("".join(f"{session.file}: {session.name} {fault}\n" for fault in faults), end="")
    print(f"ctlog: {len(sessions) - others} sessions as due" + (f", {others} not" if others else ""))
    sys.exit(1 if others or not sessions else 0)


if __name__ == "__main__":
    main()
