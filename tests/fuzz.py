#!/usr/bin/env python3
"""Runs ctlog on random and damaged lines for a time, and compares what it writes with what tests/expected.py computes.

    fuzz.py [PROGRAM] [--seconds S] [--seed SEED] [--from N] [--inputs N]

Input n of a seed always has the same lines. Many are damaged (mutations.py). Each is at a place at which its reply doesn't depend on how the threads run.
Standard output, standard error and the status are compared. At the first difference, abort or hang it keeps the input, says how to repeat it, and ends with
status 1. Otherwise it prints counts.
"""
import argparse
import collections
import os
import pathlib
import subprocess
import sys
import tempfile
import time

from expected import Refused, outcome, read_line
from mutations import mutated
from random_lines import BAD_LINES, CLOSE_AT, RING, Script, is_written

HERE = pathlib.Path(__file__).resolve().parent

BAD_LINE = ("operator", None)
# The longest run, in seconds. A wait that nothing ends takes some of them.
LONGEST_RUN = 120
LAST_MOMENT = (1 << 64) - 1
LIMITS = [0, 1, 2, 255, 256, 257, 1 << 16, 1 << 32, 1 << 53, (1 << 63) - 1, 1 << 63, LAST_MOMENT - 1, LAST_MOMENT]


class Woven(Script):
    """Lines whose replies don't depend on the threads, some of them written otherwise, with damaged ones beside them."""

    ring = RING

    def __init__(self, seed, counts):
        super().__init__(seed)
        self.counts = counts

    def is_sure(self, request):
        """Whether the reply depends neither on the threads nor on the line's place among those of the others."""
        who, asked = request
        return request == BAD_LINE or who == "frozen" and (self.fronts == 1 or asked[0] != "receipt")

    def say(self, who, op, **keys):
        super().say(who, op, **keys)
        self.lines += self.weave(self.lines.pop())

    def weave(self, line):
        """The line or one that asks the same, with others around it."""
        before, behind, asks = [], [], read_line(line, self.fronts)
        other = self.random.choice([*self.lines[-20:], *BAD_LINES])[:4096]
        while self.random.random() < 0.6:
            way, changed = mutated(self.random, line, other)
            self.counts[f"by {way}"] += 1
            for piece in filter(None, changed.split(b"\n")):
                request = read_line(piece, self.fronts)
                if request == asks != BAD_LINE:
                    line = piece
                    self.counts["asks the same"] += 1
                elif self.is_sure(request):
                    self.random.choice([before, behind]).append(piece)
                    self.counts["no request" if request == BAD_LINE else "asks something else"] += 1
                else:
                    self.counts["left out, since its reply isn't sure"] += 1
        return [*before, line, *behind]

    def round(self):
        if self.random.random() < 0.02:
            self.now = max(self.now, self.random.choice(LIMITS))
        super().round()
        self.now = min(self.now, LAST_MOMENT)

    def close(self):
        try:
            super().close()
        except Refused:
            self.counts["closings that the clock refuses"] += 1

    def number(self):
        return self.random.choice([*LIMITS, self.log.size(), self.log.size() + 1, self.random.randint(0, 20)])

    def ask(self, who, size):
        if who == "frozen" and self.random.random() < 0.4:
            self.ask_at_limits(who)
        else:
            super().ask(who, size)

    def ask_at_limits(self, who):
        first, second = self.number(), self.number()
        op = self.random.choice(["get-sth", "get-sth-consistency", "get-entries", "get-entry-and-proof", "get-proof-by-hash", "audit"])
        keys = {
            "get-sth-consistency": {"first": first, "second": second},
            "get-entries": {"start": first, "end": second},
            "get-entry-and-proof": {"leaf_index": first, "tree_size": second},
            "get-proof-by-hash": {"hash": "A" * 43 + "=", "tree_size": first},
            "audit": {"leaf_input": "", "leaf_index": first, "tree_size": second, "audit_path": []},
        }
        if who == "frozen" or op != "audit":
            self.say(who, op, **keys.get(op, {}))


class Alone(Woven):
    """Lines of one front with a small ring and of the frozen log: the operator does nothing, so each reply is sure that waits for nothing."""

    def __init__(self, seed, counts):
        super().__init__(seed, counts)
        self.fronts, self.ring = 1, self.random.randint(1, 6)

    def is_sure(self, request):
        who, asked = request
        waits = asked is not None and asked[0] == "await-size" and asked[1]["tree_size"] > 0
        return request == BAD_LINE or who == "frozen" or who == 0 and not waits

    def text(self):
        for _ in range(self.random.randint(1, 20)):
            if self.random.random() < 0.4:
                self.submit(0)
            else:
                self.ask_at_limits(self.random.choice([0, "frozen"]))
        return b"\n".join(self.lines)


class Difference(Exception):
    """The differences of the program's run."""


def first_difference(written, lines):
    """The first line that was written otherwise, and what was wanted."""
    replies = written.decode(errors="replace").split("\n")[:-1]
    for place, (reply, line) in enumerate(zip(replies, lines)):
        if reply != line and not (reply.startswith('{"ticket":') and line == '{"ticket":_}'):
            return f"reply {place} is {reply[:200]} and not {line[:200]}"
    return f"{len(replies)} replies and not {len(lines)}, or other tickets"


def compare(program, script, given):
    """Runs the program on the lines, and answers how many replies it wrote."""
    lines, fault = outcome(script.fronts, script.ring, 0, CLOSE_AT, given)
    words = ["--fronts", str(script.fronts), "--ring", str(script.ring), "--close-at", str(CLOSE_AT)]
    try:
        done = subprocess.run([program, *words], input=given, capture_output=True, timeout=LONGEST_RUN, check=False)
    except subprocess.TimeoutExpired as late:
        raise Difference(f"it hasn't ended after {LONGEST_RUN} seconds") from late
    if done.returncode < 0:
        raise Difference(f"it was ended by signal {-done.returncode}, with {done.stderr[:200]!r} on standard error")
    if not is_written(done.stdout, script.fronts, lines):
        raise Difference(first_difference(done.stdout, lines))
    if (done.returncode, done.stderr) != ((1, f"ctlog: {fault}\n".encode()) if fault else (0, b"")):
        raise Difference(f"status {done.returncode} with {done.stderr[:200]!r} on standard error")
    return len(lines)


def try_input(program, seed, number, counts):
    kind = [Woven, Woven, Alone][number % 3]
    script = kind(f"{seed}/{number}", counts)
    given = script.text()
    try:
        counts["replies"] += compare(program, script, given)
    except Difference as difference:
        kept = pathlib.Path(tempfile.gettempdir()) / f"fuzz-{seed}-{number}.jsonl"
        kept.write_bytes(given)
        words = f"--fronts {script.fronts} --ring {script.ring} --close-at {CLOSE_AT}"
        sys.exit(f"fuzz.py: input {number} of the seed {seed}: {difference}\n"
                 f"The input is {kept}, for ctlog {words}. Repeat it by --seed {seed} --from {number} --inputs 1")
    counts["inputs"] += 1
    counts["lines"] += len(given.split(b"\n"))
    counts["bytes"] += len(given)


def main():
    words = argparse.ArgumentParser(description="Compares ctlog with tests/expected.py on damaged lines.")
    words.add_argument("program", nargs="?", default=str(HERE.parent / "crates/ctlog/out/ctlog"))
    words.add_argument("--seconds", type=float, default=60)
    words.add_argument("--seed", type=int, default=int.from_bytes(os.urandom(4), "big"))
    words.add_argument("--from", type=int, default=0, dest="first")
    words.add_argument("--inputs", type=int, default=1 << 62)
    given = words.parse_args()
    if not os.access(given.program, os.X_OK):
        sys.exit(f"fuzz.py: {given.program} isn't there: build it by 'rt run -- --help' in crates/ctlog")
    print(f"seed {given.seed}, from input {given.first} on", flush=True)
    counts = collections.Counter()
    end = time.monotonic() + given.seconds
    for number in range(given.first, given.first + given.inputs):
        if time.monotonic() >= end:
            break
        try_input(given.program, given.seed, number, counts)
    for name, count in sorted(counts.items()):
        print(f"{count:>12,} {name}")
    print(f"{counts['inputs']:,} inputs, {counts['replies']:,} replies: the same as expected.py's")


if __name__ == "__main__":
    main()
