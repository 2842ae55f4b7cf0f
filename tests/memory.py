#!/usr/bin/env python3
"""Runs built programs while memory is refused or added up, and judges the runs.

    memory.py [PART ..] [--from N] [--step N] [--crates FOLDER]

The parts, of which all are tried if none is named:

- ctlog: it runs the lines of `script` with enough memory, then with the first allocation refused, the second, and so on, until a run makes fewer allocations
  than that. Each run must end by itself within a minute, in one of these ways:
  - status 1, with `ctlog: memory` or `ctlog: threads` on standard error, or a beginning of that line, and a beginning of the full output on standard output;
  - status 0, with the full output, if the program could do without the refused memory;
  - status 0, if one line has the reply `memory`. The earlier replies to its party are those of the full run. tests/check.py judges the whole output: it
    computes tickets, settlement, entries, heads, proofs and receipts from the work that the replies report. (A line that then waits in vain gets the reply
    `late`.)
- calls: the same for each test of crates/house_tests in `refused_growths`. A test repeats a refused call, and compares each answer with the expected one. So each
  run must end by itself with status 0, and must name the call that was refused: one of CALLS. It may say that none was refused only in the batch of forty leaves, if
  the start of a worker that hashes was refused.
- costs: it runs the same lines over logs of 64 and of 4,096 entries, with one and with 21 of a line. The difference in the bytes asked for is twenty times the cost
  of the line. No clause states the cost of a call. None of these lines may ask for more in the larger log than in the smaller one, except for MORE or UNSHARED: a
  query for a head, a receipt, one entry, an entry with its path, an index by hash, a consistency proof, and an audit of the log's own leaf and path, by the closed
  log; and a publication with nothing new.
- line: a client may never end its line. ctlog gets a line of 400 MB, and a good one after it. It must reply `bad-line` to the first, and to the second as if there
  were no other, and take at most 64 MB, this script's included.

--step refuses each N-th allocation, and otherwise every one. FOLDER has the built programs (by default crates; `rt run -- --help` in crates/ctlog and `rt test` in
crates/house_tests build them). Libraries of tests/out_of_memory, which cc builds, are loaded before the C library. So the programs under test are the built ones, unchanged.

A signal, an abort, a hang or another wrong reply is a fault. The status is 1 at the first run with a fault, and if no allocation was refused.
"""
import argparse
import base64
import collections
import hashlib
import json
import os
import pathlib
import subprocess
import sys
import tempfile

from check import Wrong, checked, claim, requests_of

HERE = pathlib.Path(__file__).resolve().parent
CRATES = HERE.parent / "crates"
LONGEST_RUN = 60

# The arguments of ctlog, the faults by which it may end, and the reply to a line that was refused memory.
OPTIONS = ["--fronts", "2", "--ring", "8", "--open-at", "0", "--close-at", "7"]
FAULTS, MEMORY = ("memory", "threads"), '{"error":"memory"}'

# The calls that may be refused memory. `submit`, `shutdown`, `bulletin`, `retire`, `learn` and `finish` aren't among them.
CALLS = [
    *("open", "take", "succeed", "publish", "ask", "settle", "answer", "serve_frozen"),
    *("observe", "explain_inclusion", "explain_consistency", "decode_leaf", "decode_chain", "read_line"),
]
# What a test of crates/house_tests writes if nothing was refused, or an allocation of its own.
NOTHING, OWN = "nothing", "a growth of the test's own"
# The tests whose allocations may be refused, and the one in which workers hash a batch: if the start of one is refused, its part is hashed all the same.
ROOM = "refused_growths::"
WITH_WORKERS = f"{ROOM}large_batch::a_large_batch"

SIZES, TIMES = (64, 4096), 20
# Six more hashes of a path, in the base64 of a line and of its reply, with all that holds them on the way; of a publication, what isn't shared. A
# list of 4,096 leaves, entries or records takes more than either.
MORE, UNSHARED = 8192, 32768

# The pieces of the long line, how many KB ctlog may take, and the beginning of its output.
PIECE, PIECES, MOST = b" " * (1 << 20), 400, 64 << 10
LONG_OPTIONS, FROZEN = ["--fronts", "1", "--ring", "4", "--close-at", "7"], b'{"who":"frozen","op":"get-sth"}'
ROOT = "47DEQpj8HBSa+/TImW+5JCeuQeRkm5NMpJWZG3hSuFU="
REPLIES = f'{{"error":"bad-line"}}\n{{"sha256_root_hash":"{ROOT}","timestamp":7,"tree_size":0}}\n'


def fail(why):
    sys.exit(f"memory.py: {why}")


class Preloaded:
    """A library of tests/out_of_memory that writes a number into the file that a variable names: how many allocations there were, or how many bytes were asked for."""

    def __init__(self, folder, name, variable):
        self.loaded, self.number, self.input, self.variable = folder / f"{name}.so", folder / name, folder / "input", variable
        subprocess.run(["cc", "-shared", "-fPIC", "-O2", "-o", self.loaded, HERE / "out_of_memory" / f"{name}.c", "-ldl"], check=True)

    def run(self, words, given="", **variables):
        """Runs a program over an input: its status, its output, what it said on standard error, and the number."""
        self.number.unlink(missing_ok=True)
        self.input.write_text(given)
        place = {**os.environ, "LD_PRELOAD": str(self.loaded), self.variable: str(self.number), **variables}
        with self.input.open("rb") as lines:
            try:
                ended = subprocess.run(words, stdin=lines, capture_output=True, env=place, timeout=LONGEST_RUN)
            except subprocess.TimeoutExpired:
                raise Wrong("it didn't end") from None
        return ended.returncode, ended.stdout.decode(), ended.stderr.decode(), int.from_bytes(self.number.read_bytes(), sys.byteorder)


class Refusals:
    """Runs of a program, each with one allocation refused."""

    def __init__(self, folder, *words):
        self.words, self.refusing = words, Preloaded(folder, "refuse", "COUNT")

    def run(self, refused, given=""):
        return self.refusing.run(self.words, given, REFUSE=str(refused))

    def sweep(self, name, first, step):
        """Refuses one allocation after the other, prints how often each outcome came, and returns how many were refused."""
        found, refused = collections.Counter(), first
        try:
            while (outcome := self.judge(refused)) is not None:
                found[outcome] += 1
                refused += step
        except (Wrong, KeyError, IndexError, ValueError) as fault:
            fail(f"{name}: allocation {refused}: {fault!r}")
        for outcome, times in found.most_common():
            print(f"{times:6} {outcome}")
        print(f"{name}: {sum(found.values())} allocations refused, one in each run; each run was as asked", flush=True)
        return sum(found.values())


def line(who, op, **keys):
    return json.dumps({"who": who, "op": op, **keys}, separators=(",", ":"))


def chain(*certificates):
    return [base64.b64encode(c).decode() for c in certificates]


def script():
    """The lines of two fronts and three shifts: A, B, A on front 0 and A on front 1, each kind of query and two publications; B and C on front 0, which settle when the
    second shift ends; then a query of each front, a shutdown, and the closed log's answers with an audit. Front 0 goes before front 1 by waiting for what it published, so that with ample memory there
    is one output."""
    first, second = chain(b"A" * 40, b"issuer"), chain(b"B" * 50, b"issuer", b"root")
    questions = [
        ("get-sth", {}),
        ("get-entries", {"start": 0, "end": 9}),
        ("get-sth-consistency", {"first": 1, "second": 2}),
        ("get-entry-and-proof", {"leaf_index": 1, "tree_size": 2}),
        ("get-proof-by-hash", {"hash": base64.b64encode(bytes(32)).decode(), "tree_size": 2}),
        ("receipt", {"ticket": 2}),
    ]
    yield line(0, "add-chain", chain=first)
    yield line(0, "add-chain", chain=second)
    yield line(0, "add-chain", chain=first)
    yield line(0, "await-size", tree_size=2)
    for op, keys in questions:
        yield line(0, op, **keys)
    yield line(1, "await-size", tree_size=2)
    yield line(1, "add-chain", chain=first)
    for op, keys in questions:
        yield line(1, op, **keys)
    yield line("operator", "sequence", **{"from": 0}, count=1, now=3)
    yield line("operator", "publish", now=4)
    yield line("operator", "sequence", **{"from": 0}, count=1, now=5)
    yield line("operator", "sequence", **{"from": 0}, count=1, now=5)
    yield line("operator", "publish", now=6)
    yield line("operator", "sequence", **{"from": 1}, count=1, now=6)
    yield line("operator", "shift", now=6)
    yield line(0, "add-chain", chain=second)
    yield line(0, "add-chain", chain=chain(b"C" * 60))
    yield line(1, "await-size", tree_size=2)
    yield line("operator", "shift", now=6)
    yield line(1, "get-sth")
    yield line(0, "get-sth")
    yield line("operator", "shutdown")
    yield "no request"
    for op, keys in questions:
        yield line("frozen", op, **keys)
    yield line("frozen", "audit", leaf_input=base64.b64encode(b"leaf").decode(), leaf_index=0, tree_size=2, audit_path=[])


class Ctlog(Refusals):
    """ctlog over the lines of `script`."""

    def __init__(self, folder, program):
        super().__init__(folder, program, *OPTIONS)
        lines = list(script())
        self.given, self.parties = "\n".join(lines) + "\n", requests_of(lines, 2)
        status, self.ample, said, allocations = self.run(0, self.given)
        if status or said:
            fail(f"with ample memory the status of ctlog is {status}: {said}")
        checked(2, self.given, self.ample)
        print(f"ctlog: with ample memory {allocations} allocations and {len(self.ample.splitlines())} replies", flush=True)

    def judge(self, refused):
        """The outcome, None if the run makes fewer allocations than that, or Wrong."""
        status, output, said, allocations = self.run(refused, self.given)
        if status == 1:
            claim(any(f"ctlog: {name}\n".startswith(said) for name in FAULTS), f"standard error is {said!r}")
            claim(self.ample.startswith(output), "standard output is no beginning of the ample one")
            return f"status 1, {said.strip() or 'without its line'}, {'no' if not output else 'some'} output"
        claim(status == 0, f"the status is {status}: {said}")
        claim(not said, f"standard error is {said!r}")
        if output == self.ample:
            return "status 0, all as with ample memory" if allocations >= refused else None
        return self.judge_replies(output)

    def judge_replies(self, output):
        replies, ample = output.splitlines(), self.ample.splitlines()
        claim(len(replies) == len(ample), "there are fewer replies")
        claim(replies.count(MEMORY) == 1, "not one reply is memory")
        at = replies.index(MEMORY)
        who = self.parties[at]["who"]
        claim(all(r == a for r, a, p in zip(replies[:at], ample[:at], self.parties) if p["who"] == who), "a reply before the refused one differs")
        checked(2, self.given, output.replace('"late"', '"memory"'))
        return f"status 0, {self.parties[at]['op']} of {who} is told memory"


class Calls(Refusals):
    """A test of the library's calls."""

    def __init__(self, folder, program, test):
        super().__init__(folder, program, test)
        self.test = test
        call, allocations = self.called(0)
        if call != NOTHING:
            fail(f"{test}: with ample memory {call} was refused")
        print(f"{test}: with ample memory {allocations} allocations", flush=True)

    def called(self, refused):
        """The call that was refused, and how many allocations there were."""
        status, output, said, allocations = self.run(refused)
        told = [line.split(": ", 1)[1] for line in output.splitlines() if line.startswith("refused: ")]
        claim(not status and len(told) == 1, f"the status is {status}: {output!r} {said!r}")
        return told[0], allocations

    def judge(self, refused):
        """The call that was refused, or None if the run makes fewer allocations than that."""
        call, allocations = self.called(refused)
        if call == NOTHING and allocations < refused:
            return None
        claim(call != NOTHING or self.test == WITH_WORKERS, "an allocation was refused, and no call says so")
        claim(call in (NOTHING, OWN, *CALLS), f"{call} was refused")
        return call


def head_and_entries(size):
    """The lines of a log of so many entries, with a head of half of them and one of all."""
    for number in range(size):
        yield line(0, "add-chain", chain=[base64.b64encode(b"certificate %d" % number).decode()])
    for moment in (3, 5):
        for at in range(0, size // 2, 256):
            yield line("operator", "sequence", **{"from": 0}, count=min(256, size // 2 - at), now=moment)
        yield line("operator", "publish", now=moment + 1)


class Costs:
    """How many bytes ctlog asks for."""

    def __init__(self, folder, program):
        self.words, self.asking = [program, "--fronts", "1", "--ring", "4096"], Preloaded(folder, "asked", "ASKED")

    def run(self, lines):
        """The output, and how many bytes the run asked for."""
        status, output, _, asked = self.asking.run(self.words, "".join(f"{text}\n" for text in lines))
        if status or not asked:
            fail(f"the status of ctlog is {status}, and it asked for {asked} bytes")
        return output.splitlines(), asked

    def of_line(self, before, text):
        """The cost of one of a last line, and its reply."""
        replies, once = self.run([*before, text])
        return (self.run([*before, *[text] * (TIMES + 1)])[1] - once) // TIMES, replies[-1]

    def of_publication(self, size):
        """The cost of a publication with nothing new."""
        before, behind = list(head_and_entries(size)), [line("operator", "shutdown")]
        often = [line("operator", "publish", now=moment) for moment in range(10, 11 + TIMES)]
        return (self.run([*before, *often, *behind])[1] - self.run([*before, often[0], *behind])[1]) // TIMES

    def of_all(self, size):
        """Each line's name, and what it costs."""
        before = [*head_and_entries(size), line("operator", "shutdown")]
        own = {"leaf_index": 5, "tree_size": size}
        shown = json.loads(self.run([*before, line("frozen", "get-entry-and-proof", **own)])[0][-1])
        leaf = base64.b64decode(shown["leaf_input"])
        asked = {
            "get-sth": {},
            "receipt": {"ticket": 5},
            "get-entries": {"start": 5, "end": 5},
            "get-entry-and-proof": own,
            "get-proof-by-hash": {"hash": base64.b64encode(hashlib.sha256(b"\0" + leaf).digest()).decode(), "tree_size": size},
            "get-sth-consistency": {"first": size // 2, "second": size},
            "audit": {"leaf_input": shown["leaf_input"], "audit_path": shown["audit_path"], **own},
        }
        for op, keys in asked.items():
            cost, reply = self.of_line(before, line("frozen", op, **keys))
            if "error" in reply or (op == "audit" and reply != '{"verdict":"holds"}'):
                fail(f"{op} is replied to with {reply}")
            yield op, cost
        yield "publish", self.of_publication(size)


def try_ctlog(folder, program, options):
    return Ctlog(folder, program).sweep("ctlog", options.first, options.step)


def try_calls(folder, program, options):
    listed = subprocess.run([program, "--list"], capture_output=True, check=True, text=True).stdout.splitlines()
    tests = [text.removesuffix(": test") for text in listed if text.startswith(ROOM) and text.endswith(": test")]
    return sum(Calls(folder, program, test).sweep(test, options.first, options.step) for test in tests)


def try_costs(folder, program, _):
    costs = Costs(folder, program)
    few, many = (dict(costs.of_all(size)) for size in SIZES)
    for op in few:
        print(f"{op}: {few[op]} bytes over {SIZES[0]} entries, {many[op]} over {SIZES[1]}")
    higher = [op for op in few if many[op] > few[op] + (UNSHARED if op == "publish" else MORE)]
    if higher:
        fail(f"what is asked for grows with the log: {', '.join(higher)}")
    return len(few)


def try_line(_, program, __):
    running = subprocess.Popen([program, *LONG_OPTIONS], stdin=subprocess.PIPE, stdout=subprocess.PIPE)
    for _ in range(PIECES):
        running.stdin.write(PIECE)
    running.stdin.write(b"\n" + FROZEN + b"\n")
    running.stdin.close()
    output = running.stdout.read().decode()
    _, status, taken = os.wait4(running.pid, 0)
    if not output.startswith(REPLIES) or status:
        fail(f"ctlog ends with status {status} and writes {output[:400]}")
    if taken.ru_maxrss > MOST:
        fail(f"ctlog took {taken.ru_maxrss >> 10} MB for a line of {PIECES} MB")
    print(f"ctlog: {taken.ru_maxrss >> 10} MB for a line of {PIECES} MB", flush=True)
    return PIECES


# The parts: how each is tried, and the program that it runs, below the folder of the builds.
LOG, TESTS = "ctlog/out/ctlog", "house_tests/out/house_tests_tests"
PARTS = {"calls": (try_calls, TESTS), "ctlog": (try_ctlog, LOG), "costs": (try_costs, LOG), "line": (try_line, LOG)}


def main():
    parser = argparse.ArgumentParser(description="Runs built programs while memory is refused or added up, and judges the runs.")
    parser.add_argument("parts", nargs="*", metavar="PART", help=f"{', '.join(PARTS)} [default: all]")
    parser.add_argument("--from", type=int, default=1, dest="first")
    parser.add_argument("--step", type=int, default=1)
    parser.add_argument("--crates", type=pathlib.Path, default=CRATES)
    options = parser.parse_args()
    for part in options.parts or PARTS:
        does, name = PARTS[part]
        program = options.crates / name
        if not program.exists():
            fail(f"{program} isn't built: rt run -- --help in crates/ctlog and rt test in crates/house_tests build what is run")
        with tempfile.TemporaryDirectory() as folder:
            if not does(pathlib.Path(folder), program, options):
                fail(f"{part}: there was nothing to be judged")


if __name__ == "__main__":
    main()
