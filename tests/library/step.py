#!/usr/bin/env python3
"""Compares the step of libwagtenib, as gcc makes it of dist/, with tests/tiles/log.py over random histories of logs.

    step.py [--calls 24] [--seed 1]

A history begins without leaves or at a made-up edge of any size, up to the largest. Between its steps there are claims of existing entries, and requests that must be
refused: with changed, cut and exchanged tiles and bundles; with older and damaged states; at times that are not later or too far ahead; of a log that is full; with two
faults at once; and false claims. Each refusal must come at least once. --calls is the number of histories. Without gcc for this processor it says so.
"""
import ctypes
import sys

from comparing import TESTS, Code, Fault, begin, wagtenib
from comparing import _library as library
from merkle import sha256
from wagtenib import Object, Published, Receipt, Step, Submission

sys.path.insert(0, str(TESTS / "tiles"))
# (the folder above is on the path only now)
from leaves import signed_bytes  # noqa: E402
from log import MOST, Log, submission_of  # noqa: E402
from trees import name  # noqa: E402

HOUR, FAR = 3_600_000, (1 << 64) - 1
REFUSALS = {"BAD_ORIGIN", "BAD_BATCH", "TOO_MANY", "BAD_STATE", "TIMESTAMP_TOO_FAR", "EDGE", "ENTRIES", "CLOCK_BACK", "LOG_FULL", "BUNDLE", "CLAIM"}
# The positions of a state's fields among its 144 bytes.
FIELDS = {"size": (0, 8), "timestamp": (8, 16), "root": (16, 48), "bundle": (48, 80), "data": (80, 112), "before": (112, 144)}


def bent(chance, content):
    """Bytes of which one bit is another."""
    at = chance.randrange(8 * len(content))
    return content[: at // 8] + bytes([content[at // 8] ^ 1 << at % 8]) + content[at // 8 + 1 :]


def field(line, called):
    return bytes.fromhex(line[7:])[slice(*FIELDS[called])]


def with_field(line, called, content):
    """A state with another field."""
    fields, (start, end) = bytes.fromhex(line[7:]), FIELDS[called]
    return "growth " + (fields[:start] + content + fields[end:]).hex()


def with_bent(chance, line, called):
    return with_field(line, called, bent(chance, field(line, called)))


def other_edges(chance, edge, has_data):
    """Edges that are not the state's, by their tiles of hashes or by their number."""
    hashes = len(edge) - has_data
    yield from (edge + [b""], edge + [bytes(32)])
    if edge:
        yield from (edge[:-1], edge[1:])
    if hashes:
        at = chance.randrange(hashes)
        for other in (bent(chance, edge[at]), edge[at][32:], edge[at] + bytes(32), edge[at][:-1], edge[at] + b"\0", b""):
            yield edge[:at] + [other] + edge[at + 1 :]
    if hashes > 1 and edge[0] != edge[1]:
        yield [edge[1], edge[0], *edge[2:]]
    if hashes and len(edge[0]) > 32:
        yield [edge[0][32:64] + edge[0][:32] + edge[0][64:], *edge[1:]]


def no_states(line):
    """Texts that are no state."""
    texts = ("", line[:-1], line + "0", line + "\n", line.upper(), line[:7] + line[7:].upper(), " " + line, line.replace(" ", "  "), line[7:])
    return [other for other in texts if other != line]


class History:
    """A log that grows by the library and by the oracle."""

    def __init__(self, comparison, is_full):
        self.comparison, self.chance, self.is_full = comparison, comparison.chance, is_full
        chance, self.origin = self.chance, self.chance.choice(["log.example/2026", 'a\t"\\\u00e9'])
        timestamp = chance.choice([0, 1, 1_700_000_000_000, chance.getrandbits(60)])
        # The objects by their names, the states before, and the entries: index, timestamp and submission.
        self.objects, self.older, self.entries = {}, [], []
        if not is_full and chance.random() < 0.6:
            self.log = Log(self.origin, timestamp)
            comparison.call("a beginning", self.log.line, lambda: wagtenib.step_begin(timestamp))
        else:
            near = chance.choice([1, 255, 256, 65_536, 256_000, 1 << 24, 1 << 32, MOST, chance.getrandbits(chance.randint(1, 40)), 999 << 26])
            size = MOST - chance.randrange(200) if is_full else min(max(near + chance.choice([-300, -1, 0, 0, 1, 200]), 0), MOST)
            self.log, self.objects = Log.made_up(chance, self.origin, timestamp, size)

    def submission(self):
        chance = self.chance

        def certificate():
            return chance.randbytes(chance.choice([1, 2, 40, 255, 256, chance.randint(1, 300), 70_000 if chance.random() < 0.01 else 3]))

        chain = [chance.randbytes(32) for _ in range(chance.choice([0, 1, 2, 3, 2047 if chance.random() < 0.01 else 1]))]
        if chance.random() < 0.6:
            return Submission(certificate(), chain=chain)
        return Submission(certificate(), chance.randbytes(32), certificate(), chain)

    def batch(self):
        """Submissions: none, some, as many as fill a tile, one less and one more; sometimes with repeats, which have other chains, too."""
        chance, left = self.chance, 256 - self.log.size % 256
        count = chance.choice([0, 1, 2, chance.randint(1, 60), left - 1, left, left, left + 1, left + 256, chance.randint(1, 700)])
        batch = [self.submission() for _ in range(min(count, MOST - self.log.size))]
        for _ in range(chance.choice([0, 0, 0, 1, 2, chance.randint(1, 300)]) if batch else 0):
            again = chance.choice(batch)
            precertificate = chance.choice([again.precertificate, b"another one"]) if again.issuer_key_hash else b""
            batch.insert(chance.randrange(len(batch) + 1), Submission(again.signed, again.issuer_key_hash, precertificate, chance.choice([again.chain, [bytes(32)]])))
        return batch

    def edge(self):
        names = [name(*tile) for tile in self.log.edge()]
        self.comparison.call("the names of the edge", names, lambda: wagtenib.step_needs(self.log.line))
        return [self.objects[called] for called in names]

    def refused(self, fault, call, *words):
        self.comparison.call(f"{call.__name__} of {words}", Fault(fault), lambda: call(*words))

    def grow(self, attacked):
        """Makes a step, before it the requests that must be refused, and after it claims."""
        chance, line, edge, batch = self.chance, self.log.line, self.edge(), self.batch()
        ahead = min(self.log.timestamp + chance.choice([1, 2, 1000, 1 << chance.randrange(50)]), FAR) - self.log.timestamp
        now, bound = self.log.timestamp + ahead, ahead + chance.choice([0, 0, 1])
        if attacked:
            self.attack_states(edge, batch[:2], now)
            self.attack_steps(edge, batch[:2], now)
        (signed, checkpoint, places), bundle, receipts, objects = self.log.step(list(map(submission_of, batch)), now)
        published = Published(signed, checkpoint, [Object(*place) for place in places])
        due = Step(published, self.log.line, bundle, [Receipt(index, now, leaf) for index, leaf in receipts])
        self.comparison.call(f"a step from {line}", due, lambda: wagtenib.step(self.origin, line, edge, batch, now, bound))
        self.comparison.call(f"what {self.log.line} resumes", published, lambda: wagtenib.step_resume(self.origin, self.log.line, bundle))
        entries = {index: (index, now, submission) for (index, _), submission in reversed([*zip(receipts, batch)])}
        self.objects.update(objects)
        self.entries += entries.values()
        self.older.append(line)
        self.claim(attacked)
        if attacked:
            self.attack_bundles(bundle)

    def attack_steps(self, edge, batch, now):
        """Steps with another edge, at another time, of too many entries, and with two faults: the refusal is that of the first by the order of the checks."""
        chance, log, line, origin = self.chance, self.log, self.log.line, self.origin
        for other in other_edges(chance, edge, bool(log.size % 256)):
            self.refused("EDGE", wagtenib.step, origin, line, other, batch, now, FAR)
        if log.size % 256:
            for other in (bent(chance, edge[-1]), edge[-1][:-1], edge[-1] + b"\0", b""):
                self.refused("ENTRIES", wagtenib.step, origin, line, [*edge[:-1], other], batch, now, FAR)
        for early in {log.timestamp, max(log.timestamp, 1) - 1, 0}:
            self.refused("CLOCK_BACK", wagtenib.step, origin, line, edge, batch, early, FAR)
        bound = chance.choice([0, 1, HOUR, chance.getrandbits(50)])
        if log.timestamp + bound + 1 <= FAR:
            late = log.timestamp + bound + 1
            self.refused("TIMESTAMP_TOO_FAR", wagtenib.step, origin, line, edge, batch, late, bound)
            self.refused("TIMESTAMP_TOO_FAR", wagtenib.step, origin, line, [*edge, b""], batch, late, bound)
            self.refused("EDGE", wagtenib.step, origin, line, [*edge, b""], batch, late, bound + 1)
        root, data, early = with_bent(chance, line, "root"), with_bent(chance, line, "data"), max(log.timestamp, 1) - 1
        self.refused("EDGE", wagtenib.step, origin, with_bent(chance, root, "data"), edge, batch, early, FAR)
        self.refused("ENTRIES", wagtenib.step, origin, data, edge, batch, early, FAR)
        self.refused("BAD_ORIGIN", wagtenib.step, chance.choice(["", "two\nlines"]), line, edge, batch, now, FAR)
        if self.is_full:
            self.refused("TOO_MANY", wagtenib.step, origin, chance.choice([line, ""]), edge, [Submission(b"x")] * 4097, now, FAR)
        if log.size + 300 > MOST:
            many = [Submission(number.to_bytes(2, "big")) for number in range(MOST - log.size + 1)]
            self.refused("LOG_FULL", wagtenib.step, origin, line, edge, many, now, FAR)
            self.refused("CLOCK_BACK", wagtenib.step, origin, line, edge, many, log.timestamp, FAR)
        self.bad_batch(edge, now)

    def bad_batch(self, edge, now):
        """Bytes that are no list of submissions. (The package makes no such batch.)"""
        batch = self.submission().in_batch()
        at = self.chance.randrange(1, len(batch))
        contents = b"".join(len(one).to_bytes(8, "big") + one for one in edge)
        words = [part for one in (self.origin.encode(), self.log.line.encode(), contents, batch[:at]) for part in (one, len(one))]
        out = ctypes.create_string_buffer(1), 0, ctypes.byref(ctypes.c_uint64())
        self.comparison.same(f"the batch {batch[:at].hex()}", library.load().wagtenib_step(*words, now, FAR, *out), Code.BAD_BATCH)
        self.comparison.came["BAD_BATCH"] += 1

    def attack_states(self, edge, batch, now):
        """States that are none, and those of other trees or of other entries."""
        chance, line, size = self.chance, self.log.line, self.log.size
        for other in no_states(line):
            self.refused("BAD_STATE", wagtenib.step, self.origin, other, chance.choice([edge, [*edge, b""]]), batch, now, FAR)
            self.refused("BAD_STATE", wagtenib.step_needs, other)
            self.refused("BAD_STATE", wagtenib.step_resume, self.origin, other, b"")
            self.refused("BAD_STATE", wagtenib.step_claim, other, 0, 0, [], Submission(b"x"))
        sizes = {size + 1, size + 256, size + MOST, size ^ 1 << chance.randrange(64), FAR, 0} - {size}
        others = [with_field(line, "size", other.to_bytes(8, "big")) for other in sorted(sizes) if other <= FAR]
        for other in [*others, with_bent(chance, line, "root"), *(old for old in self.older if field(old, "size") != field(line, "size"))]:
            self.refused("EDGE", wagtenib.step, self.origin, other, edge, batch, FAR, FAR)
        self.refused("ENTRIES", wagtenib.step, self.origin, with_bent(chance, line, "data"), edge, batch, now, FAR)

    def attack_bundles(self, bundle):
        """Bytes that are not the bundle of a state, and bytes that a state names and that are none."""
        chance, line = self.chance, self.log.line
        found = [(line, bundle + b"\0"), (with_bent(chance, line, "bundle"), bundle), *((old, bundle) for old in self.older if field(old, "bundle") != sha256(bundle))]
        if bundle:
            found += [(line, bent(chance, bundle)), (line, bundle[:-1]), (line, b"")]
            none = (bundle[:-1], bundle[1:], bundle + b"\0", bundle + b"\0\1", bundle + b"\0\1a\0\0\0\1")
            found += [(with_field(line, "bundle", sha256(other)), other) for other in none]
        for state, other in found:
            self.refused("BUNDLE", wagtenib.step_resume, self.origin, state, other)

    def claim(self, attacked):
        """Claims some entries, and places that are not theirs."""
        chance, line = self.chance, self.log.line
        for index, timestamp, submission in chance.sample(self.entries, min(2, len(self.entries))):
            path, leaf = self.log.path(index, 0, self.log.size), signed_bytes(submission_of(submission), timestamp, index)
            self.comparison.call(f"a claim of {index}", leaf, lambda words=(line, index, timestamp, path, submission): wagtenib.step_claim(*words))
            if not attacked:
                continue
            for other in {index + 1, index - 1, index % 256, index + MOST, FAR, 1 << chance.randrange(64)} - {index, -1}:
                self.refused("CLAIM", wagtenib.step_claim, line, other, timestamp, path, submission)
            for other in {timestamp + 1, timestamp - 1, timestamp ^ 1 << chance.randrange(64)} - {-1, 1 << 64}:
                self.refused("CLAIM", wagtenib.step_claim, line, index, other, path, submission)
            for other in ([*path, bytes(32)], path[:-1], path[1:], [bent(chance, one) for one in path], []):
                if other != path:
                    self.refused("CLAIM", wagtenib.step_claim, line, index, timestamp, other, submission)
            self.refused("CLAIM", wagtenib.step_claim, line, index, timestamp, path, self.submission())
            self.refused("CLAIM", wagtenib.step_claim, with_bent(chance, line, "root"), index, timestamp, path, submission)
            for old in self.older:
                if field(old, "root") != field(line, "root"):
                    self.refused("CLAIM", wagtenib.step_claim, old, index, timestamp, path, submission)


def main():
    options, comparison = begin("tests/library/step.py", 24)
    for number in range(options.calls):
        # (some are not attacked, and some have almost as many leaves as a log may have)
        history, attacked = History(comparison, number % 8 == 1), number % 3 != 0
        for _ in range(comparison.chance.randint(1, 6)):
            history.grow(attacked)
    comparison.ends(REFUSALS | {"OK"}, f", in {options.calls} histories")


if __name__ == "__main__":
    main()
