#!/usr/bin/env python3
"""Compares the witness of libwagtenib, as gcc makes it of dist/, with tests/witness/model.py over random requests and states.

    witness.py [--calls 100000] [--seed 1]

Each call is made over the state that the call before it left, or over a damaged one, and for a checkpoint, a proof, an old size and a time that are right or wrong
in one of many ways. Each code of the witness that a call can return must come at least once. Without gcc for this processor it says so.
"""
import base64
import sys

from comparing import DAMAGES, TESTS, Fault, begin, wagtenib
from merkle import Tree, leaf_hash

sys.path.insert(0, str(TESTS / "witness"))
# (the folder above is on the path only now)
import model  # noqa: E402

# The codes that a call of the witness can return. A consistency proof is read only between sizes that it can be for.
DUE = ("OK", "BAD_STATE", "STATE_ROLLED_BACK", "NO_CHECKPOINT", "OTHER_ORIGIN", "OLD_ABOVE", "NOT_LAST", "FORK", "PROOF_NOT_EMPTY", "TIME_FALLS", "EMPTY_PATH",
       "PATH_TOO_LONG", "PATH_TOO_SHORT", "FIRST_MISMATCH", "ROOT_MISMATCH")
MOST, SIZES = (1 << 64) - 1, 33
ORIGINS = ("log.example/1", "l", "l\u00f6g.example")


class History:
    """Made-up logs, and the message that was cosigned last, or None before the first."""

    def __init__(self, comparison):
        self.comparison, self.chance = comparison, comparison.chance
        leaves = [[leaf_hash(self.chance.randbytes(5)) for _ in range(SIZES)] for _ in range(2)]
        self.logs = [Tree(leaves[0]), Tree(leaves[0][:9] + leaves[1][9:])]
        self.begin()

    def begin(self):
        self.origin, self.state, self.seen = self.chance.choice(ORIGINS), None, []

    def request(self):
        """The arguments of a call, right or wrong: the text, the old size, the proof and the time."""
        chance, last = self.chance, model.cosigned_in(self.state) if self.state else model.none_yet(self.origin)
        log = self.logs[chance.choice((0, 0, 0, 1))]
        size = min(last.size + chance.randrange(4), SIZES) if chance.random() < 0.8 else chance.randrange(SIZES + 1)
        hashes, old, origin, root = log.proof(last.size, 0, size) if 0 < last.size < size else [], last.size, last.origin, log.root(0, size)
        how = chance.randrange(16)
        if how == 0:
            old = chance.choice((0, size, size + 1, MOST))
        elif how == 1 and hashes:
            hashes[chance.randrange(len(hashes))] = chance.randbytes(32)
        elif how == 2:
            hashes = hashes[:-1]
        elif how == 3:
            hashes = hashes + [chance.randbytes(32)]
        elif how == 4:
            root = chance.randbytes(32)
        elif how == 5:
            origin = chance.choice((*ORIGINS, origin + "x"))
        elif how == 6:
            hashes = []
        text = f"{origin}\n{size}\n{base64.b64encode(root).decode()}\n".encode()
        if chance.random() < 0.05:
            text = chance.choice(DAMAGES)(text)
        time = min(max(last.time + chance.choice((0, 1, 1, 5, -1)), 0), MOST) if chance.random() < 0.95 else chance.choice((0, MOST))
        return text, old, hashes, time

    def damaged(self):
        """The state, or one that is none."""
        chance = self.chance
        if self.state is None or chance.random() < 0.95:
            return self.state
        changed = bytearray(self.state)
        changed[chance.randrange(len(changed))] ^= 1 + chance.randrange(255)
        return chance.choice((chance.choice(DAMAGES)(self.state), bytes(changed), self.state.replace(b"time ", b"time 0"), self.state.replace(b"time ", b"time +"), self.state[:20], self.state[:9]))

    def cosign(self):
        """Compares a request."""
        request, state = self.request(), self.damaged()
        last = model.none_yet(self.origin) if state is None else model.cosigned_in(state)
        fault = model.refusal(last, *request) if last else "BAD_STATE"
        due = Fault(fault) if fault else model.message(request[3], request[0])
        call = (lambda asked: wagtenib.witness_first(self.origin.encode(), asked)) if state is None else (lambda asked: wagtenib.witness_cosign(state, asked))
        self.comparison.call(f"{request} over {state}", due, lambda: call(wagtenib.WitnessRequest(*request)))
        if not fault:
            self.state, self.seen = due, [*self.seen[-3:], due]
        if last and last.time > MOST - 9 or self.chance.random() < 0.01:
            self.begin()

    def read(self):
        """Compares a call that reads a state, and the same with both states exchanged."""
        one, other = self.damaged() or b"", self.chance.choice([b"", *self.seen])
        for seen, state in ((other, one), (one, other)):
            old, found = model.cosigned_in(seen), model.cosigned_in(state)
            fault = "BAD_STATE" if None in (found, old) else None if model.is_seen_or_later(old, found) else "STATE_ROLLED_BACK"
            due = Fault(fault) if fault else wagtenib.WitnessedTree(found.size, found.time, found.root)
            self.comparison.call(f"reading {state} after {seen}", due, lambda seen=seen, state=state: wagtenib.witness_state(seen, state))


def main():
    options, comparison = begin("tests/library/witness.py", 100_000)
    history = History(comparison)
    for number in range(options.calls):
        (history.read if number % 8 == 7 else history.cosign)()
    comparison.ends(DUE)


if __name__ == "__main__":
    main()
