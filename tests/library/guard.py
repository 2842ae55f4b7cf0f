#!/usr/bin/env python3
"""Compares the guard of libwagtenib, as gcc makes it of dist/, with tests/guard/model.py over random histories of heads, receipts and states.

    guard.py [--calls 10000] [--seed 1]

Each call is made over the state that the call before it left, or over a damaged one, and for a head, a receipt or a state that is right or wrong in one of many
ways. Each code of the guard that a call can return must come at least once. Without gcc for this processor it says so.
"""
import random
import struct
import sys

from comparing import TESTS, Code, Fault, begin, wagtenib
from merkle import Tree, leaf_hash, sha256

sys.path.insert(0, str(TESTS / "guard"))
# (the folder above is on the path only now)
import model  # noqa: E402

# The codes that no call of the guard can return, of all codes below 48, after which those of other calls come: a consistency proof is read only between sizes that it can be for.
NEVER = {"SIZES_OUT_OF_RANGE", "OUT_OF_MEMORY", "NO_ROOM", "BAD_ORIGIN"}
HOUR, MOST = 3_600_000, (1 << 64) - 1
SIZES = (0, 1, 2, 3, 4, 7, 8, 21, 40, 64)
# The calls, each with its arguments as a history has them: a head is its size, its timestamp and its root.
CALLS = {
    "head": lambda state, head, proof, ahead: wagtenib.guard_head(state, wagtenib.TreeHead(*head), proof, ahead),
    "first": lambda head, named: wagtenib.guard_first_head(wagtenib.TreeHead(*head), wagtenib.TreeHead(*named)),
    "receipt": wagtenib.guard_receipt,
    "receipts": wagtenib.guard_receipts,
    "accept": lambda accepted, head, proof: wagtenib.node_accept(wagtenib.TreeHead(*accepted), wagtenib.TreeHead(*head), proof),
    "state": wagtenib.guard_state,
}


def leaf(timestamp, certificate, key_hash, extensions):
    """A MerkleTreeLeaf (RFC 6962, section 3.4)."""
    kind = b"\0\1" + key_hash if key_hash else b"\0\0"
    return b"\0\0" + struct.pack(">Q", timestamp) + kind + len(certificate).to_bytes(3, "big") + certificate + len(extensions).to_bytes(2, "big") + extensions


def signature_input(head):
    """The TreeHeadSignature of a head (RFC 6962, section 3.5)."""
    return b"\0\1" + struct.pack(">QQ", head[1], head[0]) + head[2]


def head_in(state):
    """The head whose TreeHeadSignature a state is, or None."""
    if len(state) != 50 or state[:2] != b"\0\1":
        return None
    timestamp, size = struct.unpack(">QQ", state[2:18])
    return size, timestamp, state[18:]


def judged(state, call, passed=None):
    """What a call over a state must come to, by the model's guard at the state's head: what is passed, or the fault."""
    head = head_in(state)
    if head is None:
        return Fault("BAD_STATE")
    try:
        call(model.Guard(head))
    except model.Refused as refusal:
        return Fault(refusal.args[-1].upper().replace("-", "_"))
    return passed


class Log(Tree):
    """A made-up log: its leaves, and their tree."""

    def __init__(self, leaves):
        super().__init__(map(leaf_hash, leaves))
        self.leaves = leaves


class History:
    """Two logs that fork, and the state that the last head let through left."""

    def __init__(self, seed):
        self.chance = random.Random(seed)
        leaves = [[self.entry(i) for i in range(max(SIZES))] for _ in range(2)]
        self.log, self.other = Log(leaves[0]), Log(leaves[0][:5] + leaves[1][5:])
        self.state = signature_input((0, 0, sha256(b"")))

    def entry(self, i):
        chance = self.chance
        extensions = chance.choice((b"", b"", b"\0\0\5" + i.to_bytes(5, "big"), b"\0\0\5" + (i + 1).to_bytes(5, "big"), b"\1\0\0"))
        return leaf(1000 + 10 * i + chance.choice((0, 0, 0, 5000)), chance.randbytes(9), chance.choice((b"", chance.randbytes(32))), extensions)

    def handed(self):
        """The state, or one that is none."""
        if self.chance.random() < 0.9:
            return self.state
        damaged = bytearray(self.state)
        damaged[self.chance.randrange(2)] ^= 1 + self.chance.randrange(255)
        return self.chance.choice((b"", self.state[:-1], self.state + b"\n", self.state.rstrip(b"\n")[:49], bytes(damaged), self.state.hex().encode()))

    def damaged(self, hashes):
        """A list of hashes that is right, or wrong in one way."""
        how, wrong = self.chance.randrange(12), [self.chance.randbytes(32)]
        if how == 0 and hashes:
            at = self.chance.randrange(len(hashes))
            return hashes[:at] + wrong + hashes[at + 1 :]
        return {1: hashes[:-1], 2: hashes + wrong, 3: [], 4: wrong + hashes[1:]}.get(how, hashes)

    def head(self):
        """A call for a head after the state."""
        state, log = self.handed(), self.chance.choice((self.log, self.log, self.log, self.other))
        size, timestamp, root = head_in(self.state)
        to = self.chance.choice([size, size, *SIZES])
        later = self.chance.choice((0, 1, 1, 1, 7, 1000, HOUR, HOUR + 1, -1))
        head = (to, min(max(timestamp + later, 0), MOST), log.root(0, to) if to <= max(SIZES) else root)
        if self.chance.random() < 0.1:
            head = (size, timestamp, root)
        if self.chance.random() < 0.05:
            head = (head[0], head[1], self.chance.randbytes(32))
        proof = self.damaged(log.proof(size, 0, to) if 0 < size < to else [])
        ahead = self.chance.choice((HOUR, HOUR, HOUR, 0, 1, MOST))
        due = judged(state, lambda guard: guard.pass_head(head, proof, ahead), signature_input(head))
        if not isinstance(due, Fault):
            self.state = due
        # (a log's heads come to its end soon: now and then it begins again)
        if self.chance.random() < 0.05:
            size = self.chance.choice((0, 1, 2, 3))
            self.state = signature_input((size, 900, self.log.root(0, size)))
        return "head", (state, head, proof, ahead), due

    def first(self):
        """A call for a first head."""
        size = self.chance.choice(SIZES)
        head = (size, self.chance.choice((0, 5, MOST)), self.log.root(0, size))
        named = self.chance.choice((head, head, (0, 0, bytes(32)), (size, head[1] ^ 1, head[2]), (size, head[1], bytes(32)), (size + 1, head[1], head[2])))
        if self.chance.random() < 0.2:
            head = (0, 0, bytes(32))
        is_first = head[2] == sha256(b"") if head[0] == 0 else head == named
        return "first", (head, named), signature_input(head) if is_first else Fault("NOT_FIRST")

    def receipt(self):
        """A call for a receipt after the state."""
        state, size = self.handed(), head_in(self.state)[0]
        log, index = self.chance.choice((self.log, self.log, self.other)), self.chance.choice([0, 1, *range(max(size, 1)), size, MOST, 1 << 40])
        entry = log.leaves[index] if index < max(SIZES) else log.leaves[0]
        path = self.damaged(log.path(index, 0, size) if index < size else [])
        if self.chance.random() < 0.1:
            entry = self.chance.choice((b"", entry[:-1], entry + b"\0", b"\1" + entry[1:], entry[:1] + b"\1" + entry[2:], entry[:11] + b"\7" + entry[12:], entry[:10] + b"\0\0" + bytes(3) + b"\0\0"))
        return "receipt", (state, entry, index, path), judged(state, lambda guard: guard.pass_receipt(entry, index, path))

    def receipts(self):
        """A call for the receipts of a step after the state."""
        state, size = self.handed(), head_in(self.state)[0]
        log, first = self.chance.choice((self.log, self.log, self.log, self.other)), self.chance.choice([0, max(size - 1, 0), *range(size)])
        leaves = log.leaves[first:size]
        sizes = model.perfect_sizes(first)
        subtrees = self.damaged([log.root(sum(sizes[:at]), sum(sizes[: at + 1])) for at in range(len(sizes))])
        how = self.chance.randrange(10)
        if how < 3 and leaves:
            at = self.chance.randrange(len(leaves))
            leaves[at : at + 1] = {0: [], 1: [leaves[at], leaves[at]], 2: [self.chance.choice((b"", leaves[at][:-1], leaves[at] + b"\0"))]}[how]
        first += self.chance.choice((0, 0, 0, 0, 0, 0, 0, 0, 1, MOST - first))
        return "receipts", (state, first, subtrees, leaves), judged(state, lambda guard: guard.pass_receipts(first, subtrees, leaves))

    def accept(self):
        """A call for a head that a node should accept after the state's."""
        accepted = head_in(self.state)
        _, (_, head, proof, _), _ = self.head()
        return "accept", (accepted, head, proof), judged(signature_input(accepted), lambda guard: guard.pass_head(head, proof, MOST))

    def read(self):
        """A call that reads a state."""
        size, timestamp, root = head_in(self.state)
        seen = self.chance.choice((self.state, self.handed(), signature_input((size, max(timestamp - 1, 0), root)), signature_input((size + 1, timestamp, root)), signature_input((0, timestamp, root))))
        state = self.handed()
        heads = [head_in(seen), head_in(state)]
        fault = "BAD_STATE" if None in heads else None if model.goes_on(*heads) else "STATE_ROLLED_BACK"
        return "state", (seen, state), Fault(fault) if fault else wagtenib.TreeHead(*heads[1])

    def call(self):
        """The name of a call, its arguments, and what it must come to."""
        return self.chance.choices((self.head, self.receipt, self.receipts, self.accept, self.read, self.first), (5, 4, 4, 2, 1, 1))[0]()


def main():
    options, comparison = begin("tests/library/guard.py", 10_000)
    history = History(options.seed)
    for _ in range(options.calls):
        name, words, due = history.call()
        comparison.call(f"{name} of {words}", due, lambda name=name, words=words: CALLS[name](*words))
    comparison.ends({code.name for code in Code if code < 48} - NEVER)


if __name__ == "__main__":
    main()
