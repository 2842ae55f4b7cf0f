#!/usr/bin/env python3
"""Compares the monitor of libwagtenib, as gcc makes it of dist/, with a model over random answers of made-up logs.

    monitor.py [--calls 50000] [--seed 1]

The model is written from RFC 6962 and include/wagtenib.h. It keeps all leaves, and all heads of the accepted and of the waiting tree. Each call is made over the state
that the call before it wrote, in either version, or over a damaged one.
The verdict with what it names, the report on entries and the next state must be the model's. Each verdict, each fault of an entry and each code that a call can
return must come at least once. After that, wagtenib_monitor_entry judges no bytes and each leaf that the logs handed out, beside head timestamps around the
leaf's. Without gcc for this processor it says so.
"""
import ctypes
import struct
import sys

from comparing import TESTS, Code, Fault, begin, wagtenib
from comparing import _library as library
from merkle import fault_of_proof, proof, root, sha256
from wagtenib import EntryReport, Judgement, TreeHead, Verdict

sys.path.insert(0, str(TESTS / "guard"))
# (the folder above is on the path only now)
from model import leaf_fault  # noqa: E402

FAULTS = ("TRUNCATED", "BAD_VERSION", "BAD_LEAF_TYPE", "BAD_ENTRY_TYPE", "EMPTY_VECTOR", "TRAILING")
MOST, SIZES = (1 << 64) - 1, 40
NO_HEAD = (0, 0, bytes(32))


def number(n):
    return struct.pack(">Q", n)


def perfect(leaves):
    """The roots of the perfect subtrees that the tree of these leaves is made of, largest first (RFC 6962, section 2.1)."""
    roots = []
    while leaves:
        size = 1 << (len(leaves).bit_length() - 1)
        roots.append(root(leaves[:size]))
        leaves = leaves[size:]
    return roots


def fault_of_leaf(leaf):
    """The timestamp of a leaf, and None; or None, and the name of its first fault."""
    fault = leaf_fault(leaf)
    return (None, fault.upper().replace("-", "_")) if fault else (struct.unpack(">Q", leaf[2:10])[0], None)


def contradict(one, two):
    """Whether two heads of one log contradict each other (RFC 6962, section 3.5): one size and two roots, or the one with more leaves is not later."""
    if one[0] == two[0]:
        return one[2] != two[2]
    smaller, larger = sorted((one, two))
    return larger[1] <= smaller[1]


def earliest(heads):
    return min(heads, key=lambda head: head[1])


def newest(heads):
    return max(heads, key=lambda head: head[1])


class Model:
    """The heads and leaves that a log handed out: every head of the accepted tree with its leaves, every head of the waiting tree, and the leaves that were read after
    the accepted ones. A head is its size, its timestamp and its root."""

    def __init__(self):
        self.accepted, self.sure, self.waiting, self.ahead = [], [], [], []

    def state(self, version=2):
        """The bytes of the state. The version 1 has the earliest timestamps alone."""
        text, both = bytes((version,)), (self.accepted, self.waiting)
        for heads in both:
            text += b"\x01" + number(heads[0][0]) + number(earliest(heads)[1]) + heads[0][2] if heads else b"\x00"
        if version == 2:
            text += b"".join(number(newest(heads)[1] if heads else 0) for heads in both)
        for leaves in self.sure, self.sure + self.ahead:
            roots = b"".join(perfect(leaves))
            text += number(len(leaves)) + number(len(roots)) + roots
        return text + sha256(text)

    def numbers(self):
        read = len(self.sure) + len(self.ahead)
        return len(self.sure), read, self.waiting[0][0] if self.waiting else read

    def beside(self, known, head):
        """The verdict on a head beside all heads of a known tree, unless it has more leaves and is later than each of them."""
        if not known:
            return None
        size = known[0][0]
        if any(contradict(one, head) for one in known):
            name = "FORKED" if head[0] == size else "SHRUNK" if head[0] < size else "HEAD_NOT_LATER"
            return name, (newest if head[0] > size else earliest)(known), None, None
        if head[0] == size:
            return "AGAIN", None, None, None
        return ("OLDER", earliest(known), None, None) if head[0] < size else None

    def settle(self):
        """The verdict on the waiting head, beside the leaves that were read."""
        read = self.sure + self.ahead
        if self.waiting[0][0] != len(read):
            return "PENDING", None, None, None
        computed = root(read)
        if computed == self.waiting[0][2]:
            self.accepted, self.sure, self.waiting, self.ahead = self.waiting, read, [], []
            return "ACCEPTED", None, None, None
        self.waiting, self.ahead = [], []
        return "OTHER_ROOT", None, computed, None

    def head(self, head):
        said = [verdict for verdict in (self.beside(self.accepted, head), self.beside(self.waiting, head)) if verdict]
        if said:
            first = next((verdict for verdict in said if Verdict[verdict[0]].accuses), said[0])
            if first[0] == "AGAIN":
                self.accepted = [*self.accepted, head] if self.accepted and self.accepted[0][0] == head[0] else self.accepted
                self.waiting = [*self.waiting, head] if self.waiting and self.waiting[0][0] == head[0] else self.waiting
            return first
        self.waiting = self.waiting or [head]
        return self.settle()

    def entries(self, start, leaves):
        """The verdict, and the report."""
        read = len(self.sure) + len(self.ahead)
        moment = earliest(self.waiting)[1] if self.waiting else 0
        if not self.waiting or start != read:
            return ("GAP", None, None, None), EntryReport(moment, None, None)
        taken = leaves[: self.waiting[0][0] - read]
        judged = [fault_of_leaf(leaf) for leaf in taken]
        later = next(((read + i, time) for i, (time, _) in enumerate(judged) if time is not None and time > moment), None)
        faulty = next(((read + i, Code[fault]) for i, (_, fault) in enumerate(judged) if fault), None)
        self.ahead = self.ahead + taken
        return self.settle(), EntryReport(moment, later, faulty)

    def proof(self, hashes):
        if not self.accepted or not self.waiting:
            return "GAP", None, None, None
        return self.leads(self.accepted[0], self.waiting[0], hashes)

    def leads(self, first, second, hashes):
        fault = fault_of_proof(first[0], second[0], first[2], second[2], hashes)
        return ("INCONSISTENT", None, None, Code[fault.upper().replace("-", "_")]) if fault else ("CONSISTENT", None, None, None)

    def older(self, head, hashes):
        """The verdict on a proof from an older head to the accepted one, or else to the waiting one."""
        known = next((heads[0] for heads in (self.accepted, self.waiting) if heads and head[0] < heads[0][0]), None)
        if known is None:
            return "GAP", None, None, None
        if head[0] == 0:
            return ("CONSISTENT", None, None, None) if head[2] == root([]) else ("INCONSISTENT", None, None, Code.FIRST_MISMATCH)
        return self.leads(head, known, hashes)

    def judgement(self, verdict):
        """A verdict with what it names, the numbers after it, and the next state."""
        name, known, computed, fault = verdict
        return Judgement(Verdict[name], known and TreeHead(*known), computed, fault, *self.numbers(), self.state())

    def copy(self):
        made = Model()
        made.accepted, made.sure, made.waiting, made.ahead = self.accepted, self.sure, self.waiting, self.ahead
        return made


class History:
    """Made-up logs, and what they handed out so far."""

    def __init__(self, comparison):
        self.comparison, self.chance = comparison, comparison.chance
        leaves = [[self.leaf(at) for at in range(SIZES)] for _ in range(2)]
        self.logs = [leaves[0], leaves[0][:9] + leaves[1][9:]]
        self.roots = [[root(log[:n]) for n in range(SIZES + 1)] for log in self.logs]
        self.began = False
        self.model, self.bytes = Model(), b""
        # The leaves that were handed out, in the order of their first time.
        self.given = {}

    def leaf(self, at):
        """A leaf with about the timestamp 10 times its index, or bytes that are none."""
        chance = self.chance
        kind = chance.randrange(2)
        certificate = chance.randbytes(1 + chance.randrange(9))
        extensions = chance.randbytes(chance.choice((0, 0, 8)))
        time = 10 * at + chance.randrange(14)
        leaf = b"\x00\x00" + number(time) + bytes((0, kind)) + chance.randbytes(32 * kind) + len(certificate).to_bytes(3, "big") + certificate
        leaf += len(extensions).to_bytes(2, "big") + extensions
        if at % 4 != 3:
            return leaf
        size = 12 + 32 * kind
        changed = [leaf[:place] + bytes((leaf[place] ^ 2,)) + leaf[place + 1 :] for place in (0, 1, 10, 11, size)]
        faulty = *changed, leaf[: chance.randrange(len(leaf))], leaf + b"x", leaf[:size] + bytes(5)
        return faulty[at // 4 % len(faulty)]

    def handed(self):
        """A log's answers, right or wrong."""
        chance, model = self.chance, self.model
        which = chance.choice((0, 0, 0, 1))
        log = self.logs[which]
        read = len(model.sure) + len(model.ahead)
        how = chance.randrange(10)
        if how < 4:
            size = min(read + chance.randrange(6), SIZES) if chance.random() < 0.7 else chance.randrange(SIZES + 1)
            time = 10 * size + chance.randrange(12) + 2 if chance.random() < 0.9 else chance.choice((0, 1, 200, 200, MOST))
            return "head", (size, time, self.roots[which][size] if chance.random() < 0.9 else chance.randbytes(32))
        if how < 8:
            start = read if chance.random() < 0.9 else chance.choice((0, read + 1, MOST))
            leaves = log[min(start, SIZES) : min(start, SIZES) + chance.choice((0, 1, 2, 9, 99))]
            self.given.update(dict.fromkeys(leaves))
            return "entries", start, leaves
        first, second = ((heads or [NO_HEAD])[0][0] for heads in (model.accepted, model.waiting))
        older = None
        if how == 9:
            # A proof from an older head, of this log or of the other one.
            size = chance.randrange(SIZES + 1)
            older = size, chance.randrange(200), self.roots[chance.choice((which, which, 1 - which))][size]
            first, second = size, next((heads[0][0] for heads in (model.accepted, model.waiting) if heads and size < heads[0][0]), 0)
        hashes = proof(first, log[:second]) if 0 < first < second <= SIZES else []
        if hashes and chance.random() < 0.4:
            hashes = chance.choice((hashes[:-1], hashes + [bytes(32)], [chance.randbytes(32)] + hashes[1:], hashes[:-1] + [chance.randbytes(32)], []))
        return ("proof", hashes) if older is None else ("older", older, hashes)

    def start(self):
        """A head to trust with its leaves, the roots of perfect subtrees, and the fault that must come, or None. Some subtrees are not the head's."""
        chance, which = self.chance, self.chance.randrange(2)
        size = chance.randrange(SIZES + 1)
        head, leaves = (size, 10 * size + chance.randrange(12), self.roots[which][size]), self.logs[which][:size]
        subtrees = perfect(leaves)
        how = chance.randrange(8)
        if how == 0:
            return head, leaves, [*subtrees, bytes(32)], Fault("OTHER_COUNT")
        if how == 1 and subtrees:
            return head, leaves, subtrees[:-1], Fault("OTHER_COUNT")
        if how == 2 and subtrees:
            at = chance.randrange(len(subtrees))
            return head, leaves, [*subtrees[:at], chance.randbytes(32), *subtrees[at + 1 :]], Fault("ROOT_MISMATCH")
        if how == 3:
            return (head[0], head[1], chance.randbytes(32)), leaves, subtrees, Fault("ROOT_MISMATCH")
        return head, leaves, subtrees, None

    def damaged(self):
        """Bytes that are no state."""
        chance = self.chance
        changed = bytearray(self.bytes)
        changed[chance.randrange(len(changed))] ^= 1 + chance.randrange(255)
        other = self.unfitting()
        return chance.choice((b"", self.bytes[:-1], self.bytes + b"\x00", bytes(changed), self.bytes[:32], other, other, other))

    def unfitting(self):
        """The bytes of parts that do not fit one another, with their right hash."""
        chance, made = self.chance, self.model.copy()
        text = bytearray(self.bytes[:-32])
        how = chance.randrange(6)
        if how == 0:
            text[0] = chance.choice((0, 3))
        elif how == 1:
            text += b"\x00"
        elif how == 2:
            # A head of other leaves is accepted.
            made.accepted = [(len(made.sure) or 1, 1, chance.randbytes(32))]
            text = bytearray(made.state()[:-32])
        elif how == 3:
            # No head waits, and leaves were read.
            made.waiting, made.ahead = [], [*made.ahead, b"a leaf"]
            text = bytearray(made.state()[:-32])
        elif how == 4:
            # The waiting head is no larger than what was read.
            made.waiting = [(len(made.sure) + len(made.ahead), MOST, bytes(32))]
            text = bytearray(made.state()[:-32])
        else:
            # The last subtree is missing, or there is one too many.
            roots = perfect(made.sure + made.ahead)
            text = text[: len(text) - 32 * len(roots) - 8]
            roots = roots[:-1] if roots and chance.random() < 0.5 else [*roots, bytes(32)]
            text += number(32 * len(roots)) + b"".join(roots)
        return bytes(text) + sha256(bytes(text))

    def begin(self):
        """Compares a first state."""
        if self.chance.random() < 0.5:
            self.model = Model()
            self.bytes = self.comparison.call("a beginning", self.model.state(), wagtenib.monitor_begin)
        else:
            head, leaves, subtrees, fault = self.start()
            after = Model()
            after.accepted, after.sure = [head], leaves
            self.comparison.call(f"a start at {head}", fault or after.state(), lambda: wagtenib.monitor_start(TreeHead(*head), subtrees))
            if fault:
                return
            self.model, self.bytes = after, after.state()
        self.began = True

    def compare(self):
        """Compares a call over the state, or over a damaged one."""
        if not self.began or self.chance.random() < 0.01:
            return self.begin()
        after, (kind, *words) = self.model.copy(), self.handed()
        is_damaged = self.chance.random() < 0.1
        state = self.damaged() if is_damaged else self.bytes
        if not is_damaged and self.chance.random() < 0.1 and all(earliest(heads)[1] == newest(heads)[1] for heads in (after.accepted, after.waiting) if heads):
            state = after.state(version=1)
        if kind == "head":
            due, call = after.judgement(after.head(words[0])), lambda: wagtenib.monitor_head(state, TreeHead(*words[0]))
        elif kind == "entries":
            verdict, report = after.entries(*words)
            due, call = (after.judgement(verdict), report), lambda: wagtenib.monitor_entries(state, *words)
        elif kind == "proof":
            due, call = after.judgement(after.proof(*words)), lambda: wagtenib.monitor_proof(state, *words)
        else:
            due, call = after.judgement(after.older(*words)), lambda: wagtenib.monitor_older(state, TreeHead(*words[0]), words[1])
            self.compare_heads(words[0])
        self.comparison.call(f"{kind} {words} over {state.hex()}", Fault("BAD_STATE") if is_damaged else due, call)
        if not is_damaged:
            self.compare_memory(kind, *(due if kind == "entries" else (due, None)))
        if kind == "entries" and self.chance.random() < 0.1:
            self.other_lengths(state, *words)
        if not is_damaged:
            judgement, report = due if kind == "entries" else (due, None)
            self.comparison.came.update([judgement.verdict.name, *([f"{report.faulty[1].name} of an entry"] if report and report.faulty else [])])
            self.model, self.bytes = after, judgement.state
            known = after.waiting or after.accepted
            if len(after.sure) == SIZES and self.chance.random() < 0.2 or known and newest(known)[1] == MOST and self.chance.random() < 0.5:
                self.began = False
        return None

    def compare_heads(self, head):
        """Compares a head with each known head alone, in both directions."""
        for known in self.model.accepted + self.model.waiting:
            for first, second in ((known, head), (head, known)):
                said = self.model.beside([first], second)
                self.comparison.call(f"{second} beside {first}", said and Verdict[said[0]], lambda first=first, second=second: wagtenib.compare_heads(TreeHead(*first), TreeHead(*second)))

    def compare_memory(self, kind, judgement, report):
        """Compares the structs that a call wrote: a number that is not named is 0."""
        of, numbers = getattr(library.load(), f"wagtenib_monitor_{kind}").written, (judgement.accepted, judgement.read, judgement.wanted)
        known = (judgement.known.tree_size, judgement.known.timestamp, judgement.known.root) if judgement.known else NO_HEAD
        due = struct.pack("=QQQQQ32s32sII", *numbers, *known, judgement.root or bytes(32), judgement.verdict, judgement.fault or 0)
        self.comparison.same("the struct of a verdict", of["verdict"], due)
        if report:
            due = struct.pack("=QQQQI", report.head_timestamp, *(report.later or (0, 0)), *(report.faulty or (0, 0)))
            self.comparison.same("the struct of a report", of["report"][: len(due)], due)

    def other_lengths(self, state, start, leaves):
        """Compares a call with lengths that do not add up to the number of bytes of the leaves. (The package has no such call.)"""
        chance, flat, right = self.chance, b"".join(leaves), [len(leaf) for leaf in leaves]
        at = chance.randrange(len(right) + 1)
        for lengths in ([*right, 1], [*right[:at], MOST, *right[at + 1 :]], right[:-1], [*right[:at], *(length ^ 1 for length in right[at : at + 1]), *right[at + 1 :]]):
            if sum(lengths) != len(flat):
                out = ctypes.create_string_buffer(4275), 4275, ctypes.byref(ctypes.c_uint64())
                verdict, report, listed = ctypes.create_string_buffer(112), ctypes.create_string_buffer(40), (ctypes.c_uint64 * max(len(lengths), 1))(*lengths)
                code = library.load().wagtenib_monitor_entries(state, len(state), start, flat, len(flat), listed, len(lengths), verdict, report, *out)
                self.comparison.same(f"entries with the lengths {lengths}", code, Code.OTHER_LENGTHS)
                self.comparison.came["OTHER_LENGTHS"] += 1


def compare_entries(comparison, leaves):
    """Compares the verdicts on these leaves and on no bytes with the model."""
    for given in (b"", *leaves):
        forms = [given] if fault_of_leaf(given)[1] else [given, *(given[:2] + number(other) + given[10:] for other in (0, MOST))]
        for leaf in forms:
            timestamp, fault = fault_of_leaf(leaf)
            for head in sorted({0, max((timestamp or 0) - 1, 0), timestamp or 0, min((timestamp or 0) + 1, MOST), MOST}):
                due = Fault(fault) if fault else (timestamp, timestamp > head)
                comparison.call(f"{leaf.hex()} beside {head}", due, lambda head=head, leaf=leaf: wagtenib.monitor_entry(head, leaf))
                comparison.came[f"{fault or timestamp > head} of a leaf"] += 1


def main():
    options, comparison = begin("tests/library/monitor.py", 50_000)
    history = History(comparison)
    for _ in range(options.calls):
        history.compare()
    compare_entries(comparison, history.given)
    due = {"OK", "BAD_STATE", "ROOT_MISMATCH", "OTHER_COUNT", "OTHER_LENGTHS", *(verdict.name for verdict in Verdict)}
    comparison.ends(due | {f"{name} of an entry" for name in FAULTS} | {f"{name} of a leaf" for name in (*FAULTS, True, False)})


if __name__ == "__main__":
    main()
