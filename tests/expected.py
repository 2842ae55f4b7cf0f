#!/usr/bin/env python3
"""Computes, with only hashlib, the replies of ctlog to the lines on standard input.

    expected.py FRONTS RING OPEN_AT CLOSE_AT < real-chains.jsonl

An independent program: it shares no code with ctlog. The fronts and the operator take turns, shift by shift. Each one does its lines until it must wait,
which is one of the schedules that threads may take. If there are several fronts, tickets are written as `_`. Everything else must be the same in each
schedule, if the input is made for that. It does not know waits that nothing ends, and no collisions. If the clock refuses the closing, it prints the output
of ctlog until then; if the clock refuses the end of a shift, it prints nothing. In both cases it names the fault and ends with status 1.
"""
import base64
import json
import sys

import merkle
from json_lines import is_bytes, is_hash, is_list_of, is_number, json_of, text

LIMIT = 1 << 24


def texts(values):
    return [text(value) for value in values]


def vector(value):
    return len(value).to_bytes(3, "big") + value


class Refused(Exception):
    """A refusal, by its name."""


class WaitsInVain(Exception):
    """A wait that no line ends."""


def check_submission(precert, chain):
    """Refuses the faults of a chain; of a precertificate first the faults of the TBSCertificate."""
    if not chain:
        raise Refused("empty-chain")
    for certificate in [precert[1], *chain] if precert else chain:
        if not certificate:
            raise Refused("empty-certificate")
        if len(certificate) >= LIMIT:
            raise Refused("certificate-too-long")
    if sum(3 + len(issuer) for issuer in chain[1:]) >= LIMIT:
        raise Refused("chain-too-long")


def signed_entry(precert, chain):
    """The entry type and the signed entry, which are the identity of a submission (RFC 6962, section 3.1)."""
    if precert is None:
        return b"\x00\x00" + vector(chain[0])
    issuer_key_hash, tbs = precert
    return b"\x00\x01" + issuer_key_hash + vector(tbs)


def extra_data(precert, chain):
    """The chain, and in front of it the precertificate where it is one (section 4.6)."""
    issuers = vector(b"".join(map(vector, chain[1:])))
    return issuers if precert is None else vector(chain[0]) + issuers


class Log:
    """The log: the accepted, settled and published submissions."""

    def __init__(self, fronts, ring, now):
        self.rings = [[] for _ in range(fronts)]
        self.ring, self.accepted, self.shut = ring, 0, False
        self.indexes, self.entries = {}, []  # from identity to index; (timestamp, leaf input, extra data)
        self.settled = {}  # from ticket to index
        self.heads, self.covered = [(0, now)], {}

    def size(self):
        return self.heads[-1][0]

    def leaves(self, size):
        return [leaf for _, leaf, _ in self.entries[:size]]

    def submit(self, front, chain, precert=None):
        """Submits a chain. For a precertificate, which is the first of the chain, it takes the issuer's key hash and the TBSCertificate."""
        check_submission(precert, chain)
        if self.shut:
            raise Refused("shutdown")
        if len(self.rings[front]) == self.ring:
            raise Refused("full")
        self.rings[front].append((self.accepted, precert, chain))
        self.accepted += 1
        return {"ticket": self.accepted - 1}

    def newest(self):
        return self.entries[-1][0] if self.entries else 0

    def check_clock(self, now):
        if now < max(self.newest(), self.heads[-1][1]):
            raise Refused("clock-back")

    def settle(self, front, count, now):
        self.check_clock(now)
        for ticket, precert, chain in self.rings[front][:count]:
            identity = signed_entry(precert, chain)
            if identity not in self.indexes:
                self.indexes[identity] = len(self.entries)
                leaf = b"\x00\x00" + now.to_bytes(8, "big") + identity + b"\x00\x00"
                self.entries.append((now, leaf, extra_data(precert, chain)))
            self.settled[ticket] = self.indexes[identity]
        del self.rings[front][:count]

    def settle_all(self, now):
        """Settles all that waits, front by front, and where nothing waits asks the clock all the same."""
        for front in range(len(self.rings)):
            self.settle(front, self.ring, now)

    def publish(self, now):
        if now < self.newest() or now <= self.heads[-1][1]:
            raise Refused("clock-back")
        self.heads.append((len(self.entries), now))
        self.covered = dict(self.settled)
        return {"timestamp": now, "tree_size": len(self.entries)}

    def shutdown(self):
        if self.shut:
            raise Refused("shutdown")
        self.shut = True
        return {"accepted": self.accepted}

    def leaves_at_head(self, size):
        if size not in [published for published, _ in self.heads]:
            raise Refused("unknown-size")
        return self.leaves(size)

    def answer(self, op, keys):
        return getattr(self, op.replace("-", "_"))(**keys)

    def get_sth(self):
        size, now = self.heads[-1]
        return {"sha256_root_hash": text(merkle.root(self.leaves(size))), "timestamp": now, "tree_size": size}

    def get_sth_consistency(self, first, second):
        if not 0 < first < second:
            raise Refused("bad-range")
        self.leaves_at_head(first)
        return {"consistency": texts(merkle.proof(first, self.leaves_at_head(second)))}

    def get_proof_by_hash(self, hash, tree_size):
        leaves = self.leaves_at_head(tree_size)
        hashes = texts(merkle.leaf_hash(leaf) for leaf in leaves)
        if hash not in hashes:
            raise Refused("unknown-leaf")
        index = hashes.index(hash)
        return {"audit_path": texts(merkle.path(index, leaves)), "leaf_index": index}

    def entry(self, index):
        _, leaf, extra_data = self.entries[index]
        return {"extra_data": text(extra_data), "leaf_input": text(leaf)}

    def get_entries(self, start, end):
        if start > end or start >= self.size():
            raise Refused("bad-range")
        last = min(end, start + 255, self.size() - 1)
        return {"entries": [self.entry(index) for index in range(start, last + 1)]}

    def get_entry_and_proof(self, leaf_index, tree_size):
        leaves = self.leaves_at_head(tree_size)
        if leaf_index >= tree_size:
            raise Refused("bad-range")
        return {"audit_path": texts(merkle.path(leaf_index, leaves)), **self.entry(leaf_index)}

    def receipt(self, ticket):
        if ticket not in self.covered:
            raise Refused("not-yet")
        index = self.covered[ticket]
        return {"extensions": "", "leaf_index": index, "sct_version": 0, "timestamp": self.entries[index][0]}

    def audit(self, leaf_input, leaf_index, tree_size, audit_path):
        leaves = self.leaves_at_head(tree_size)
        leaf, hashes = base64.b64decode(leaf_input), [base64.b64decode(hash) for hash in audit_path]
        holds = merkle.includes(leaf, leaf_index, tree_size, hashes, merkle.root(leaves))
        return {"verdict": "holds" if holds else "refused"}


def do_front(log, front, request):
    """The reply to a line of a front; None where it has to wait."""
    op, keys = request
    if op in ("add-chain", "add-pre-chain"):
        chain = [base64.b64decode(text) for text in keys["chain"]]
        precert = tuple(base64.b64decode(keys[key]) for key in PRECERT) if op == "add-pre-chain" else None
        return log.submit(front, chain, precert)
    if op == "await-size":
        return {"reached": keys["tree_size"]} if log.size() >= keys["tree_size"] else None
    return log.answer(op, keys)


def do_operator(log, request):
    """The reply to a line of the operator; None where it has to wait."""
    if request is None:
        raise Refused("bad-line")
    op, keys = request
    if op == "shutdown":
        return log.shutdown()
    if op == "publish":
        return log.publish(keys["now"])
    front, count = keys["from"], keys["count"]
    if count > 0:
        log.check_clock(keys["now"])
        if len(log.rings[front]) < count:
            return None
        log.settle(front, count, keys["now"])
    return {"settled": count}


def do_lines(do, lines, replies):
    """Does lines from the next one on, until one has to wait."""
    while len(replies) < len(lines):
        try:
            reply = do(lines[len(replies)])
        except Refused as refused:
            reply = {"error": str(refused)}
        if reply is None:
            return
        replies.append(reply)


# The keys of each op, and the types of their values.
QUERIES = {
    "get-sth": {},
    "get-sth-consistency": {"first": is_number, "second": is_number},
    "get-proof-by-hash": {"hash": is_hash, "tree_size": is_number},
    "get-entries": {"start": is_number, "end": is_number},
    "get-entry-and-proof": {"leaf_index": is_number, "tree_size": is_number},
    "receipt": {"ticket": is_number},
}
AUDIT = {
    "leaf_input": is_bytes,
    "leaf_index": is_number,
    "tree_size": is_number,
    "audit_path": is_list_of(is_hash),
}
PRECERT = {"issuer_key_hash": is_hash, "tbs": is_bytes}
FRONT_OPS = {
    "add-chain": {"chain": is_list_of(is_bytes)},
    "add-pre-chain": {**PRECERT, "chain": is_list_of(is_bytes)},
    "await-size": {"tree_size": is_number},
    **QUERIES,
}
OTHER_OPS = {
    "operator": {
        "sequence": {"from": is_number, "count": is_number, "now": is_number},
        "publish": {"now": is_number},
        "shutdown": {},
        "shift": {"now": is_number},
    },
    "frozen": {"audit": AUDIT, **QUERIES},
}


def read_line(line, fronts):
    """The party that does the line, and the request. A line that is no request belongs to the operator, as None."""
    try:
        value = json_of(line)
        who = value["who"]
        keys = (FRONT_OPS if is_number(who) else OTHER_OPS[who])[value["op"]]
        request = {key: value[key] for key in keys}
    except (ValueError, KeyError, TypeError):
        return "operator", None
    holds = all(is_right(request[key]) for key, is_right in keys.items())
    there = all(front < fronts for front in (who, request.get("from", 0)) if is_number(front))
    return (who, (value["op"], request)) if holds and there else ("operator", None)


def give_out(lines, fronts):
    """The shifts, and the frozen log's requests. A shift has the requests of each front and, at last, of the operator, and the timestamp at which it ends.
    The last shift has no such timestamp."""
    shifts, frozen = [], []
    parties = [[] for _ in range(fronts + 1)]
    for line in lines:
        who, request = read_line(line, fronts)
        if who == "frozen":
            frozen.append(request)
        elif who == "operator" and request and request[0] == "shift":
            shifts.append((parties, request[1]["now"]))
            parties = [[] for _ in range(fronts + 1)]
        else:
            parties[fronts if who == "operator" else who].append(request)
    return [*shifts, (parties, None)], frozen


def do_shift(doers, parties):
    """The replies of each party to its lines of one shift."""
    replies = [[] for _ in parties]
    done = -1
    while done < sum(map(len, replies)):
        done = sum(map(len, replies))
        for do, lines, own in zip(doers, parties, replies):
            do_lines(do, lines, own)
    for number, (own, lines) in enumerate(zip(replies, parties)):
        if len(own) < len(lines):
            op, keys = lines[len(own)]
            who = "the operator" if number == len(parties) - 1 else f"front {number}"
            words = " ".join([op, *(f"{key} {value}" for key, value in keys.items())])
            why = "; what meets a full ring is refused" if op == "sequence" else ""
            raise WaitsInVain(f"nothing ends the wait of {who} at {words}{why}")
    return replies


def outcome(fronts, ring, open_at, close_at, given):
    """The lines of the output for this input, and the name of the fault where one ends the program."""
    shifts, asked = give_out(filter(None, given.split(b"\n")), fronts)
    log = Log(fronts, ring, open_at)
    doers = [lambda request, front=front: do_front(log, front, request) for front in range(fronts)]
    doers.append(lambda request: do_operator(log, request))
    replies = [[] for _ in doers]
    for number, (parties, end) in enumerate(shifts, 1):
        for all_replies, own in zip(replies, do_shift(doers, parties)):
            all_replies += own
        if end is not None:
            try:
                log.settle_all(end)
            except Refused as refused:
                return [], str(refused)
            replies[-1].append({"shift": number})
    frozen = []
    fault = close(log, close_at)
    if fault is None:
        do_lines(lambda request: log.answer(*request), asked, frozen)
    return [line_of(reply, fronts) for reply in sum(replies, []) + frozen], fault


def close(log, close_at):
    """Closes the log, and answers the fault where the clock refuses the moment."""
    log.shut = True
    try:
        log.settle_all(close_at)
        log.publish(close_at)
    except Refused as refused:
        return str(refused)
    return None


def line_of(reply, fronts):
    if fronts > 1 and "ticket" in reply:
        return '{"ticket":_}'
    return json.dumps(reply, separators=(",", ":"), sort_keys=True)


def main():
    if len(sys.argv) != 5 or not all(map(str.isdecimal, sys.argv[1:])):
        sys.exit("expected.py: give it four numbers: FRONTS RING OPEN_AT CLOSE_AT")
    try:
        lines, fault = outcome(*map(int, sys.argv[1:]), sys.stdin.buffer.read())
    except WaitsInVain as wait:
        sys.exit(f"expected.py: {wait}")
    for line in lines:
        print(line)
    if fault:
        sys.exit(f"ctlog: {fault}")


if __name__ == "__main__":
    main()
