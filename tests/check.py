#!/usr/bin/env python3
"""Checks what ctlog wrote for an input, with hashlib only: check.py FRONTS INPUT OUTPUT

It takes the log at its word in nothing: roots are computed from the entries that `get-entries` returns, proofs are checked by merkle.py, receipts against the
entries and the submissions, and the order of the entries against the operator's settlements. The input asks the frozen log for all entries, page by page, and
for its tree head at the end.
"""
import base64
import collections
import functools
import json
import pathlib
import sys

import merkle

X509_ENTRY, PRECERT_ENTRY = b"\x00\x00", b"\x00\x01"


def bytes_of(text):
    return base64.b64decode(text, validate=True)


def all_bytes(texts):
    return [bytes_of(text) for text in texts]


class Wrong(Exception):
    """What doesn't hold."""


def claim(holds, wrong):
    if not holds:
        raise Wrong(wrong)


def requests_of(lines, fronts):
    """The requests in the order of their replies: front 0's, front 1's and so on, the operator's, the frozen log's."""
    parties = [[] for _ in range(fronts + 2)]
    places = {**{front: front for front in range(fronts)}, "operator": fronts, "frozen": fronts + 1}
    for number, line in enumerate(filter(None, lines)):
        try:
            request = json.loads(line)
            request["line"] = number
            parties[places[request["who"]]].append(request)
        except (ValueError, KeyError, TypeError):
            parties[fronts].append({"who": "operator", "op": "no request"})
    return sum(parties, [])


class Checker:
    """Checks the replies to the requests, one kind after the other."""

    def __init__(self, pairs):
        self.pairs = pairs
        self.submissions = [(request, reply["ticket"]) for request, reply in self.replies_to("add-chain", "add-pre-chain")]
        self.heads = [reply["tree_size"] for _, reply in self.replies_to("publish")]
        self.entries = []
        for request, reply in self.replies_to("get-entries"):
            if request["who"] == "frozen" and request["start"] == len(self.entries):
                self.entries += reply["entries"]
        self.leaves = all_bytes(entry["leaf_input"] for entry in self.entries)
        self.final = self.replies_to("get-sth")[-1][1]
        self.indexes = {}  # from ticket to index, once the order is known

    def replies_to(self, *ops):
        """The requests of these ops that weren't refused, with their replies."""
        return [(request, reply) for request, reply in self.pairs if request["op"] in ops and "error" not in reply]

    @functools.lru_cache(maxsize=None)
    def root_at(self, size):
        return merkle.root(self.leaves[:size])

    def tickets(self):
        numbers = sorted(ticket for _, ticket in self.submissions)
        claim(numbers == list(range(len(numbers))), "the tickets aren't 0 to n - 1, each once")
        for who in {request["who"] for request, _ in self.submissions}:
            own = [ticket for request, ticket in self.submissions if request["who"] == who]
            claim(own == sorted(own), f"the tickets of front {who} don't rise")
        accepted = [reply["accepted"] for _, reply in self.replies_to("shutdown")]
        claim(accepted == [len(numbers)], "the shutdown counted other submissions")

    def entry_at(self, index):
        """The entry type and the signed entry of a leaf."""
        return self.leaves[index][10:-2]

    def settlement_order(self):
        """Settles again the submissions that the operator's replies say were settled: some of a front's, or at a shift's end all that came before it, front
        by front; and then the rest, front by front."""
        waiting = collections.defaultdict(collections.deque)
        for request, ticket in self.submissions:
            waiting[request["who"]].append((ticket, entry_of(request), request["line"]))
        entries, firsts = [], {}

        def settle(front, count, now):
            for _ in range(count):
                ticket, entry, _ = waiting[front].popleft()
                if entry not in firsts:
                    firsts[entry] = len(entries)
                    entries.append(bytes(2) + now.to_bytes(8, "big") + entry + bytes(2))
                self.indexes[ticket] = firsts[entry]

        for request, reply in self.pairs:
            claim(reply.get("error") != "late", "a line waited in vain")
            if "settled" in reply:
                claim(reply["settled"] == request["count"], "another number was settled than was asked for")
                settle(request["from"], reply["settled"], request["now"])
            if "shift" in reply:
                for front in sorted(waiting):
                    settle(front, sum(line < request["line"] for _, _, line in waiting[front]), request["now"])
            if request["op"] == "publish" and "tree_size" in reply:
                claim(reply["tree_size"] == len(entries), "a head doesn't cover what was settled")
        for front in sorted(waiting):
            settle(front, len(waiting[front]), self.final["timestamp"])
        claim(entries == self.leaves, "the entries aren't in the order in which they were settled")

    def entries_are_submissions(self):
        submitted = [entry_of(request) for request, _ in self.submissions]
        logged = [self.entry_at(index) for index in range(len(self.leaves))]
        claim(len(set(logged)) == len(logged), "a certificate has two leaves")
        claim(set(logged) == set(submitted), "the leaves aren't those of the submitted certificates")
        chains = {(entry_of(request), extra_data_of(request)) for request, _ in self.submissions}
        for index, entry in enumerate(self.entries):
            claim((self.entry_at(index), bytes_of(entry["extra_data"])) in chains, f"entry {index} has another chain")

    def tree_heads(self):
        heads = [reply for _, reply in self.replies_to("get-sth")]
        for reply in heads:
            claim(bytes_of(reply["sha256_root_hash"]) == self.root_at(reply["tree_size"]), "a head has another root")
        claim(self.heads == sorted(self.heads), "the sizes of the heads fall")
        shown = collections.defaultdict(list)
        for request, reply in self.replies_to("get-sth"):
            shown[request["who"]].append((reply["tree_size"], reply["timestamp"]))
        claim(all(heads == sorted(heads) for heads in shown.values()), "a party was shown an earlier head than before")
        final = self.final
        published = {(reply["tree_size"], reply["timestamp"]) for reply in [final, *(head for _, head in self.replies_to("publish"))]}
        claim({(head["tree_size"], head["timestamp"]) for head in heads if head["tree_size"]} <= published, "a head wasn't published")
        claim(final["tree_size"] == len(self.leaves), "the final head doesn't cover all entries")

    def inclusion_proofs(self):
        for request, reply in self.replies_to("get-proof-by-hash") + self.replies_to("get-entry-and-proof"):
            size = request["tree_size"]
            index = reply.get("leaf_index", request.get("leaf_index"))
            leaf = bytes_of(reply["leaf_input"]) if "leaf_input" in reply else self.leaves[index]
            claim(merkle.leaf_hash(leaf) == bytes_of(request["hash"]) if "hash" in request else True, "a leaf has another hash")
            claim(leaf == self.leaves[index], "an entry isn't the log's")
            path = all_bytes(reply["audit_path"])
            claim(merkle.includes(leaf, index, size, path, self.root_at(size)), "an inclusion proof fails")

    def consistency_proofs(self):
        for request, reply in self.replies_to("get-sth-consistency"):
            first, second = request["first"], request["second"]
            path = all_bytes(reply["consistency"])
            roots = self.root_at(first), self.root_at(second)
            claim(merkle.extends(first, second, *roots, path), "a consistency proof fails")

    def receipts(self):
        entries = {ticket: entry_of(request) for request, ticket in self.submissions}
        for request, reply in self.replies_to("receipt"):
            index = reply["leaf_index"]
            claim(index == self.indexes[request["ticket"]], "a receipt names another index")
            claim(entries[request["ticket"]] == self.entry_at(index), "a receipt names another entry")
            claim(reply["timestamp"] == int.from_bytes(self.leaves[index][2:10], "big"), "a receipt has another timestamp")

    def audits(self):
        for request, reply in self.replies_to("audit"):
            size, path = request["tree_size"], all_bytes(request["audit_path"])
            leaf, index = bytes_of(request["leaf_input"]), request["leaf_index"]
            holds = merkle.includes(leaf, index, size, path, self.root_at(size))
            claim(reply["verdict"] == ("holds" if holds else "refused"), "an audit has another verdict")

    def shifts(self):
        numbers = [reply["shift"] for _, reply in self.replies_to("shift")]
        claim(numbers == list(range(1, len(numbers) + 1)), "the shifts aren't numbered in order")


def vector(value):
    return len(value).to_bytes(3, "big") + value


def entry_of(request):
    """The entry type and the signed entry of a submission (RFC 6962, section 3.1)."""
    if request["op"] == "add-pre-chain":
        return PRECERT_ENTRY + bytes_of(request["issuer_key_hash"]) + vector(bytes_of(request["tbs"]))
    return X509_ENTRY + vector(bytes_of(request["chain"][0]))


def extra_data_of(request):
    """The certificates after the first as a chain, and a precertificate in front of it (section 4.6)."""
    first, *issuers = all_bytes(request["chain"])
    return (vector(first) if request["op"] == "add-pre-chain" else b"") + vector(b"".join(map(vector, issuers)))


def checked(fronts, given, written):
    """Fails with Wrong if the replies to an input don't hold."""
    requests = requests_of(given.split("\n"), fronts)
    replies = [json.loads(line) for line in written.splitlines()]
    claim(len(requests) == len(replies), f"{len(requests)} requests, but {len(replies)} replies")
    checker = Checker(list(zip(requests, replies)))
    for check in (checker.tickets, checker.settlement_order, checker.entries_are_submissions, checker.tree_heads, checker.inclusion_proofs, checker.consistency_proofs,
                  checker.receipts, checker.audits, checker.shifts):
        check()


if __name__ == "__main__":
    try:
        checked(int(sys.argv[1]), *(pathlib.Path(path).read_text() for path in sys.argv[2:4]))
    except (Wrong, KeyError, IndexError, ValueError) as fault:
        sys.exit(f"check.py: {fault!r}")
