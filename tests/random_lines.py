"""Makes random lines for ctlog, for fuzz.py. Only the numbers of tickets depend on how the threads run: the operator settles front by front, and a front asks
about sizes that it has waited for. With one front the tickets do not depend on it either, and receipts are asked for.
"""
import base64
import json
import random
import re

import merkle
from expected import Log, Refused

RING = 4096
CLOSE_AT = 1000
BAD_LINES = [
    b"{}",
    b"[]",
    b"no request",
    b'{"who":99,"op":"get-sth"}',
    b'{"who":"operator","op":"get-sth"}',
    b'{"who":"frozen","op":"shutdown"}',
    b'{"who":"operator","op":"publish","now":1.0}',
    b'{"who":"operator","op":"sequence","from":99,"count":0,"now":0}',
    b'{"who":"operator","op":"shift"}',
    b'{"who":0,"op":"shift","now":0}',
    b'{"who":0,"op":"add-chain","chain":["QR=="]}',
    b'{"who":0,"op":"add-chain","chain":"QQ=="}',
    b'{"who":0,"op":"add-pre-chain","issuer_key_hash":"QQ==","tbs":"QQ==","chain":["QQ=="]}',
    b'{"who":0,"op":"add-pre-chain","tbs":"QQ==","chain":["QQ=="]}',
    b'{"who":"front","op":"get-sth"}',
    b'{"who":null,"op":"get-sth"}',
    b'{"who":0,"op":["get-sth"]}',
    b'{"who":0,"op":"receipt","ticket":-0}',
    b'{"who":0,"op":"receipt","ticket":18446744073709551616}',
    b'{"who":0,"op":"receipt"}',
    b'{"who":0,"op":"get-proof-by-hash","hash":"QQ==","tree_size":0}',
    b"\xff",
]


class Script:
    """Makes the lines of an input, and plays them on a log to know sizes, moments and leaves."""

    def __init__(self, seed):
        self.random = random.Random(seed)
        self.fronts = self.random.choice([1, 1, 2, 3, 4, 16])
        self.lines = []
        self.log = Log(self.fronts, RING, 0)
        self.seen = []  # the tickets that are covered by the last head that the fronts have waited for
        self.now = 1

    def say(self, who, op, **keys):
        members = [("who", who), ("op", op), *keys.items()]
        self.random.shuffle(members)
        self.lines.append(json.dumps(dict(members)).encode())

    def chain(self):
        kind = self.random.random()
        if kind < 0.05:
            return []
        sizes = [self.random.choice([1, 1, 1, 2, 3, 100]) for _ in range(self.random.randint(1, 3))]
        if kind < 0.1:
            sizes[-1] = 0
        return [bytes([self.random.randrange(40)]) * size for size in sizes]

    def precert(self):
        """An issuer's key hash, one of three, and a TBSCertificate, seldom empty and often one that a certificate is as well."""
        size = 0 if self.random.random() < 0.05 else self.random.choice([1, 1, 1, 2, 100])
        return bytes([self.random.randrange(3)]) * 32, bytes([self.random.randrange(40)]) * size

    def submit(self, front):
        chain, precert = self.chain(), None
        texts = [base64.b64encode(certificate).decode() for certificate in chain]
        if self.random.random() < 0.5:
            self.say(front, "add-chain", chain=texts)
        else:
            precert = self.precert()
            issuer_key_hash, tbs = (base64.b64encode(part).decode() for part in precert)
            self.say(front, "add-pre-chain", issuer_key_hash=issuer_key_hash, tbs=tbs, chain=texts)
        try:
            self.log.submit(front, chain, precert)
        except Refused:
            pass

    def sequence(self, front):
        count = self.random.randint(0, len(self.log.rings[front]))
        moment = self.now - self.random.choice([0, 0, 0, 1])
        try:
            if count:
                self.log.settle(front, count, moment)
        except Refused:
            pass
        self.say("operator", "sequence", **{"from": front}, count=count, now=moment)

    def publish(self):
        moment = self.now - self.random.choice([0, 0, 0, 2])
        try:
            self.log.publish(moment)
        except Refused:
            pass
        self.say("operator", "publish", now=moment)

    def ask(self, who, size):
        """A question that sizes up to this one, which was published, decide."""
        sizes = sorted({published for published, _ in self.log.heads if published <= size})
        some_size = self.random.choice(sizes + sizes + [self.random.randint(0, size)])
        index = self.random.randint(0, size)
        leaves = self.log.leaves(size)
        hashes = [merkle.leaf_hash(leaf) for leaf in leaves] + [bytes(32)]
        op = self.random.choice(["consistency", "hash", "entries", "entry", "receipt"])
        if op == "consistency":
            self.say(who, "get-sth-consistency", first=self.random.choice(sizes), second=some_size)
        elif op == "hash":
            hash = base64.b64encode(self.random.choice(hashes)).decode()
            self.say(who, "get-proof-by-hash", hash=hash, tree_size=some_size)
        elif op == "entries" and size > 0:
            self.say(who, "get-entries", start=self.random.randint(0, size - 1), end=self.random.randint(0, size - 1))
        elif op == "entry":
            self.say(who, "get-entry-and-proof", leaf_index=index, tree_size=some_size)
        elif op == "receipt" and self.fronts == 1:
            tickets = self.seen if who != "frozen" else range(self.log.accepted + 2)
            if tickets:
                self.say(who, "receipt", ticket=self.random.choice(tickets))

    def audit(self, size):
        leaves = self.log.leaves(size)
        if not leaves:
            return
        index = self.random.randrange(size)
        path = [base64.b64encode(hash).decode() for hash in merkle.path(index, leaves)]
        if path and self.random.random() < 0.3:
            self.random.choice([path.pop, lambda: path.append(path[0]), lambda: path.reverse()])()
        leaf = base64.b64encode(self.random.choice([leaves[index]] * 3 + [b"A"])).decode()
        claimed = self.random.choice([index] * 3 + [index + 1])
        self.say("frozen", "audit", leaf_input=leaf, leaf_index=claimed, tree_size=size, audit_path=path)

    def round(self):
        """Submissions side by side, their settlement and a head, and questions once it is there."""
        before = self.log.size()
        for front in range(self.fronts):
            for _ in range(self.random.randint(0, 6)):
                self.submit(front)
        for front in self.random.sample(range(self.fronts), self.fronts):
            self.sequence(front)
        self.publish()
        size = self.log.size()
        if size > before:
            self.seen = sorted(self.log.covered)
        for front in range(self.fronts):
            if size > before:
                self.say(front, "await-size", tree_size=size)
            for _ in range(self.random.randint(0, 3)):
                self.ask(front, size)
        if self.random.random() < 0.3:
            self.lines.append(self.random.choice(BAD_LINES))
        while self.random.random() < 0.3:
            self.end_shift()
        self.now += self.random.randint(1, 3)

    def end_shift(self):
        """Ends a shift, at a moment that the clock takes."""
        self.say("operator", "shift", now=self.now)
        self.log.settle_all(self.now)

    def close(self):
        """Plays the closing."""
        self.log.shut = True
        self.log.settle_all(CLOSE_AT)
        self.log.publish(CLOSE_AT)

    def text(self):
        for _ in range(self.random.randint(1, 6)):
            self.round()
        if self.random.random() < 0.5:
            self.shut_down()
        self.close()
        self.say("frozen", "get-sth")
        for _ in range(12):
            self.ask("frozen", self.log.size())
            self.audit(self.random.choice(self.log.heads)[0])
        return b"\n".join(self.lines)

    def shut_down(self):
        """Has the operator wait for all that was submitted, so that the shutdown finds it accepted."""
        for front in range(self.fronts):
            count = len(self.log.rings[front])
            self.say("operator", "sequence", **{"from": front}, count=count, now=self.now)
            self.log.settle(front, count, self.now)
        self.say("operator", "shutdown")
        self.say("operator", "shutdown")


def is_written(written, fronts, lines):
    """Whether a program wrote these lines. If there are several fronts, they have `_` in place of tickets."""
    tickets = sorted(int(number) for number in re.findall(rb'"ticket":(\d+)', written))
    if fronts > 1:
        written = re.sub(rb'"ticket":\d+', b'"ticket":_', written)
    wanted = "".join(line + "\n" for line in lines).encode()
    return written == wanted and tickets == list(range(len(tickets)))
