#!/usr/bin/env python3
"""Times a log of ctserve out of a folder that has so many entries already, on loopback.

    large.py [--entries 10400,1000000] [--asks 200] [--seconds 10] [--keep FOLDER [--make | --turns 3 [--cold]]]

Nobody submitted these entries. bench/fabricate writes the tiles (with a certificate of 60 bytes each) and the deduplication index. This script writes
the register's text, with a state that is decided and not published yet. So ctserve publishes its head at its first start, and continues from it. Then it
measures for each size: the seconds until the log serves, at its second start; a proof by leaf hash, 32 entries and a consistency proof, at random places,
each checked; one submission, a repeat of it, and 64 clients at the same time; the memory of ctserve and its signer, and the disk. At last it has the log read
all data tiles again quickly, and measures the tiles a second and the time for all of them. The logs stay in FOLDER, and are used again where they are there;
--make makes them and times nothing. 10^8 entries take 25 GB. `make service` builds ctserve and ctload.

With --turns logs of these sizes take turns, and the output has ratios to the first size. It measures the start with nothing of the log in the machine's
cache (as root, with a warning otherwise) and once more. Then it reads the indexes once, so that they are in the machine's cache as far as they fit (--cold leaves
that out). It measures in each turn 64 clients that submit new certificates, and 64 clients that repeat
what was answered; then proofs by leaf hash at random places, each checked; and the memory of ctserve and its signer after the same turns.
"""
import argparse
import base64
import datetime
import hashlib
import json
import os
import pathlib
import random
import re
import shutil
import statistics
import sys
import tempfile
import time
import urllib.parse
import urllib.request

from served import HERE, TESTS, Log, disk_used, load, machine, memory, processor_time, ratio, run, stop, turn, until

sys.path += [str(TESTS), str(TESTS / "tiles")]

from merkle import fault_of_path, fault_of_proof, leaf_hash, root_by_path  # noqa: E402
from states import State, state_of, written  # noqa: E402


def vector(width, content):
    """Bytes after their length, which is written in so many bytes (RFC 5246, section 4.3)."""
    return len(content).to_bytes(width, "big") + content


def decide(store, fabricate, entries):
    """Writes the tiles of so many entries, and has the register hold their state, whose bundle has the partial tiles; the answer is their moment."""
    objects, register = store / "objects", store / "register" / "text"
    line, address, salt, *rest = register.read_text().split("\n")
    before = state_of(line)
    moment = before.timestamp + 1
    digests, *partial = run(fabricate, "tiles", objects, entries, moment).splitlines()
    root, data = map(bytes.fromhex, digests.split())
    bundle = b"".join(vector(2, name.encode()) + vector(4, (objects / name).read_bytes()) for name in partial)
    state = State(entries, moment, root, hashlib.sha256(bundle).digest(), data, hashlib.sha256(line.encode()).digest())
    name = f"{before.timestamp:016x}{random.getrandbits(64):016x}"
    (objects / "staging" / f"{moment:016x}{name}").write_bytes(bundle)
    register.write_text("\n".join([written(state), address, f"salt {name}", *rest]))
    return moment


def size_of(log):
    return json.loads(asked(log, "get-sth"))["tree_size"]


def fabricated(folder, fabricate, entries):
    """A log of so many entries in a folder, which has ended, and their moment."""
    if (folder / "moment").exists():
        log = Log(folder / "log")
        log.end()
        return log, int((folder / "moment").read_text())
    folder.mkdir(parents=True)
    log = Log(folder / "log")
    until(lambda: size_of(log) == 0, "there is no head", log.process, log.said)
    log.end()
    moment = decide(log.stored(), fabricate, entries)
    run(fabricate, "index", log.stored() / "index", entries, moment)
    log.start()
    until(lambda: size_of(log) == entries, "the head isn't published", log.process, log.said)
    log.end()
    (folder / "moment").write_text(str(moment))
    return log, moment


def asked(log, call, **words):
    with urllib.request.urlopen(f"{log.url}/ct/v1/{call}?{urllib.parse.urlencode(words)}", timeout=60) as answer:
        return answer.read()


def leaf(index, moment):
    """The leaf at this index (RFC 6962, section 3.4), as fabricate makes it."""
    return b"\0\0" + moment.to_bytes(8, "big") + b"\0\0" + vector(3, bytes(52) + index.to_bytes(8, "big")) + vector(2, b"\0" + vector(2, index.to_bytes(5, "big")))


def decoded(hashes):
    return [base64.b64decode(one) for one in hashes]


def timed(asks, ask, judge):
    """The median and the largest of the times of calls for each of these, in milliseconds, without the time to judge the answers."""
    times = []
    for one in asks:
        began = time.monotonic()
        answer = ask(one)
        times.append(1000 * (time.monotonic() - began))
        if fault := judge(one, answer):
            stop(f"{ask.__name__} {one}: {fault}")
    return f"{statistics.median(times):.1f} ({max(times):.0f})"


class Reader:
    """Asks a log whose first entries are fabricate's, and judges what it answers by its head's root."""

    def __init__(self, log, moment):
        head = json.loads(asked(log, "get-sth"))
        self.log, self.moment, self.size, self.root = log, moment, head["tree_size"], base64.b64decode(head["sha256_root_hash"])

    def proof(self, index, size):
        wanted = leaf_hash(leaf(index, self.moment))
        return json.loads(asked(self.log, "get-proof-by-hash", hash=base64.b64encode(wanted).decode(), tree_size=size))

    def proof_by_hash(self, index):
        return self.proof(index, self.size)

    def fault_of_proof_by_hash(self, index, found):
        if found["leaf_index"] != index:
            return f"it is of {found['leaf_index']}"
        return fault_of_path(leaf(index, self.moment), index, self.size, decoded(found["audit_path"]), self.root)

    def entries(self, first):
        return json.loads(asked(self.log, "get-entries", start=first, end=first + 31))["entries"]

    def fault_of_entries(self, first, found):
        wrong = decoded(one["leaf_input"] for one in found) != [leaf(at, self.moment) for at in range(first, first + 32)]
        return "others" if wrong else None

    def consistency(self, first):
        return json.loads(asked(self.log, "get-sth-consistency", first=first, second=self.size))["consistency"]

    def fault_of_consistency(self, first, found):
        """(the earlier root is the one to which the path of its last entry leads)"""
        path = decoded(self.proof(first - 1, first)["audit_path"])
        earlier = root_by_path(leaf_hash(leaf(first - 1, self.moment)), first - 1, first, path)
        return fault_of_proof(first, self.size, earlier, self.root, decoded(found))


def submitted(log, chain):
    asking = urllib.request.Request(f"{log.url}/ct/v1/add-chain", json.dumps({"chain": chain}).encode(), {"Content-Type": "application/json"})
    with urllib.request.urlopen(asking, timeout=60) as answer:
        return json.load(answer)["timestamp"]


def chains(log, count):
    """Chains of a new certificate each under the log's root."""
    from cryptography import x509
    from cryptography.hazmat.primitives import hashes, serialization
    from cryptography.hazmat.primitives.asymmetric import ec

    key = serialization.load_pem_private_key((log.folder / "root.key").read_bytes(), None)
    root = x509.load_pem_x509_certificate(log.roots.read_bytes())
    own, now = ec.generate_private_key(ec.SECP256R1()), datetime.datetime.utcnow()
    for number in range(count):
        name = x509.Name([x509.NameAttribute(x509.NameOID.COMMON_NAME, f"{number}.large.example")])
        made = (x509.CertificateBuilder().subject_name(name).issuer_name(root.subject).public_key(own.public_key()).serial_number(x509.random_serial_number())
                .not_valid_before(now).not_valid_after(now + datetime.timedelta(days=20)).sign(key, hashes.SHA256()))  # fmt: skip
        yield [base64.b64encode(one.public_bytes(serialization.Encoding.DER)).decode() for one in (made, root)]


class Submitter:
    """Submits chains to a log, and the same once more."""

    def __init__(self, log, count):
        self.log, self.chains, self.stamps = log, list(chains(log, count)), {}

    def submission(self, number):
        return submitted(self.log, self.chains[number])

    def kept(self, number, stamp):
        self.stamps[number] = stamp

    def fault_of_repeat(self, number, stamp):
        return None if stamp == self.stamps[number] else "another timestamp"


def read_again(log):
    """How many data tiles a second ctserve reads again if it must read all within a minute, and the milliseconds of processor time that each takes."""

    def count():
        with urllib.request.urlopen(f"http://127.0.0.1:{log.operator}/metrics", timeout=60) as answer:
            return int(float(re.search(r"^ctserve_scrubbed_tiles_total (\S+)", answer.read().decode(), re.M)[1]))

    until(lambda: count() > 0, "no tile is read again", log.process, log.said)
    had, began, took = count(), time.monotonic(), processor_time(log.process.pid)
    time.sleep(10)
    read, seconds, took = count() - had, time.monotonic() - began, processor_time(log.process.pid) - took
    return read / seconds, 1000 * took / max(read, 1)


def measure(folder, fabricate, words, entries):
    """The cells of a column."""
    log, moment = fabricated(folder, fabricate, entries)
    try:
        cells = {"ready, s": f"{log.start():.2f}"}
        of, asks = Reader(log, moment), range(words.asks)
        cells["proof by hash"] = timed([random.randrange(entries) for _ in asks], of.proof_by_hash, of.fault_of_proof_by_hash)
        # (within one data tile: get-entries answers no more)
        firsts = [256 * random.randrange(entries // 256) + random.randrange(224) for _ in asks]
        cells["get-entries of 32"] = timed(firsts, of.entries, of.fault_of_entries)
        cells["consistency"] = timed([random.randrange(1, entries) for _ in asks], of.consistency, of.fault_of_consistency)
        by = Submitter(log, words.asks)
        cells["submission"] = timed(asks, by.submission, by.kept)
        cells["repeat"] = timed(asks, by.submission, by.fault_of_repeat)
        count, took, middle, *_ = load(log, 64, "--for", f"{words.seconds}s")
        cells["64 clients, a second"] = f"{count / took:,.0f} (median {1000 * middle:.0f} ms)"
        cells["memory, MB"] = f"{memory(log.process.pid) / 1e6:.0f}"
        cells["disk, GB"] = f"{disk_used(log.stored() / 'objects') / 1e9:.2f} + {disk_used(log.stored() / 'index') / 1e9:.2f}"
        log.end()
        # (old tiles are read again once a head is as old as delete-tiles-after)
        log.settings.write_text(log.settings.read_text() + "scrub-interval 100ms\nscrub-period 1m\ndelete-tiles-after 1s\n")
        log.start()
        a_second, each = read_again(log)
        # (of each 256 entries the data tile, with the hash tiles above it)
        hours = entries / 256 / max(a_second, 0.001) / 3600
        cells["reading again"] = f"{a_second:.0f} data tiles a second, {each:.1f} ms each: {hours:.2f} h"
    finally:
        log.end()
    return cells


CLIENTS, REPEATS = 64, 100


def forget():
    """Drops the machine's cache of files, and says so where that is not allowed."""
    os.sync()
    try:
        pathlib.Path("/proc/sys/vm/drop_caches").write_text("3")
    except OSError as why:
        print(f"large.py: the machine's cache of files is kept, so the first start isn't a cold one: {why}", file=sys.stderr)


def remember(folder):
    """Reads the files of a folder, so that they are in the machine's cache as far as they fit."""
    for path in folder.iterdir():
        with path.open("rb") as file:
            while file.read(1 << 20):
                pass


class Column:
    """A log that takes turns with others, and its figures."""

    def __init__(self, folder, fabricate, entries):
        self.entries, (self.log, self.moment) = entries, fabricated(folder, fabricate, entries)
        self.new, self.again = [], []
        forget()
        self.cold = self.log.start()
        self.log.end()
        self.warm = self.log.start()
        self.started = memory(self.log.process.pid)

    def turn(self, seconds):
        new = turn(self.log, CLIENTS, seconds, 4000 * seconds)
        count, took, *_ = load(self.log, CLIENTS, "--repeats", REPEATS, "--for", f"{seconds}s")
        self.new.append(new)
        self.again.append(count / took)
        print(f"| {self.entries:,} | {new.rate:,.0f} | {new.median:,.0f} | {new.high:,.0f} | {new.processor:.3f} | {new.written:,.0f} | {self.again[-1]:,.0f} | {new.others:.1f} |", flush=True)

    def proofs(self, asks):
        of = Reader(self.log, self.moment)
        return timed([random.randrange(self.entries) for _ in range(asks)], of.proof_by_hash, of.fault_of_proof_by_hash)

    def cells(self, asks, first):
        """The cells of a column; the ratios are to those of the first size."""
        now = memory(self.log.process.pid)
        self.ended = now
        rates, again = ([one.rate for one in self.new], [one.rate for one in first.new]), (self.again, first.again)
        processor = ([one.processor for one in self.new], [one.processor for one in first.new])
        return {
            "start with nothing in the cache, s": f"{self.cold:.2f}",
            "start, s": f"{self.warm:.2f}",
            "memory after the start, MB": f"{self.started / 1e6:.0f}",
            "memory after the turns, MB": f"{now / 1e6:.0f} ({now / first.ended:.2f})",
            "submissions a second": f"{statistics.median(rates[0]):,.0f} ({ratio(*rates):.2f})",
            "processor, ms an entry": f"{statistics.median(processor[0]):.2f} ({ratio(*processor):.2f})",
            "duplicates a second": f"{statistics.median(again[0]):,.0f} ({ratio(*again):.2f})",
            "proof by hash, ms": self.proofs(asks),
            "disk, GB: objects + index": f"{disk_used(self.log.stored() / 'objects') / 1e9:.2f} + {disk_used(self.log.stored() / 'index') / 1e9:.2f}",
        }


def by_turns(columns, words):
    """Has the logs take turns, and prints each turn and the figures of all."""
    print(f"{machine()}; a load of {os.getloadavg()[0]:.1f} before; {words.turns} turns of {words.seconds} s with {CLIENTS} clients\n", flush=True)
    heads = "Entries before", "Submissions a second", "Median, ms", "99th percentile, ms", "Processor, ms an entry", "Written, bytes an entry", "Duplicates a second", "Processors that others had"
    print(f"| {' | '.join(heads)} |\n" + "|---" * len(heads) + "|")
    for column in columns:
        if not words.cold:
            remember(column.log.stored() / "index")
        # The first turn opens the clients' connections.
        turn(column.log, CLIENTS, 1, CLIENTS)
    for number in range(words.turns):
        for column in columns[:: 1 if number % 2 == 0 else -1]:
            column.turn(words.seconds)
    found = [column.cells(words.asks, columns[0]) for column in columns]
    print("\n| Entries |" + "".join(f" {column.entries:,} |" for column in columns) + "\n|---|" + "---|" * len(columns))
    for name in found[0]:
        print(f"| {name} |" + "".join(f" {cells[name]} |" for cells in found))


def main():
    parser = argparse.ArgumentParser(description=__doc__, formatter_class=argparse.RawDescriptionHelpFormatter)
    parser.add_argument("--entries", default="10400,1000000")
    parser.add_argument("--asks", type=int, default=200)
    parser.add_argument("--seconds", type=int, default=10)
    parser.add_argument("--keep", type=pathlib.Path)
    parser.add_argument("--make", action="store_true")
    parser.add_argument("--turns", type=int, default=0)
    parser.add_argument("--cold", action="store_true")
    words = parser.parse_args()
    if words.make and not words.keep:
        parser.error("--make needs --keep")
    with tempfile.TemporaryDirectory(dir=os.environ.get("TMPDIR")) as work:
        work, columns = pathlib.Path(work), {}
        fabricate = work / "fabricate"
        run(HERE.parent / "deps" / "go", "-C", HERE.parent, "build", "-o", fabricate, "./bench/fabricate")
        if words.turns:
            made = []
            try:
                for entries in map(int, words.entries.split(",")):
                    made.append(Column((words.keep.resolve() if words.keep else work) / str(entries), fabricate, entries))
                by_turns(made, words)
            finally:
                for column in made:
                    column.log.end()
            return
        for entries in map(int, words.entries.split(",")):
            folder = (words.keep.resolve() if words.keep else work) / str(entries)
            if words.make:
                fabricated(folder, fabricate, entries)
                continue
            columns[entries] = measure(folder, fabricate, words, entries)
            if not words.keep:
                shutil.rmtree(folder)
            print(f"{entries:,}: {columns[entries]}; load {os.getloadavg()[0]:.0f}", flush=True)
    if words.make:
        return
    print("| Entries |" + "".join(f" {entries:,} |" for entries in columns) + "\n|---|" + "---|" * len(columns))
    for name in next(iter(columns.values())):
        print(f"| {name} |" + "".join(f" {cells[name]} |" for cells in columns.values()))


if __name__ == "__main__":
    main()
