#!/usr/bin/env python3
"""Measures ctserve over engines on loopback, by turns: its rate with one node and with several, and the calls of a step to each store.

    tests/engines.sh run bench/engines.py [--turns 2] [--seconds 12] [--clients 16,64,256,1024] [--stores etcd,postgres] [--nodes 1,3] [--out OUT,..]

The engines are those of tests/engines.sh: the lock and the guard's state are on etcd's three members or on PostgreSQL, the index always on PostgreSQL, objects always on S3.
With several folders OUT of builds of ctserve (by default only cmd/out) each is a log of its own over the same engines, with a database of its own. In each turn ctload submits to each log with so many
clients for so many seconds, each client a new certificate as soon as its last one is answered.
With --nodes 1,3 a log of three nodes takes turns with one of one node, over each store. Its nodes share a signer, and each gets a third of the submissions.
`make service` builds ctserve and ctload.

It prints the machine, and of each turn: timestamps a second, the median and 99th percentile of the time to one, how many entries a step took in, the processor time of the log's
processes and of each engine an entry until a signed head has all of them, and how many processors others had meanwhile. Then, of all turns together, how often
a step called each store and for how long (the guard's state isn't among them: it is the signer's), how long each part of a step took, and the ratios of several
nodes to one and of this build to others, which are medians of the turns' ratios. The build of commit 9802f24a (bench/old.sh) has one node only.
"""
import argparse
import os
import pathlib
import signal
import subprocess
import tempfile
import time

from served import HERE, OUT, Log, busy_time, free_port, keys, load, machine, processor_time, ratio, run, size_of, stop, until

WANTED = ("STORES_MEMBERS", "STORES_POSTGRES", "STORES_S3", "STORES_AGAIN")


def bucket(name):
    """The address of a new bucket."""
    who, _, host = os.environ["STORES_S3"].removeprefix("http://").partition("@")
    nothing = run("sha256sum", input="").split()[0]
    run("curl", "-sS", "--fail", "-X", "PUT", "--user", who, "--aws-sigv4", "aws:amz:us-east-1:s3", "-H", f"x-amz-content-sha256: {nothing}", f"http://{host}/{name}")
    return f"s3://{who}@{host}/{name}?tls=no"


def database(name):
    """Makes a database, since builds of ctserve may differ in their tables."""
    at = dict(word.split("=") for word in os.environ["STORES_POSTGRES"].split())
    run("psql", "-h", at["host"], "-p", at["port"], "-U", at["user"], "-d", at["dbname"], "-c", f'CREATE DATABASE "{name}"')
    return name


def address(store, name, of):
    """The address of an engine for a log's lock, index or guard's state, in this database if it is PostgreSQL."""
    if store == "etcd":
        return f"etcd://{os.environ['STORES_MEMBERS']}/{name}"
    at = dict(word.split("=") for word in os.environ["STORES_POSTGRES"].split())
    return f"postgres://{at['user']}@{at['host']}:{at['port']}/{of}?sslmode={at['sslmode']}&log={name}"


class Several:
    """A log of several nodes, which share a signer."""

    def __init__(self, folder, out, count, guard_state, **stores):
        keys(folder)
        self.folder, self.roots, self.nodes = folder, folder / "roots.pem", []
        socket, said = folder / "signer", folder / "signer.log"
        with said.open("w") as to:
            words = ["--signing-key", folder / "log.key", "--guard-state", guard_state, "--listen", socket, "--create"]
            self.signer = subprocess.Popen([out / "ctserve", "signer", *words], stdout=to, stderr=subprocess.STDOUT)
        until(socket.exists, "the signer doesn't listen", self.signer, said)
        for number in range(count):
            name = f"node-{number}"
            run(HERE.parent / "release" / "node-certificate.sh", folder, name, "127.0.0.1")
            own = {"nodes-certificate": folder / f"{name}.pem", "nodes-key": folder / f"{name}.key", "nodes-ca": folder / "nodes-ca.pem"}
            at = f"127.0.0.1:{free_port()}"
            self.nodes.append(Log(folder, out, name, number == 0, **{"signing-key": None, "signer-socket": socket, "nodes-listen": at, "nodes-address": f"https://{at}"}, **own, **stores))
        self.url, self.urls = self.nodes[0].url, ",".join(node.url for node in self.nodes)

    def figures(self):
        """The figures of all nodes together."""
        found = {}
        for node in self.nodes:
            for of, (many, long) in node.figures().items():
                had = found.get(of, (0, 0))
                found[of] = had[0] + many, had[1] + long
        return found

    def reload(self):
        return f"kill -HUP {' '.join(str(node.process.pid) for node in self.nodes)}"

    def ids(self):
        return [self.signer.pid, *(node.process.pid for node in self.nodes)]

    def end(self):
        for node in self.nodes:
            node.end()
        self.signer.send_signal(signal.SIGTERM)
        self.signer.wait()


class Node:
    """A log of one node or several, whose stores are engines."""

    def __init__(self, folder, number, store, out, count):
        self.store, self.count, self.out = store, count, out
        self.name, name = f"{store}, {count} node{'s' * (count > 1)}{'' if out == OUT else f', {out}'}", f"log{os.getpid()}-{number}"
        of = database(name)
        stores = {"store": bucket(name), "lock": address(store, name, of), "index": address("postgres", name, of), "guard_state": address(store, f"{name}-guard", of)}
        self.log = Log(folder, out, **stores) if count == 1 else Several(folder, out, count, **stores)
        self.figures, self.steps, self.calls, self.phases = {}, 0, {}, {}

    def turn(self, clients, seconds, engines):
        had, figures, busy, began = size_of(self.log), self.log.figures(), busy_time(), time.monotonic()
        before, own = engines.spent(), processor_time(*self.log.ids())
        loader = sum(os.times()[2:4])
        count, took, middle, high, again = load(self.log, clients, "--for", f"{seconds}s")
        loader = sum(os.times()[2:4]) - loader
        # (those that ctload gave up at its end may come in too)
        until(lambda: size_of(self.log) >= had + count, "no head has all entries")
        own, after, now = processor_time(*self.log.ids()) - own, engines.spent(), self.log.figures()
        spent = {engine: after[engine] - before[engine] for engine in after}
        others = (busy_time() - busy - own - sum(spent.values()) - loader) / (time.monotonic() - began)
        entries, grown = max(size_of(self.log) - had, 1), {of: (now[of][0] - figures[of][0], now[of][1] - figures[of][1]) for of in now}
        steps = max(grown["step", "swap"][0], 1)
        self.steps += steps
        for (of, name), (many, long) in grown.items():
            into = self.calls if of == "store" else self.phases
            into[name] = into.get(name, (0, 0))[0] + many, into.get(name, (0, 0))[1] + long
        each = ", ".join(f"{engine} {1000 * one / entries:.2f}" for engine, one in spent.items() if one)
        self.figures.setdefault(clients, []).append((count / took, middle, high, own / entries))
        return (f"| {clients:,} | {self.name}{' (some were refused, and sent again)' if again else ''} | {count / took:,.0f} | {1000 * middle:,.0f} | {1000 * high:,.0f} | "
                         f"{entries / steps:.0f} | {1000 * own / entries:.2f} | {each} | {max(others, 0):.1f} |")  # fmt: skip


class Engines:
    """The processes that tests/engines.sh started."""

    def __init__(self):
        missing = [name for name in WANTED if name not in os.environ]
        if missing:
            stop(f"{', '.join(missing)} isn't set: tests/engines.sh run bench/engines.py (ENGINES=\"members postgres s3\")")
        self.folder = pathlib.Path(os.environ["STORES_AGAIN"].split()[-1])

    def spent(self):
        """The processor time of each, in seconds; members of one kind together."""
        found = {}
        for name in (self.folder / "names").read_text().split():
            kind = "etcd" if name.startswith("member") else name
            found[kind] = found.get(kind, 0) + processor_time(int((self.folder / f"{name}.id").read_text().split()[0]))
        return found


def compare(nodes):
    """Prints the ratios of each log of several nodes to the one of one node that has the same store and build, and of this build's logs to those of others."""
    pairs = [(node, one) for node in nodes if node.count > 1 for one in nodes if (one.store, one.out, one.count) == (node.store, node.out, 1)]
    pairs += [(node, one) for node in nodes if node.out == OUT for one in nodes if one.out != OUT and (one.store, one.count) == (node.store, node.count)]
    if pairs:
        print("\n| Clients | Log over another one | Timestamps a second | Median | 99th percentile | Processor |\n" + "|---" * 6 + "|")
    for node, one in pairs:
        for clients, figures in node.figures.items():
            cells = (f"{ratio(*([turn[at] for turn in turns] for turns in (figures, one.figures[clients]))):.2f}" for at in range(4))
            print(f"| {clients:,} | {node.name} over {one.name} | {' | '.join(cells)} |")


def main():
    parser = argparse.ArgumentParser(description=__doc__, formatter_class=argparse.RawDescriptionHelpFormatter)
    parser.add_argument("--turns", type=int, default=2)
    parser.add_argument("--seconds", type=int, default=12)
    parser.add_argument("--clients", default="16,64,256,1024")
    parser.add_argument("--stores", default="etcd,postgres")
    parser.add_argument("--nodes", default="1")
    parser.add_argument("--out", default=str(OUT))
    words = parser.parse_args()
    engines, nodes = Engines(), []
    with tempfile.TemporaryDirectory(dir=os.environ.get("TMPDIR")) as work:
        try:
            for store in words.stores.split(","):
                for out in words.out.split(","):
                    for count in map(int, words.nodes.split(",")):
                        nodes.append(Node(pathlib.Path(work) / f"log{len(nodes)}", len(nodes), store, pathlib.Path(out).resolve(), count))
            print(f"{words.turns} turns of {words.seconds} s on {machine()}; a load of {os.getloadavg()[0]:.1f} before\n", flush=True)
            print("| Clients | Lock | Timestamps a second | Median, ms | 99th percentile, ms | Entries a step | Processor of the log, ms an entry | Of the engines | Processors that others had |\n" + "|---" * 9 + "|")
            for clients in map(int, words.clients.split(",")):
                for number in range(words.turns):
                    for node in nodes[:: 1 if number % 2 == 0 else -1]:
                        print(node.turn(clients, words.seconds, engines), flush=True)
            for what, of in (("Calls a step, and ms each", "calls"), ("Parts of a step, ms", "phases")):
                print(f"\n| {what} | {' | '.join(node.name for node in nodes)} |\n" + "|---" * (1 + len(nodes)) + "|")
                for name in getattr(nodes[0], of):
                    cells = [(getattr(node, of).get(name, (0, 0)), node.steps) for node in nodes]
                    if any(many for (many, _), _ in cells):
                        print(f"| {name} | " + " | ".join(f"{many / steps:.2f}, {1000 * long / max(many, 1):.1f}" if of == "calls" else f"{1000 * long / steps:.1f}" for (many, long), steps in cells) + " |")
            compare(nodes)
        finally:
            for node in nodes:
                node.log.end()


if __name__ == "__main__":
    main()
