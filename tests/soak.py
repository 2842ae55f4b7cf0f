#!/usr/bin/env python3
"""Kills and pauses the processes of a log at random, while it is loaded and read, and judges it from outside.

    soak.py [--minutes 60] [--seed N] [--folder] [--kills] [--work FOLDER]

tests/cluster.sh runs the log: three nodes over etcd, PostgreSQL and Ceph's S3, or with --folder one node over a folder, with a signer, three witnesses, a
loader and a reader. Nodes, signer, witnesses and engines are killed (SIGKILL) or paused (SIGSTOP, SIGCONT). Two members of etcd may be paused at once. With
--kills only nodes are killed, one in turn each minute, and several nodes have nginx in front of them. Then the bounds of `ctaudit probe` on availability and
latency must hold, too.

Four judge what happened: `ctaudit probe` all the time; tests/clients/tlog, which reads the whole log; `ctaudit fsck`, which compares all that was published, and all that was
answered, at the end; and the witnesses. No process may take more than MEMORY bytes, panic, or not start again. The seed fixes the choices, and is printed.
Their effect depends on the time. If something is wrong, the status is 1, and the folder has the output of all processes.
"""
import argparse
import os
import pathlib
import random
import re
import shutil
import signal
import socket
import subprocess
import sys
import tempfile
import time

ROOT = pathlib.Path(__file__).resolve().parent.parent
CLUSTER, ENGINES, CTSERVE = ROOT / "tests" / "cluster.sh", ROOT / "tests" / "engines.sh", ROOT / "cmd" / "out" / "ctserve"
MEMORY = 600 << 20
# How long a process is away or paused, in seconds, and how long it is left alone after that. Answers wait for what is away.
SHORT, LONG, BETWEEN, ANSWERED_WITHIN = (0, 4), (10, 35), (2, 15), "3m"
# What a process of Go prints before it ends by a fault of its own.
PANICS = re.compile(rb"^(?:panic|fatal error): .*", re.M)


def say(text):
    print(f"{time.strftime('%H:%M:%S')} {text}", flush=True)


def free_port():
    """Returns the first of 40 ports that are free."""
    while True:
        first = random.randrange(20000, 30000)
        found = [socket.socket() for _ in range(40)]
        try:
            for port, each in enumerate(found, first):
                each.bind(("127.0.0.1", port))
            return first
        except OSError:
            continue
        finally:
            for each in found:
                each.close()


class Soak:
    """A log of cluster.sh in a folder, its faults, and what was wrong."""

    def __init__(self, work, options):
        self.work, self.options, self.port, self.chance = work, options, free_port(), random.Random(options.seed)
        engines = {"ENGINES": ""} if options.folder else {}
        self.environment = {**os.environ, **engines, "NODES": "1" if options.folder else "3", "RATE": "10"}
        if options.kills and not options.folder:
            self.environment["FRONT"] = "yes"
        self.counts, self.faults, self.peaks = {}, [], {}

    def fail(self, text):
        say(f"WRONG: {text}")
        self.faults.append(text)

    def cluster(self, command):
        """Runs cluster.sh, and returns its status. `start` starts what is gone, and waits until each node is ready."""
        words = [CLUSTER, command, self.work, *[str(self.port)] * (command == "start")]
        with open(self.work / "cluster.log", "ab") as told:
            status = subprocess.run(words, env=self.environment, stdin=subprocess.DEVNULL, stdout=told, stderr=told).returncode
        self.environment["BUILD"] = "no"
        return status

    def start(self):
        """Starts what is gone. A node that is not ready in time is started again."""
        for _ in range(4):
            if self.cluster("start") == 0:
                return
        self.fail(f"the log does not start: {(self.work / 'cluster.log').read_text().splitlines()[-1]}")

    def processes(self):
        """Returns the log's processes by their names, and those of the engines, each with its id."""
        found = {}
        for path in [*self.work.glob("*.id"), *self.work.glob("engines/*.id")]:
            found[path.stem] = int((path.read_text().split() or ["0"])[0])
        return {name: id for name, id in found.items() if id and pathlib.Path(f"/proc/{id}").exists()}

    def engines(self):
        names = self.work / "engines" / "names"
        return names.read_text().split() if names.exists() else []

    def look(self):
        """Notes the most memory that each of the log's processes took, and names those that ended by themselves."""
        there = self.processes()
        for name, id in there.items():
            try:
                status = pathlib.Path(f"/proc/{id}/status").read_text()
            except OSError:
                continue
            if (peak := re.search(r"VmHWM:\s+(\d+)", status)) and name not in self.engines():
                self.peaks[name] = max(self.peaks.get(name, 0), int(peak[1]) << 10)
        for path in self.work.glob("*.id"):
            if path.stem not in there:
                self.counts[f"{path.stem} ended by itself"] = self.counts.get(f"{path.stem} ended by itself", 0) + 1

    def pause(self, names, seconds):
        ids = [id for name, id in self.processes().items() if name in names]
        for id in ids:
            os.kill(id, signal.SIGSTOP)
        time.sleep(seconds)
        for id in ids:
            os.kill(id, signal.SIGCONT)

    def kill(self, name, away):
        id = self.processes().get(name)
        if id:
            os.kill(id, signal.SIGKILL)
        time.sleep(away)

    def fault(self):
        """Makes one fault, and starts again what it killed."""
        there, chance = self.processes(), self.chance
        engines = self.engines()
        own = [name for name in sorted(there) if re.match("node|signer|witness", name)]
        if engines and chance.random() < 0.5:
            name = chance.choice(sorted(engines))
        else:
            # (nodes and the signer more often than witnesses)
            name = chance.choice([each for each in own for _ in range(1 if each.startswith("witness") else 3)])
        if chance.random() < 0.6:
            away = chance.uniform(*chance.choice([SHORT, SHORT, LONG]))
            self.tell(f"{name} is killed", f"for {away:.0f} s" if name in own else "and started again")
            if name in own:
                self.kill(name, away)
            else:
                subprocess.run([ENGINES, "again", self.work / "engines", name], stdout=subprocess.DEVNULL)
        else:
            members = [each for each in engines if each.startswith("member-")]
            names = chance.sample(members, 2) if name in members and chance.random() < 0.5 else [name]
            seconds = chance.uniform(*chance.choice([SHORT, LONG]))
            self.tell(f"{' and '.join(names)} paused", f"for {seconds:.0f} s")
            self.pause(names, seconds)
        self.start()
        self.look()

    def tell(self, what, how):
        self.counts[what] = self.counts.get(what, 0) + 1
        say(f"{what}, {how}")

    def audit(self):
        """Starts `ctaudit probe` of the first node, or of nginx in front of all."""
        entry = self.work / "entry.json"
        entry.write_bytes(subprocess.run([CTSERVE, "list-entry", "--config", self.work / "node-0.conf", "--key", self.work / "log.pem", "--operator", "An operator", "--email", "log@example.org"],
                                         stdout=subprocess.PIPE, check=True).stdout)  # fmt: skip
        port = self.port + 29 if self.environment.get("FRONT") else self.port
        words = [ROOT / "cmd" / "out" / "ctaudit", "probe", f"http://127.0.0.1:{port}", "--list-entry", entry, "--issuer", self.work / "root.pem", "--issuer-key", self.work / "root.key",
                 "--wanted-roots", self.work / "root.pem", "--for", f"{self.options.minutes}m", "--poll-interval", "1s", "--submit-interval", "5s",
                 "--report", self.work / "report"]  # fmt: skip
        if not self.options.kills:
            words += ["--min-availability", "0", "--max-latency", ANSWERED_WITHIN]
        told = open(self.work / "audit.log", "ab")
        return subprocess.Popen(words, stdin=subprocess.DEVNULL, stdout=told, stderr=told)

    def break_until(self, audit):
        """Makes faults until the audit ends."""
        turn = 0
        while audit.poll() is None:
            if not self.options.kills:
                self.fault()
                time.sleep(self.chance.uniform(*BETWEEN))
                continue
            nodes = int(self.environment["NODES"])
            time.sleep(40)
            self.tell(f"node-{turn % nodes} is killed", "and started again")
            self.kill(f"node-{turn % nodes}", 20 if nodes > 1 else 0)
            self.start()
            self.look()
            turn += 1

    def judge(self, audit):
        self.start()
        if audit.returncode:
            self.fail(f"ctaudit probe: {' / '.join((self.work / 'audit.log').read_text().splitlines()[-5:])} ({self.work}/report)")
        if self.cluster("stop"):
            self.fail(f"what was published or answered: {' / '.join((self.work / 'cluster.log').read_text().splitlines()[-3:])}")
        for path in self.work.glob("*.log"):
            for found in PANICS.findall(path.read_bytes()):
                self.fail(f"{path.name}: {found.decode(errors='replace')}")
        for name, peak in sorted(self.peaks.items()):
            if peak > MEMORY:
                self.fail(f"{name} took {peak >> 20} MB")
        if sum(self.counts.values()) < self.options.minutes / 2:
            self.fail(f"there were {sum(self.counts.values())} faults in {self.options.minutes} minutes, so the run says little")
        for what, count in sorted(self.counts.items()):
            print(f"  {count:4} x {what}")
        print(f"  at most {max(self.peaks.values(), default=0) >> 20} MB in a process")
        print("\n".join((self.work / "cluster.log").read_text().splitlines()[-6:]))

    def run(self):
        self.start()
        if not self.faults:
            audit = self.audit()
            try:
                self.break_until(audit)
            finally:
                if audit.poll() is None:
                    audit.terminate()
                    audit.wait()
            self.judge(audit)
        else:
            self.cluster("stop")
        return self.faults


def main():
    said = argparse.ArgumentParser(description="Kills and pauses the processes of a log at random, and judges the log.")
    said.add_argument("--minutes", type=int, default=60)
    said.add_argument("--seed", type=int, default=random.randrange(1 << 31))
    said.add_argument("--folder", action="store_true", help="a log on a folder, without engines")
    said.add_argument("--kills", action="store_true", help="only kill a node each minute, and hold the audit's bounds on availability and latency")
    said.add_argument("--work", type=pathlib.Path, help="an empty folder that is kept")
    options = said.parse_args()
    work = (options.work or pathlib.Path(tempfile.mkdtemp(prefix="soak-"))).resolve()
    work.mkdir(exist_ok=True)
    work.chmod(0o755)
    say(f"seed {options.seed}, {options.minutes} minutes, in {work}")
    signal.signal(signal.SIGTERM, lambda *_: sys.exit(1))
    soak = Soak(work, options)
    try:
        faults = soak.run()
    except BaseException:
        soak.cluster("stop")
        raise
    if faults:
        sys.exit(f"soak.py: {len(faults)} things were wrong, in {work}: {faults[0]}")
    say("the log holds")
    if not options.work:
        shutil.rmtree(work)


if __name__ == "__main__":
    main()
