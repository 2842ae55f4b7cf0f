#!/usr/bin/env python3
"""Times ctwatch beside certspotter and beside plain reading, by turns, over a log of ctserve on loopback.

    monitor.py [--entries 20000] [--turns 3]

ctload fills the log with that many certificates. Then each reader starts with an empty folder and reads the log from its first entry to its head: tests/clients/tlog by its tiles, which checks
them against the checkpoint by golang.org/x/mod/sumdb/tlog and looks at no certificate (plain reading); ctwatch by its tiles, and by get-entries; and certspotter,
where it is installed, by get-entries. The monitors watch for a name that no certificate has. certspotter does not end by itself: its time ends when its folder
says that it verified the head.

The output has the entries a second, the processor time of the reader for an entry, and the ratios to plain reading, each a median of the turns. `make service` builds the programs.
"""
import argparse
import base64
import hashlib
import json
import os
import pathlib
import shutil
import statistics
import subprocess
import tempfile
import time

from served import ORIGIN, OUT, PATIENCE, TESTS, Log, busy_time, load, processor_time, run, size_of, stop

WATCHED = "nobody.example"


def log_list(log):
    """A log list (version 3) with one log, as certspotter reads it."""
    key = "".join(line for line in (log.folder / "log.pem").read_text().split("\n") if "-" not in line)
    one = {"key": key, "log_id": base64.b64encode(hashlib.sha256(base64.b64decode(key)).digest()).decode(), "description": "a log", "mmd": 86400,
           "url": f"{log.url}/", "state": {"usable": {"timestamp": "2026-01-01T00:00:00Z"}}}  # fmt: skip
    operators = [{"name": "an operator", "email": [], "logs": [one]}]
    return json.dumps({"version": "1.0.0", "log_list_timestamp": "2026-01-01T00:00:00Z", "operators": operators})


def ended(command, said):
    """The seconds and the processor time that a command took, which has to end well."""
    began, used = time.monotonic(), os.times()
    with said.open("w") as to:
        status = subprocess.run([str(word) for word in command], stdout=to, stderr=subprocess.STDOUT).returncode
    now = os.times()
    if status:
        stop(f"{command[0]} ended with status {status}: {said.read_text()[-1000:]}")
    return time.monotonic() - began, now.children_user + now.children_system - used.children_user - used.children_system


def by_tlog(log, folder, size):
    took = ended([log.folder / "tlog", "-origin", ORIGIN, "-key", log.folder / "log.pem", "-once", log.url], folder / "said")
    if f"{size} entries were read" not in (folder / "said").read_text():
        stop(f"tlog read another tree: {(folder / 'said').read_text()}")
    return took


def by_ctwatch(kind):
    def read(log, folder, size):
        named = f"{kind}{log.url} {log.folder / 'log.pem'}" + (f" {ORIGIN}" if kind else "")
        took = ended([OUT / "ctwatch", "run", "--once", "--from-start", "--listen=", "--unread", "none", "--folder", folder / "store", "--name", WATCHED,
                      "--accepted-folder", folder / "accepted", "--log", named], folder / "said")  # fmt: skip
        if kind and [path.read_text().split("\n")[1] for path in (folder / "accepted").iterdir()] != [str(size)]:
            stop("ctwatch accepted another head")
        return took

    return read


def by_certspotter(log, folder, size):
    (folder / "logs.json").write_text(log_list(log))
    (folder / "watched").write_text(f".{WATCHED}\n")
    began = time.monotonic()
    with (folder / "said").open("w") as to:
        reader = subprocess.Popen(["certspotter", "-verbose", "-stdout", "-no_save", "-logs", folder / "logs.json", "-state_dir", folder / "state", "-watchlist", folder / "watched"],
                                  stdout=to, stderr=subprocess.STDOUT)  # fmt: skip
    verified = ["python3", TESTS / "clients" / "verified.py", folder / "state", f"{log.url}/", str(size)]
    try:
        while subprocess.run(verified, capture_output=True).returncode:
            if reader.poll() is not None or time.monotonic() > began + PATIENCE:
                stop(f"certspotter did not read the log: {(folder / 'said').read_text()[-1000:]}")
            time.sleep(0.05)
        return time.monotonic() - began, processor_time(reader.pid)
    finally:
        reader.kill()
        reader.wait()


def main():
    parser = argparse.ArgumentParser(description=__doc__, formatter_class=argparse.RawDescriptionHelpFormatter)
    parser.add_argument("--entries", type=int, default=20000)
    parser.add_argument("--turns", type=int, default=3)
    words = parser.parse_args()
    readers = {"plain reading (tlog), by tiles": by_tlog, "ctwatch, by tiles": by_ctwatch("tiled+"), "ctwatch, by get-entries": by_ctwatch("")}
    if shutil.which("certspotter"):
        readers["certspotter, by get-entries"] = by_certspotter
    figures, others = {name: [] for name in readers}, []
    with tempfile.TemporaryDirectory(dir=os.environ.get("TMPDIR")) as work:
        work = pathlib.Path(work)
        log = Log(work / "log", submitters="127.0.0.1/32=5000", read_rate_per_address=0, refresh_interval="1h", max_merge_delay="24h")
        try:
            run(TESTS.parent / "deps" / "go", "-C", TESTS.parent, "build", "-o", log.folder / "tlog", "./tests/clients/tlog")
            load(log, 256, "--most", words.entries)
            size = size_of(log)
            for number in range(words.turns):
                for name, read in list(readers.items())[:: 1 if number % 2 == 0 else -1]:
                    folder = work / "reader"
                    folder.mkdir()
                    began, busy, own = time.monotonic(), busy_time(), processor_time(log.process.pid)
                    seconds, took = read(log, folder, size)
                    figures[name].append((size / seconds, took / size))
                    others.append((busy_time() - busy - took - processor_time(log.process.pid) + own) / (time.monotonic() - began))
                    shutil.rmtree(folder)
        finally:
            log.end()
    version = run("certspotter", "-version").strip().rstrip("?") if shutil.which("certspotter") else "no certspotter"
    print(f"{size:,} entries, {words.turns} turns, {os.cpu_count()} processors, {version}; others used {max(min(others), 0):.1f} to {max(others):.1f} processors\n")
    print("| Reader | Entries a second | Ratio | Processor, µs an entry | Ratio |\n|---|---|---|---|---|")
    first = next(iter(figures.values()))
    for name, turns in figures.items():
        rate, took = (statistics.median(column) for column in zip(*turns))
        faster, dearer = (statistics.median(one[at] / other[at] for one, other in zip(turns, first)) for at in (0, 1))
        print(f"| {name} | {rate:,.0f} | {faster:.2f} | {1e6 * took:.0f} | {dearer:.2f} |")


if __name__ == "__main__":
    main()
