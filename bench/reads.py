#!/usr/bin/env python3
"""Measures readers of a log of ctserve beside nginx that serves the same files, and beside CTFE, by turns, on loopback.

    reads.py [--seconds 5] [--turns 3] [--connections 48] [--entries 10000] [--peers FOLDER]

ctload fills the log with that many entries. Then wrk reads full hash tiles, full data tiles and the checkpoint in four ways: as files, by an nginx that serves
the folder of the log's objects (HTTP and TLS); from ctserve itself (HTTP); and by nginx with the example of its configuration (TLS, its cache answers for
tiles, and ctserve for a checkpoint). wrk also has ctserve answer get-entries (32 entries each) and get-proof-by-hash. Each request is for another of up to 256 places.
With --peers, CTFE over Trillian answers the same two calls; FOLDER is one that `peers.py fetch FOLDER` made.

Each way of a kind takes one turn after the other, in the order A B B A. The output has the medians of the turns, the processor time of the serving processes
for an answer (without wrk's), and the median of the turns' ratios to the way that the kind is compared with. The script needs wrk, nginx and openssl, and
`make service` before it.
"""
import argparse
import base64
import hashlib
import json
import os
import pathlib
import random
import re
import shutil
import statistics
import subprocess
import tempfile
import time
import typing
import urllib.parse
import urllib.request

from served import HERE, OUT, Log, busy_time, free_port, listens, load, processor_time, run, size_of, stop, until

NAME = "bench.example"
# (the workers read what the log wrote, which no other user may)
MAIN = """daemon off; user root; pid {folder}/pid; error_log {folder}/error.log; worker_processes auto; events {{ worker_connections 4096; }}
http {{ access_log off; client_body_temp_path {folder}/body; proxy_temp_path {folder}/proxy; fastcgi_temp_path {folder}/fastcgi; uwsgi_temp_path {folder}/uwsgi;
scgi_temp_path {folder}/scgi;
{site}}}
"""
# A site that serves a folder, as it is.
FILES = """server {{ listen 127.0.0.1:{port}; listen 127.0.0.1:{secure} ssl; ssl_certificate {tls}.pem; ssl_certificate_key {tls}.key; root {root}; sendfile on; tcp_nopush on;
keepalive_requests 1000000; }}
"""
# A program for wrk that asks for one path after the other.
PATHS = "local paths, at = {{ {paths} }}, 0\nrequest = function() at = at % #paths + 1; return wrk.format('GET', paths[at]) end\n"
PLACES, ENTRIES = 256, 32


class Way(typing.NamedTuple):
    """A way in which objects or answers are read: an address, and the processes whose time counts."""

    name: str
    url: str
    ids: list


class Nginx:
    """An nginx in a folder, with a site. The site's text comes from a function of the folder and of the name of its TLS files."""

    def __init__(self, folder, site, *ports):
        folder.mkdir(mode=0o711)
        tls = folder / NAME
        run("openssl", "req", "-x509", "-newkey", "ec", "-pkeyopt", "ec_paramgen_curve:P-256", "-nodes", "-keyout", f"{tls}.key", "-subj", f"/CN={NAME}", "-days", 30, "-out", f"{tls}.pem")
        (folder / "nginx.conf").write_text(MAIN.format(folder=folder, site=site(folder, tls)))
        run("nginx", "-t", "-p", folder, "-c", folder / "nginx.conf")
        self.process = subprocess.Popen(["nginx", "-p", folder, "-c", folder / "nginx.conf"])
        until(lambda: all(map(listens, ports)), "nginx doesn't answer", self.process, folder / "error.log")

    def end(self):
        self.process.terminate()
        self.process.wait()


def example(log, port):
    """The example of nginx's configuration (release/nginx/ctserve.nginx.conf), in front of a log."""

    def site(folder, tls):
        text = (HERE.parent / "release" / "nginx" / "ctserve.nginx.conf").read_text()
        changes = {"log.example.org": NAME, "/etc/ssl": str(folder), "listen 443": f"listen 127.0.0.1:{port}", "127.0.0.1:8618": log.url.removeprefix("http://"),
                   "/var/lib/nginx/ctserve": str(folder / "cache"), "limit_conn ctserve_clients 64": "limit_conn ctserve_clients 5000"}  # fmt: skip
        for old, new in changes.items():
            if old not in text:
                stop(f"release/nginx/ctserve.nginx.conf has no {old}")
            text = text.replace(old, new)
        return text

    return site


def read(way, paths, folder, words):
    """How many answers of 200 wrk had in a second, the median and the 99th percentile of the time to one, and the processor time of one, in seconds."""
    script = folder / "paths.lua"
    script.write_text(PATHS.format(paths=", ".join(f"'{urllib.parse.urlsplit(way.url).path}/{path}'" for path in paths)))
    before = sum(map(processor_time, way.ids))
    said = run("wrk", "-t", 2, "-c", words.connections, "-d", f"{words.seconds}s", "--latency", "-H", f"Host: {NAME}", "-s", script, way.url)
    took = sum(map(processor_time, way.ids)) - before
    if "Non-2xx" in said or "Socket errors" in said:
        stop(f"wrk says of {way.name}: {said}")
    times = [float(number) * {"us": 1e-6, "ms": 1e-3, "s": 1}[unit] for number, unit in re.findall(r"(?:50|99)%\s+([0-9.]+)(us|ms|s)\b", said)]
    if not times or " 0 requests" in said:
        stop(f"wrk had no answer from {way.name}: {said}")
    count, seconds, unit = re.search(r"(\d+) requests in ([0-9.]+)(s|m)", said).groups()
    return int(count) / float(seconds) / (60 if unit == "m" else 1), *times, took / int(count)


def asked(url):
    with urllib.request.urlopen(url, timeout=60) as answer:
        return json.load(answer)


def calls(log, size):
    """Paths of get-entries and of get-proof-by-hash, at random places of a log that has so many entries."""
    places = [random.randrange(size - ENTRIES) for _ in range(PLACES)]
    proofs = []
    for at in places:
        leaf = base64.b64decode(asked(f"{log.url}/ct/v1/get-entries?start={at}&end={at}")["entries"][0]["leaf_input"])
        hashed = base64.b64encode(hashlib.sha256(b"\0" + leaf).digest()).decode()
        proofs.append(f"ct/v1/get-proof-by-hash?{urllib.parse.urlencode({'hash': hashed, 'tree_size': size})}")
    # (within one data tile, as a reader asks who goes from tile to tile)
    firsts = [at // 256 * 256 + min(at % 256, 256 - ENTRIES) for at in places]
    return {f"get-entries of {ENTRIES}": [f"ct/v1/get-entries?start={at}&end={at + ENTRIES - 1}" for at in firsts if at + ENTRIES <= size], "get-proof-by-hash": proofs}


def filled(log, entries):
    """Fills a log, and returns its size."""
    load(log, 256, "--most", entries)
    until(lambda: size_of(log) >= entries, "the log has no head of its entries")
    return size_of(log)


def tiles(size):
    """Paths of full tiles, and of the checkpoint."""
    full = [at for at in range(size // 256)][:PLACES]
    return {"hash tile": [f"tile/0/{at:03}" for at in full], "data tile": [f"tile/data/{at:03}" for at in full], "checkpoint": ["checkpoint"]}


def kinds_of(log, folder, words, ended):
    """For each kind of reading its paths by way, the first way being the one that it is compared with. Each nginx and log is added to those to end."""
    size, found = filled(log, words.entries), {}
    port, secure, behind = free_port(), free_port(), free_port()
    files = Nginx(folder / "files", lambda _, tls: FILES.format(port=port, secure=secure, tls=tls, root=log.stored() / "objects"), port, secure)
    ended.append(files)
    cache = Nginx(folder / "nginx", example(log, behind), behind)
    ended.append(cache)
    own = Way("ctserve", log.url, [log.process.pid])
    plain, tls = (Way(f"files by nginx, {how}", url, [files.process.pid]) for how, url in (("HTTP", f"http://127.0.0.1:{port}"), ("TLS", f"https://127.0.0.1:{secure}")))
    before = Way("nginx before ctserve, TLS", f"https://127.0.0.1:{behind}", [log.process.pid, cache.process.pid])
    for kind, paths in tiles(size).items():
        found[f"{kind}, HTTP"] = [(plain, paths), (own, paths)]
        found[f"{kind}, TLS"] = [(tls, paths), (before, paths)]
    peers = []
    if words.peers:
        from peers import Ctfe

        ctfe = Ctfe(folder / "ctfe", words.peers.resolve())
        ended.append(ctfe)
        peers = [(Way("CTFE over Trillian", ctfe.url, ctfe.ids()), calls(ctfe, filled(ctfe, words.entries)))]
    own_calls = calls(log, size)
    for kind, paths in own_calls.items():
        found[kind] = [(way, of[kind]) for way, of in peers] + [(own, paths)]
    return found


def report(figures):
    print("| What is read | How | A second | Ratio | Median, ms | 99th percentile, ms | Processor, µs an answer | Ratio |\n|---|---|---|---|---|---|---|---|")
    for kind, ways in figures.items():
        first = next(iter(ways.values()))
        for name, turns in ways.items():
            rates, middle, high, took = zip(*turns)
            faster, dearer = (statistics.median(one[at] / other[at] for one, other in zip(turns, first)) for at in (0, 3))
            print(f"| {kind} | {name} | {statistics.median(rates):,.0f} ({min(rates):,.0f} to {max(rates):,.0f}) | {faster:.2f} | {1e3 * statistics.median(middle):.2f} | "
                  f"{1e3 * statistics.median(high):.2f} | {1e6 * statistics.median(took):.0f} | {dearer:.2f} |")  # fmt: skip


def main():
    parser = argparse.ArgumentParser(description=__doc__, formatter_class=argparse.RawDescriptionHelpFormatter)
    for name, least in (("seconds", 5), ("turns", 3), ("connections", 48), ("entries", 10000)):
        parser.add_argument(f"--{name}", type=int, default=least)
    parser.add_argument("--peers", type=pathlib.Path)
    words = parser.parse_args()
    for tool in ("wrk", "nginx", "openssl", OUT / "ctserve"):
        if not shutil.which(tool):
            stop(f"{tool} isn't here")
    figures, others, ended = {}, [], []
    with tempfile.TemporaryDirectory(dir=os.environ.get("TMPDIR")) as work:
        folder = pathlib.Path(work)
        folder.chmod(0o711)
        log = Log(folder / "log", trusted_proxies="127.0.0.1", submitters="127.0.0.1/32=5000", public_store="true", read_rate_per_address=0, max_proofs=4 * words.connections)
        ended.append(log)
        try:
            for kind, ways in kinds_of(log, folder, words, ended).items():
                for number in range(words.turns):
                    for way, paths in ways[:: 1 if number % 2 == 0 else -1]:
                        began, busy = time.monotonic(), busy_time()
                        figures.setdefault(kind, {one.name: [] for one, _ in ways})[way.name].append(read(way, paths, folder, words))
                        others.append((busy_time() - busy) / (time.monotonic() - began))
        finally:
            for one in ended[::-1]:
                one.end()
    print(f"{words.turns} turns of {words.seconds} s, {words.connections} connections, {os.cpu_count()} processors, of which {min(others):.1f} to {max(others):.1f} were at work in all.\n")
    report(figures)


if __name__ == "__main__":
    main()
