#!/usr/bin/env python3
"""Times ctserve beside other logs, by turns, on loopback: the same loader, the same chains (bench/peers.md).

    peers.py [--turns 2] [--seconds 12] [--clients 16,64,256,1024] [--settle 0] [--before NAME=OUT] [--plot PAGE] [FOLDER]
    peers.py fetch FOLDER                  has apt fetch CTFE and Trillian of Debian 13 and MariaDB of this machine's Debian, and builds them in FOLDER

It makes a log of ctserve and one of bench/ideal, which is the least that a log costs, and with FOLDER one of CTFE over Trillian and MariaDB. It has ctload submit to each in turn,
in each turn with so many clients for so many seconds. It prints the machine, and of each turn timestamps a second, the median and 99th percentile of the time to one, the processor time
of the log's processes an entry until a signed head has all of them, the bytes that they wrote to the disk, and how many processors others had meanwhile; then the ratios of ctserve to each
other log, which are medians of the turns' ratios; then what each log's files and processes take. On a machine that does other work, only the ratios and the processor time count. With
--settle it looks at the files once more after so many seconds, when temporary files are gone. With --before a log of another build of ctserve is among them by that name, which is in
OUT (bench/old.sh). With --plot it writes the medians to a page, docs/plots/peers.md say, and draws the plot beside it (bench/plot.py peers).

The kernel counts the bytes that a process has written (write_bytes in /proc/PID/io). It counts too many for a database with a file of some GB, of which it writes large pages. ctload has
made its submissions before it sends the first. `make service` builds ctserve and ctload. Nothing is installed: everything is put into FOLDER.
"""
import argparse
import os
import pathlib
import re
import signal
import statistics
import subprocess
import sys
import tempfile
import time

from served import HERE, Ideal, Log, disk_used, free_port, listens, machine, memory, ratio, run, size_of, stop, turn, until

SUITE, GO = "trixie", "golang-1.24-go"
WANTED = ["golang-github-google-trillian-dev", "golang-github-google-certificate-transparency-dev", GO]
MARIADB = ["mariadb-server-core", "mariadb-client-core", "mariadb-common", "mysql-common", "libmariadb3"]
COMMANDS = [f"github.com/google/{name}" for name in (
    "trillian/cmd/trillian_log_server", "trillian/cmd/trillian_log_signer", "trillian/cmd/createtree", "certificate-transparency-go/trillian/ctfe/ct_server")]
# What Debian has not, and a log over MariaDB doesn't call: packages that answer with an error.
STUBS = {
    "contrib.go.opencensus.io/exporter/stackdriver": """package stackdriver

import (
	"errors"

	"go.opencensus.io/stats/view"
	"go.opencensus.io/trace"
)

type Options struct{ ProjectID string }

type Exporter struct{}

func NewExporter(Options) (*Exporter, error) { return nil, errors.New("it isn't here") }

func (*Exporter) ExportView(*view.Data)      {}
func (*Exporter) ExportSpan(*trace.SpanData) {}
""",
    "github.com/tomasen/realip": """package realip

import "net/http"

func FromRequest(r *http.Request) string { return r.RemoteAddr }
""",
    "github.com/jackc/pgx/v5/pgconn": """package pgconn

import "errors"

type PgError struct{ Code string }

func (*PgError) Error() string { return "it isn't here" }

func ParseConfig(string) (any, error) { return nil, errors.New("it isn't here") }
""",
    "github.com/jackc/pgx/v5/stdlib": "package stdlib\n",
    "github.com/jackc/pgerrcode": 'package pgerrcode\n\nconst UniqueViolation = "23505"\n',
}
# The edits of the sources: a storage that Debian lacks a package for, and a chain of interceptors, which gRPC has itself now.
EDITS = {
    "trillian/cmd/trillian_log_server/main.go": [('\t_ "github.com/google/trillian/storage/cloudspanner"\n', "")],
    "trillian/cmd/trillian_log_signer/main.go": [('\t_ "github.com/google/trillian/storage/cloudspanner"\n', "")],
    "trillian/cmd/internal/serverutil/main.go": [
        ('\tgrpc_middleware "github.com/grpc-ecosystem/go-grpc-middleware"\n', ""),
        ("grpc.UnaryInterceptor(grpc_middleware.ChainUnaryServer(", "grpc.ChainUnaryInterceptor("),
        ("\t\t\tti.UnaryInterceptor,\n\t\t)),\n", "\t\t\tti.UnaryInterceptor,\n\t\t),\n"),
    ],
}
SETTINGS = """Dir::Etc::sourcelist "{0}/suite.sources";
Dir::Etc::sourceparts "-";
Dir::State::lists "{0}/lists";
Dir::State::status "{0}/status";
Dir::Cache::archives "{0}/archives";
Dir::Cache::pkgcache "{0}/pkgcache.bin";
Dir::Cache::srcpkgcache "{0}/srcpkgcache.bin";
"""

# How many submissions ctload makes before it begins, for each second: so many for each client, and at most so many.
MADE_EACH, MADE = 120, 4000


def unpack(packages, root):
    for package in sorted(packages.glob("*.deb")):
        run("dpkg-deb", "-x", package, root)


def fetch(folder):
    """Fetches by apt, and builds."""
    apt, packages = folder / "apt", folder / "packages"
    for made in (apt / "lists" / "partial", apt / "archives" / "partial", packages / SUITE, packages / "own", folder / "source"):
        made.mkdir(parents=True, exist_ok=True)
    (apt / "status").touch()
    mirrors = [line.split()[0] for line in run("apt-get", "indextargets", "--format", "$(REPO_URI) $(ORIGIN)", "Created-By: Packages").splitlines() if line.endswith(" Debian")]
    if not mirrors:
        stop("apt knows no mirror of Debian")
    (apt / "suite.sources").write_text(f"Types: deb deb-src\nURIs: {mirrors[0]}\nSuites: {SUITE}\nComponents: main\nSigned-By: /usr/share/keyrings/debian-archive-keyring.gpg\n")
    (apt / "settings").write_text(SETTINGS.format(apt))
    there = {**os.environ, "APT_CONFIG": str(apt / "settings"), "LC_ALL": "C.UTF-8"}
    run("apt-get", "update", env=there)
    planned = run("apt-get", "install", "--simulate", "--no-install-recommends", *WANTED, env=there)
    names = re.findall(r"^Inst (golang-\S+)", planned, re.M)
    run("apt-get", "download", *names, env=there, cwd=packages / SUITE)
    run("apt-get", "source", "--download-only", "--tar-only", "trillian", env=there, cwd=folder / "source")
    # (with the libraries that this machine lacks)
    planned = run("apt-get", "install", "--simulate", "--no-install-recommends", *MARIADB)
    run("apt-get", "download", *{*MARIADB, *re.findall(r"^Inst (\S+)", planned, re.M)}, cwd=packages / "own")
    unpack(packages / SUITE, folder / "go")
    unpack(packages / "own", folder / "mariadb")
    (tarball,) = (folder / "source").glob("trillian_*.orig.tar.*")
    run("tar", "-xf", tarball, "-C", folder / "source", "--strip-components=1", "--wildcards", "*/storage/mysql/schema/storage.sql")
    sources = folder / "go" / "usr" / "share" / "gocode" / "src"
    for name, text in STUBS.items():
        (sources / name).mkdir(parents=True, exist_ok=True)
        (sources / name / "stub.go").write_text(text)
    for name, edits in EDITS.items():
        path = sources / "github.com" / "google" / name
        text = path.read_text()
        for old, new in edits:
            if text.count(old) != 1:
                stop(f"{name} isn't as it was")
            text = text.replace(old, new)
        path.write_text(text)
    kit = folder / "go" / "usr" / "lib" / GO.removesuffix("-go").replace("golang", "go")
    build = {**os.environ, "GOROOT": str(kit), "GOPATH": str(sources.parent), "GO111MODULE": "off", "GOPROXY": "off", "GOTOOLCHAIN": "local", "CGO_ENABLED": "0",
             "GOCACHE": str(folder / "cache"), "GOFLAGS": "-trimpath"}  # fmt: skip
    (folder / "bin").mkdir(exist_ok=True)
    run(kit / "bin" / "go", "build", "-o", folder / "bin", *COMMANDS, env=build)
    print(run(kit / "bin" / "go", "version", env=build).strip() + "".join(f", {path.name}" for name in WANTED[:2] for path in (packages / SUITE).glob(f"{name}_*")))


class Ctfe:
    """A log of CTFE over Trillian and MariaDB, in a folder, out of what was fetched; with the settings that these programs have by themselves."""

    def __init__(self, folder, fetched):
        self.folder, self.processes = folder, []
        folder.mkdir()
        maria, self.bin = fetched / "mariadb", fetched / "bin"
        libraries = {**os.environ, "LD_LIBRARY_PATH": ":".join(map(str, sorted((maria / "usr" / "lib").glob("*-linux-gnu"))))}
        self.data, socket = folder / "data", folder / "socket"
        run("sh", maria / "usr/bin/mariadb-install-db", "--no-defaults", "--user=root", f"--basedir={maria}/usr", f"--datadir={self.data}", "--auth-root-authentication-method=normal",
            "--skip-test-db", env=libraries)  # fmt: skip
        database, rpc, http, self.port = (free_port() for _ in range(4))
        self.start("mariadbd", maria / "usr/sbin/mariadbd", "--no-defaults", "--user=root", f"--basedir={maria}/usr", f"--datadir={self.data}", f"--socket={socket}",
                   f"--port={database}", "--bind-address=127.0.0.1", "--max-connections=2000", env=libraries)  # fmt: skip
        until(lambda: listens(database), "mariadbd doesn't listen", *self.newest())
        schema = "create database trillian; create user 'trillian'@'127.0.0.1' identified by 'trillian'; grant all on trillian.* to 'trillian'@'127.0.0.1'; use trillian;\n"
        schema += (fetched / "source" / "storage" / "mysql" / "schema" / "storage.sql").read_text()
        run(maria / "usr/bin/mariadb", "--no-defaults", f"--socket={socket}", "--user=root", input=schema, env=libraries)
        uri = f"--mysql_uri=trillian:trillian@tcp(127.0.0.1:{database})/trillian"
        self.start("trillian_log_server", self.bin / "trillian_log_server", "--logtostderr", uri, f"--rpc_endpoint=127.0.0.1:{rpc}", "--http_endpoint=")
        until(lambda: listens(rpc), "trillian_log_server doesn't listen", *self.newest())
        self.start("trillian_log_signer", self.bin / "trillian_log_signer", "--logtostderr", uri, "--force_master", f"--rpc_endpoint=127.0.0.1:{free_port()}", "--http_endpoint=")
        tree = run(self.bin / "createtree", f"--admin_server=127.0.0.1:{rpc}").strip().split()[-1]
        self.roots, key = folder / "roots.pem", folder / "log.key"
        run("openssl", "genpkey", "-algorithm", "EC", "-pkeyopt", "ec_paramgen_curve:P-256", "-out", key)
        run("openssl", "req", "-x509", "-key", key, "-subj", "/CN=a root", "-days", 30, "-out", self.roots)
        der = subprocess.run(["openssl", "pkcs8", "-topk8", "-nocrypt", "-in", key, "-outform", "DER"], check=True, capture_output=True).stdout
        private = "".join(f"\\{byte:03o}" for byte in der)
        (folder / "logs.cfg").write_text(f'config {{ log_id: {tree} prefix: "log" roots_pem_file: "{self.roots}" max_merge_delay_sec: 86400 expected_merge_delay_sec: 120\n'
                                         f'private_key: {{ [type.googleapis.com/keyspb.PrivateKey] {{ der: "{private}" }} }} }}\n')  # fmt: skip
        self.url, self.id = f"http://127.0.0.1:{self.port}/log", folder / "ct_server.id"
        words = f"--logtostderr --log_config={folder}/logs.cfg --log_rpc_server=127.0.0.1:{rpc} --http_endpoint=127.0.0.1:{self.port} --metrics_endpoint=127.0.0.1:{http}"
        (folder / "restart").write_text(f'cd {folder} && [ ! -e ct_server.id ] || {{ kill $(cat ct_server.id); while kill -0 $(cat ct_server.id) 2>/dev/null; do sleep 0.05; done; }}\n'
                                        f"nohup {self.bin}/ct_server {words} >>ct_server.log 2>&1 </dev/null &\necho $! >ct_server.id\n")  # fmt: skip
        run("sh", folder / "restart")
        until(lambda: listens(self.port), "ct_server doesn't listen", None, folder / "ct_server.log")

    def start(self, name, *words, **more):
        log = self.folder / f"{name}.log"
        with log.open("w") as to:
            self.processes.append((subprocess.Popen([str(word) for word in words], stdout=to, stderr=subprocess.STDOUT, **more), log))

    def newest(self):
        return self.processes[-1]

    def reload(self):
        """The command that has it read its roots again: ct_server does so at a start."""
        return f"sh {self.folder}/restart"

    def ids(self):
        return [process.pid for process, _ in self.processes] + [int(self.id.read_text())]

    def stored(self):
        return self.data

    def end(self):
        if self.id.exists():
            os.kill(int(self.id.read_text()), signal.SIGTERM)
        for process, _ in self.processes[::-1]:
            process.terminate()
            process.wait()


FIGURES = (("rate", "Timestamps a second", 0), ("median", "Median, ms", 0), ("high", "99th percentile, ms", 0), ("processor", "Processor, ms an entry", 2),
           ("written", "Written, bytes an entry", 0), ("others", "Processors that others had", 1))  # fmt: skip
PLOTTED = {"rate": 0, "processor": 3}
PAGE = """# Timestamps and processor time beside others

This table has the medians that `bench/peers.py` measured: {told}. [{plot}]({plot}) is drawn from it ([bench/peers.md](../../bench/peers.md)). The ratio is the median of the
turns' ratios of `ctserve` to the log. The clients submit at the same time, each a new certificate as soon as its last one is answered.

| Clients | Log | Timestamps a second | Ratio | Processor time, ms an entry | Ratio |
|---|---|---|---|---|---|
"""


def taken(logs, count, words):
    """The figures of all logs' turns with so many clients, which it prints."""
    figures = {name: [] for name in logs}
    for number in range(words.turns):
        for name, log in list(logs.items())[:: 1 if number % 2 == 0 else -1]:
            figures[name].append(turn(log, count, words.seconds, min(MADE, MADE_EACH * count) * words.seconds))
    for name, turns in figures.items():
        cells = (", ".join(f"{getattr(one, of):,.{digits}f}" for one in turns) for of, _, digits in FIGURES)
        print(f"| {count:,} | {name}{' (some were refused, and sent again)' if any(one.again for one in turns) else ''} | {' | '.join(cells)} |", flush=True)
    return figures


def over(turns, name, of):
    """The ratio of a figure of ctserve to that of another log."""
    return ratio(*([getattr(one, of) for one in turns[log]] for log in ("ctserve", name)))


def page(told, turns, path):
    """Writes the medians to a page, and draws them."""
    plot = path.with_suffix(".svg")
    text = PAGE.format(told=told, plot=plot.name)
    for count, figures in turns.items():
        for name in figures:
            cells = (f"{statistics.median(getattr(one, of) for one in figures[name]):,.{digits}f} | {over(figures, name, of):.2f}" for of, digits in PLOTTED.items())
            text += f"| {count:,} | {name} | {' | '.join(cells)} |\n"
    path.write_text(text)
    run(HERE / "plot.py", "peers", path, plot)


def measure(folder, words):
    with tempfile.TemporaryDirectory(dir=os.environ.get("TMPDIR")) as work:
        work, logs, turns = pathlib.Path(work), {}, {}
        try:
            logs["ctserve"] = Log(work / "one")
            if words.before:
                name, _, out = words.before.rpartition("=")
                logs[name or "ctserve before"] = Log(work / "three", out=pathlib.Path(out).resolve())
            logs["ideal"] = Ideal(work / "ideal")
            if folder:
                logs["CTFE over Trillian"] = Ctfe(work / "ctfe", folder)
            began = {name: (size_of(log), disk_used(log.stored())) for name, log in logs.items()}
            told_of = f"{words.turns} turns of {words.seconds} s on {machine()}"
            print(f"{told_of}; a load of {os.getloadavg()[0]:.1f} before\n", flush=True)
            heads = ["Clients", "Log", *(head for _, head, _ in FIGURES)]
            print(f"| {' | '.join(heads)} |\n" + "|---" * len(heads) + "|")
            for log in logs.values():
                # The first turn opens connections, and fills caches.
                turn(log, 16, 1, 1000)
            for count in map(int, words.clients.split(",")):
                turns[count] = taken(logs, count, words)
            print(f"\n| Clients | `ctserve` over | {' | '.join(head.partition(',')[0] for _, head, _ in FIGURES[:-1])} |\n" + "|---" * (1 + len(FIGURES)) + "|")
            for count, figures in turns.items():
                for name in list(logs)[1:]:
                    print(f"| {count:,} | {name} | {' | '.join(f'{over(figures, name, of):.2f}' for of, _, _ in FIGURES[:-1])} |")
            told(logs, began, "at the end")
            if words.settle:
                time.sleep(words.settle)
                told(logs, began, f"{words.settle} s later")
            if words.plot:
                page(told_of, turns, words.plot)
        finally:
            for log in logs.values():
                log.end()


def told(logs, began, when):
    print(f"\n| Log, {when} | Entries | Disk, bytes an entry | Memory, MB |\n|---|---|---|---|")
    for name, log in logs.items():
        (size, used), now = began[name], size_of(log)
        print(f"| {name} | {now - size:,} | {(disk_used(log.stored()) - used) / max(now - size, 1):,.0f} | {memory(*log.ids()) / 1e6:.0f} |", flush=True)


def main():
    parser = argparse.ArgumentParser(description=__doc__, formatter_class=argparse.RawDescriptionHelpFormatter)
    parser.add_argument("words", nargs="*", metavar="FOLDER")
    parser.add_argument("--turns", type=int, default=2)
    parser.add_argument("--seconds", type=int, default=12)
    parser.add_argument("--clients", default="16,64,256,1024")
    parser.add_argument("--settle", type=int, default=0)
    parser.add_argument("--before")
    parser.add_argument("--plot", type=pathlib.Path)
    words = parser.parse_args()
    folder = pathlib.Path(words.words[-1]).resolve() if words.words else None
    if len(words.words) == 2 and words.words[0] == "fetch":
        fetch(folder)
    elif not folder or len(words.words) == 1 and (folder / "bin" / "ct_server").exists():
        measure(folder, words)
    else:
        sys.exit(__doc__)


if __name__ == "__main__":
    main()
