"""A log of ctserve out of a folder, on loopback, for what times it from outside; and what processes took of the processors."""
import json
import os
import pathlib
import re
import signal
import socket
import statistics
import subprocess
import sys
import time
import typing
import urllib.request

HERE = pathlib.Path(__file__).resolve().parent
TESTS = HERE.parent / "tests"
OUT = HERE.parent / "cmd" / "out"
ORIGIN = "bench.example/log"
TICK = os.sysconf("SC_CLK_TCK")
SUMMARY = re.compile(r"^ctserve_(store|step)_seconds_(sum|count)\{(.*)\} (\S+)$", re.M)
# The programs that ctserve asked before the proved code was linked into it (bench/old.sh), by the names of their settings.
PROGRAMS = {"step": "cttile", "decider": "ctnode", "guard": "ctguard", "reader": "ctproof"}
# How long a process may take to serve, in seconds.
PATIENCE = 120


def stop(why):
    sys.exit(f"{pathlib.Path(sys.argv[0]).name}: {why}")


def machine():
    """What the machine is."""
    text = pathlib.Path("/proc/cpuinfo").read_text()
    model = next((line.partition(": ")[2] for line in text.splitlines() if line.startswith("model name")), "an unknown processor")
    sha = "with" if " sha_ni" in text else "without"
    folder = os.environ.get("TMPDIR", "/tmp")
    return f"{os.cpu_count()} processors, {model}, {sha} SHA instructions; {run('stat', '-f', '-c', '%T', folder).strip()} at {folder}"


def ratio(own, others):
    """The median of the turns' ratios."""
    return statistics.median(one / max(other, 1e-9) for one, other in zip(own, others))


def free_port():
    with socket.socket() as free:
        free.bind(("127.0.0.1", 0))
        return free.getsockname()[1]


def run(*words, **more):
    """The output of a command that has to end well."""
    ran = subprocess.run([str(word) for word in words], capture_output=True, text=True, **more)
    if ran.returncode:
        stop(f"{words[0]} ended with status {ran.returncode}: {ran.stdout[-1000:]}{ran.stderr[-1000:]}")
    return ran.stdout


def until(is_so, what, process=None, log=None):
    """Waits until a condition holds. The arguments name the condition, the process, and the file in which that process says why it ended."""
    ends = time.monotonic() + PATIENCE
    while not is_so():
        if (process and process.poll() is not None) or time.monotonic() > ends:
            stop(f"{what}: {log.read_text()[-2000:] if log else ''}")
        time.sleep(0.05)


def listens(port):
    with socket.socket() as asked:
        return asked.connect_ex(("127.0.0.1", port)) == 0


def processes():
    """The parent of each process, and the processor time of the process and of its children that ended, in seconds."""
    found = {}
    for stat in pathlib.Path("/proc").glob("[0-9]*/stat"):
        try:
            fields = stat.read_text().rpartition(")")[2].split()
        except OSError:
            continue
        found[int(stat.parent.name)] = int(fields[1]), sum(map(int, fields[11:15])) / TICK
    return found


def below(*roots):
    """These processes and those below them."""
    found, of, grown = processes(), set(roots), True
    while grown:
        grown = {process for process, (parent, _) in found.items() if parent in of} - of
        of |= grown
    return {process: found[process][1] for process in of if process in found}


def processor_time(*roots):
    """The processor time, in seconds, of these processes and those below them."""
    return sum(below(*roots).values())


def counted(file, pattern, *roots):
    """The sum of a number that a file in /proc has of each of these processes and those below them."""
    total = 0
    for process in below(*roots):
        try:
            total += int(re.search(pattern, pathlib.Path(f"/proc/{process}/{file}").read_text())[1])
        except (OSError, TypeError):
            continue
    return total


def memory(*roots):
    """The memory, in bytes, that these processes and those below them hold."""
    return 1024 * counted("status", r"VmRSS:\s+(\d+)", *roots)


def written(*roots):
    """The bytes that these processes and those below them had written to a disk. Of a file that is larger than the memory's large pages the kernel counts whole pages."""
    return counted("io", r"\bwrite_bytes: (\d+)", *roots)


def busy_time():
    """The processor time, in seconds, that the machine spent on anything."""
    fields = list(map(int, pathlib.Path("/proc/stat").read_text().split("\n")[0].split()[1:9]))
    return (sum(fields) - fields[3] - fields[4]) / TICK


def disk_used(folder):
    """The bytes of disk that a folder's files take."""
    return int(run("du", "-s", "--block-size=1", folder).split()[0])


def words_of(out):
    """The settings whose names differ among builds of ctserve."""
    if (out / PROGRAMS["step"]).exists():
        return {"most-connections-by-address": 5000, **{setting: out / name for setting, name in PROGRAMS.items()}}
    return {"max-connections-per-address": 5000}


def keys(folder):
    """Makes a folder with a log's key and with a root for it to accept."""
    folder.mkdir()
    for name in ("log", "root"):
        run("openssl", "ecparam", "-name", "prime256v1", "-genkey", "-noout", "-out", folder / f"{name}.key")
        os.chmod(folder / f"{name}.key", 0o600)
    (folder / "log.pem").write_text(run("openssl", "ec", "-in", folder / "log.key", "-pubout"))
    run("openssl", "req", "-x509", "-key", folder / "root.key", "-subj", "/CN=a root", "-days", 30, "-out", folder / "roots.pem")


class Served:
    """A log that a program serves out of a folder: `process` and `folder`."""

    def reload(self):
        """The command that has it read its roots again."""
        return f"kill -HUP {self.process.pid}"

    def ids(self):
        return [self.process.pid]

    def stored(self):
        return self.folder / "log"

    def end(self):
        self.process.send_signal(signal.SIGTERM)
        self.process.wait()


class Log(Served):
    """A log of ctserve in a folder, which is made where it isn't there; out has the build of ctserve. A log of several nodes has a Log of each, with a name and a create."""

    def __init__(self, folder, out=OUT, name="", create=None, **settings):
        self.out, self.folder, self.port, self.operator = out, folder, free_port(), free_port()
        self.roots, new = folder / "roots.pem", not folder.exists()
        if new:
            keys(folder)
        words = {"origin": ORIGIN, "listen": f"127.0.0.1:{self.port}", "operator-listen": f"127.0.0.1:{self.operator}", "signing-key": folder / "log.key",
                 "roots": self.roots, "folder": folder / f"log{name}", **words_of(out)}  # fmt: skip
        names = {"lock": "register", "index": "places"} if (out / PROGRAMS["step"]).exists() else {}
        words.update({names.get(setting, setting).replace("_", "-"): value for setting, value in settings.items()})
        self.settings = folder / f"bench{name}.conf"
        self.settings.write_text("".join(f"{setting} {value}\n" for setting, value in words.items() if value is not None))
        self.url, self.said = f"http://127.0.0.1:{self.port}", folder / f"ctserve{name}.log"
        self.start(*["--create"] if (new if create is None else create) else [])

    def start(self, *words):
        """Starts ctserve; the answer is the seconds until it serves."""
        began = time.monotonic()
        with self.said.open("w") as to:
            self.process = subprocess.Popen([self.out / "ctserve", "--config", self.settings, *words], stdout=to, stderr=subprocess.STDOUT)
        until(lambda: '"event":"serving"' in self.said.read_text(), "ctserve doesn't serve", self.process, self.said)
        return time.monotonic() - began

    def figures(self):
        """For each call of a store and each part of a step: how often it was made, and how many seconds it took."""
        with urllib.request.urlopen(f"http://127.0.0.1:{self.operator}/metrics", timeout=60) as answer:
            text = answer.read().decode()
        found = {}
        for of, what, labels, value in SUMMARY.findall(text):
            name = " ".join(sorted(re.findall(r'"([^"]*)"', labels), key=lambda word: word not in ("objects", "lock", "index")))
            found.setdefault((of, name), {})[what] = float(value)
        return {of: (both["count"], both["sum"]) for of, both in found.items()}


class Ideal(Served):
    """A log of bench/ideal in a folder, which is made, with the program beside it."""

    def __init__(self, folder):
        folder.mkdir()
        program = folder / "ideal"
        run(HERE.parent / "deps" / "go", "-C", HERE.parent, "build", "-trimpath", "-o", program, "./bench/ideal")
        self.folder, self.roots, port, key, said = folder, folder / "roots.pem", free_port(), folder / "log.key", folder / "ideal.log"
        run("openssl", "ecparam", "-name", "prime256v1", "-genkey", "-noout", "-out", key)
        run("openssl", "req", "-x509", "-key", key, "-subj", "/CN=a root", "-days", 30, "-out", self.roots)
        self.url = f"http://127.0.0.1:{port}"
        with said.open("w") as to:
            self.process = subprocess.Popen([program, "--folder", folder / "log", "--key", key, "--roots", self.roots, "--listen", f"127.0.0.1:{port}"], stdout=to, stderr=subprocess.STDOUT)
        until(lambda: listens(port), "ideal doesn't listen", self.process, said)


def load(log, clients, *words):
    """The results of ctload for a log: timestamps, over how many seconds, and the median and 99th percentile of the time to one, in seconds."""
    command = [OUT / "ctload", "--nodes", getattr(log, "urls", log.url), "--roots", log.roots, "--answers", log.folder / "answers", "--repeats", 0, "--clients", clients, "--reload", log.reload()]
    said = run(*command, *words)
    found = re.search(r"(\d+) answered in ([0-9.]+) s: .* median ([0-9.]+) s, 99th percentile ([0-9.]+) s[^\n]*$", said.strip())
    if not found:
        stop(f"ctload says {said}")
    return int(found[1]), *map(float, found.groups()[1:]), "sent again" in said


def size_of(log):
    with urllib.request.urlopen(f"{log.url}/ct/v1/get-sth", timeout=60) as answer:
        return json.load(answer)["tree_size"]


class Turn(typing.NamedTuple):
    """The figures of one turn: times in ms, and what an entry cost."""

    rate: float
    median: float
    high: float
    processor: float
    written: float
    others: float
    entries: int
    again: bool


def turn(log, clients, seconds, ready):
    """Has ctload submit to a log, which makes so many submissions before it begins. What an entry cost counts until a signed head has all of them."""
    had, before, wrote = size_of(log), {one: processor_time(one) for one in log.ids()}, written(*log.ids())
    began, busy = time.monotonic(), busy_time()
    loader = sum(os.times()[2:4])
    count, took, middle, high, again = load(log, clients, "--for", f"{seconds}s", "--ready", ready)
    loader = sum(os.times()[2:4]) - loader
    # (those that ctload gave up at its end may come in too)
    until(lambda: size_of(log) >= had + count, "no head has all entries")
    spent = sum(processor_time(one) - before.get(one, 0) for one in log.ids())
    others = (busy_time() - busy - spent - loader) / (time.monotonic() - began)
    entries = max(size_of(log) - had, 1)
    return Turn(count / took, 1000 * middle, 1000 * high, 1000 * spent / entries, (written(*log.ids()) - wrote) / entries, max(others, 0), entries, again)
