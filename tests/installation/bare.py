#!/usr/bin/env python3
"""Runs the lines of docs/OPERATING.md, in the order of the page and as they are written, on a bare Debian: a folder with only Debian's base system, which
chroot enters, and the packages of a release. Neither the kit nor this checkout is in it. Then it runs the lines of other pages that tests/readme.py leaves
to it: ctwatch watches the log, which has a witness (docs/SERVICE.md); the log takes the roots of a table of CCADB and passes the probe (docs/ACCEPTED.md); and it
is archived, and the archive is served (docs/ARCHIVE.md).

    bare.py [--built FOLDER] [--keep]

It needs root and mmdebstrap (Debian's package of that name). The release is made here, from the builds (crates/NAME/out, cmd/out). If ctlog is not
built, a program that only says so is in its place, and no line runs it. The release that the page upgrades to is this one with another VERSION.

Debian's packages come from its mirror. Everything else happens in a network of its own, which has only loopback. No systemd runs there: tests/installation/systemctl does
what the units' files say, and systemd-analyze looks at these. Beside the page's lines, certspotter, ctwatch and curl read the log through
nginx over TLS. Prometheus has its metrics and alerts. An older copy of the log is restored, and refused. ctaudit judges the log from its folder, with all
answers. The script prints what it saw, and ends with status 1 if something differs from the page.
"""
import argparse
import base64
import csv
import ctypes
import fcntl
import hashlib
import json
import os
import pathlib
import re
import shutil
import signal
import socket
import struct
import subprocess
import sys
import tempfile
import time
import urllib.request

ROOT = pathlib.Path(__file__).resolve().parent.parent.parent
sys.path += [str(ROOT / "release"), str(ROOT / "tests"), str(ROOT / "tests" / "tiles")]

from readme import BARE, bare_commands, commands, files, run_by  # noqa: E402
from release import PROGRAMS  # noqa: E402

PAGE = ROOT / "docs" / "OPERATING.md"
NAME, HOST = "2027h1", "2027h1.log.example"
LOG, SITE = "http://127.0.0.1:8618", f"https://{HOST}"
# How long one line, or a wait, may take, in seconds.
WITHIN = 900
MADE = "# Ctrl-C once it says serving"
NEW_NETWORK = 0x40000000


def fail(why):
    sys.exit(f"bare.py: {why}")


class Network:
    """A network of this process and its children, which has only loopback, and the network from before."""

    def __init__(self):
        self.libc = ctypes.CDLL(None, use_errno=True)
        self.outside = os.open("/proc/self/ns/net", os.O_RDONLY)
        if self.libc.unshare(NEW_NETWORK):
            fail(f"no network of its own: {os.strerror(ctypes.get_errno())} (it needs root)")
        with socket.socket() as one:
            fcntl.ioctl(one, 0x8914, struct.pack("16sh14x", b"lo", 1))

    def leave(self):
        """In a process that is started: back to the one from before."""
        self.libc.setns(self.outside, NEW_NETWORK)


class Releases:
    """The release of this checkout, and the next one."""

    def __init__(self, work, built):
        self.work, self.built, self.lacking = work, work / "built", []
        for name in PROGRAMS:
            to = self.built / name / "out" / name
            to.parent.mkdir(parents=True)
            if (built / name / "out" / name).exists():
                shutil.copy(built / name / "out" / name, to)
            else:
                self.lacking.append(name)
                to.write_text(f"#!/bin/sh\necho '{name} was not built' >&2\nexit 1\n")
            to.chmod(0o755)
        linked = self.built / "libwagtenib" / "out" / "link"
        linked.mkdir(parents=True)
        for end in (".a", ".so"):
            made = built / "libwagtenib" / "out" / "link" / f"libwagtenib{end}"
            (linked / made.name).write_bytes(made.read_bytes() if made.exists() else b"made up\n")

    def make(self, to, version=None):
        """A release's packages; those of another version out of a copy in which VERSION is another."""
        top = ROOT
        if version:
            top = self.work / "copy"
            subprocess.run(["git", "clone", "--quiet", "--no-checkout", ROOT, top], check=True)
            for file in files():
                (top / file).parent.mkdir(parents=True, exist_ok=True)
                shutil.copy(ROOT / file, top / file)
            (top / "VERSION").write_text(f"{version}\n")
        for words in ([top / "cmd" / "build.sh", "build"], [top / "release" / "release.py", "--quickly", "--built", self.built, "--to", to]):
            ran = subprocess.run(words, capture_output=True, text=True)
            if ran.returncode:
                fail(f"{words[0]}: {ran.stdout}{ran.stderr}")
        return sorted(to.glob("*.deb"))


class Bare:
    """A bare Debian below a folder."""

    def __init__(self, folder, network):
        self.folder, self.network = folder, network

    def make(self, debs):
        words = ["mmdebstrap", "--variant=apt", "--quiet", "--dpkgopt=force-unsafe-io", "--include=systemd", "bookworm", self.folder]
        if subprocess.run(words, stdout=subprocess.DEVNULL, preexec_fn=self.network.leave).returncode:
            fail("mmdebstrap makes no Debian")
        for name, text in (("usr/sbin/policy-rc.d", "#!/bin/sh\nexit 101\n"), ("usr/local/sbin/systemctl", (ROOT / "tests/installation/systemctl").read_text())):
            (self.folder / name).write_text(text)
            (self.folder / name).chmod(0o755)
        for path in debs:
            (self.folder / "root" / path.name).write_bytes(path.read_bytes())
        shutil.copy("/etc/resolv.conf", self.folder / "etc/resolv.conf")
        subprocess.run(["mount", "-t", "proc", "proc", self.folder / "proc"], check=True)

    def close(self):
        """Ends what still runs there."""
        for path in pathlib.Path("/proc").glob("[0-9]*"):
            try:
                if os.readlink(path / "root") == str(self.folder):
                    os.kill(int(path.name), signal.SIGKILL)
            except OSError:
                # (it has ended)
                continue
        subprocess.run(["umount", self.folder / "proc"], stderr=subprocess.DEVNULL)

    def words(self, line):
        return ["chroot", self.folder, "/usr/bin/env", "-i", "HOME=/root", "PATH=/usr/local/sbin:/usr/local/bin:/usr/sbin:/usr/bin:/sbin:/bin",
                "DEBIAN_FRONTEND=noninteractive", "bash", "-c", f"cd /root && {line}"]

    def run(self, line, status=0, quiet=False):
        """Runs a line, and returns its output. A line with apt-get runs in the network outside."""
        if not quiet:
            print(f"$ {line.splitlines()[0]}", flush=True)
        leave = self.network.leave if "apt-get" in line else None
        with tempfile.TemporaryFile("w+") as out, tempfile.TemporaryFile("w+") as told:
            # (files and not pipes: a process that a line leaves running would keep a pipe open)
            ended = subprocess.run(self.words(line), stdin=subprocess.DEVNULL, stdout=out, stderr=told, timeout=WITHIN, preexec_fn=leave).returncode
            out.seek(0)
            told.seek(0)
            said, faults = out.read(), told.read()
        if ended != status:
            fail(f"status {ended} of {line.splitlines()[0]}: {said[-3000:]}{faults[-3000:]}")
        return said + ("" if status == 0 else faults)

    def start_once(self, line):
        """Starts what serves, sees that it says so without a warning, and interrupts it."""
        print(f"$ {line}", flush=True)
        told = self.folder / "root" / "told"
        with open(told, "w") as to:
            process = subprocess.Popen(self.words(f"exec {line}"), stdin=subprocess.DEVNULL, stderr=to)
        until(lambda: '"event":"serving"' in told.read_text() or process.poll() is not None, "it doesn't serve")
        if process.poll() is not None or '"level":"warn"' in told.read_text().replace('"event":"root-left-out"', ""):
            fail(f"a first start ends, or warns: {told.read_text()}")
        for path in pathlib.Path("/proc").glob("[0-9]*"):
            if is_serving(path):
                os.kill(int(path.name), signal.SIGINT)
        if status := process.wait(WITHIN):
            fail(f"it ends with status {status}: {told.read_text()}")

    def log_runs(self):
        return self.run(f"kill -0 $(cat /run/units/ctserve@{NAME}.pid) && echo yes || echo no", quiet=True).strip() == "yes"


def lintian(debs):
    """Runs lintian on the packages except that of the library, which may be made up. It must report nothing except items that they override with a reason."""
    if not shutil.which("lintian"):
        print("lintian isn't installed, and wasn't asked.")
        return
    ran = subprocess.run(["lintian", "--allow-root", "--fail-on", "error,warning", *(path for path in debs if not path.name.startswith("lib"))], capture_output=True, text=True)
    if ran.returncode or ran.stdout.strip():
        fail(f"lintian: {ran.stdout}{ran.stderr}")


def is_serving(path):
    """Whether a process is the log itself: not who runs it as another user, and not its signer."""
    try:
        words = (path / "cmdline").read_bytes().split(b"\0")
    except OSError:
        # (it has ended)
        return False
    return words[0].endswith(b"ctserve") and words[1:2] != [b"signer"] and b"--config" in words and b"--create" in words


def until(holds, otherwise):
    """Waits until a condition holds. A server that doesn't listen yet may do so later."""
    last = time.monotonic() + WITHIN
    while True:
        try:
            if holds():
                return
        except OSError:
            pass
        if time.monotonic() > last:
            fail(otherwise)
        time.sleep(0.2)


def get(url):
    with urllib.request.urlopen(url, timeout=60) as answer:
        return answer.read()


def head():
    """The size and the root of the newest head."""
    told = json.loads(get(f"{LOG}/ct/v1/get-sth"))
    return told["tree_size"], told["sha256_root_hash"]


def prometheus(query):
    return json.loads(get(f"http://127.0.0.1:9090/api/v1/{query}"))["data"]


class Trial:
    """The page's lines, and the checks between and after them."""

    def __init__(self, bare):
        self.bare, self.seen = bare, {}
        # The work before a line and the checks after it, by the line's first words.
        self.before = {"cp -an /root/backup": self.lose_an_issuer, "ctaudit cosign": self.watch, "ctserve roots": self.make_table}
        self.behind = {
            "nginx -t": lambda said: bare.run(f"echo 127.0.0.1 {HOST} >> /etc/hosts", quiet=True), "promtool": self.figures, "ctload": self.submitted, "rm /etc/ctserve/roots": self.root_went,
            "curl -s --cacert": self.checkpoint, "systemctl start": self.goes_on, "cp -an /root/backup": self.issuer_is_back, "systemctl restart ctserve": self.upgraded,
            "ctwatch run": self.mirrored, "ctaudit fsck": self.judged, "systemctl enable --now ctwitness": self.witnessed, "ctaudit cosign": self.cosigned,
            "ctserve roots": self.roots_came, "ctaudit probe": self.passed, "runuser -u ctserve -- ctserve archive": self.archived, "curl -s --fail http://127.0.0.1:8628": self.archive_served,
        }

    def run(self, lines):
        for line in lines:
            if line.endswith(MADE):
                self.bare.start_once(line.removesuffix(MADE).strip())
                continue
            for beginning, does in self.before.items():
                if line.startswith(beginning):
                    does()
            said = self.bare.run(line)
            for beginning, does in self.behind.items():
                if line.startswith(beginning):
                    does(said)
                    self.seen[beginning] = True

    def all_seen(self):
        if missing := [beginning for beginning in self.behind if beginning not in self.seen]:
            fail(f"no page has a line that begins with {missing[0]}")

    def watch(self):
        """ctwatch reads the log to its end, and puts the accepted head where the witness reads it."""
        self.bare.run("mkdir -p /var/lib/ctwatch", quiet=True)
        self.bare.run(f'ctwatch run --once --from-start --listen= --name example.net --unread none --folder /var/lib/ctwatch --accepted-folder /var/lib/ctwatch/accepted --log "tiled+{SITE} 2027h1.pem"')

    def cosigned(self, said):
        kept = (self.bare.folder / "root/cosigned").read_text()
        if not kept.startswith(f"{HOST}\n{self.size}\n") or "\n\u2014 witness.example " not in kept:
            fail(f"there is no cosignature of the witness: {kept}{said}")

    def witnessed(self, said):
        until(lambda: get("http://127.0.0.1:8641/healthz"), "the witness doesn't answer")

    def figures(self, said):
        until(lambda: prometheus("query?query=ctserve_ready")["result"], "Prometheus has no figures of the log")
        rules = [rule["name"] for group in prometheus("rules")["groups"] for rule in group["rules"]]
        due = re.findall(r"alert: (\w+)", (ROOT / "release" / "prometheus" / "ctserve.rules.yml").read_text())
        if rules != due or prometheus("query?query=up")["result"][0]["value"][1] != "1":
            fail(f"Prometheus has the rules {rules}")

    def submitted(self, said):
        self.size, _ = head()
        if not self.size or f"{self.size}" not in said and " answered in " not in said:
            fail(f"{self.size} entries are there, and ctload says {said}")
        self.trial_roots = len(json.loads(get(f"{LOG}/ct/v1/get-roots"))["certificates"])
        self.trial_root = (self.bare.folder / "etc/ctserve/roots/trial.pem").read_text()

    def root_went(self, said):
        until(lambda: len(json.loads(get(f"{LOG}/ct/v1/get-roots"))["certificates"]) == self.trial_roots - 1, "the trial's root stays")

    def checkpoint(self, said):
        if said.encode() != get(f"{LOG}/checkpoint") or not said.startswith(f"{HOST}\n{self.size}\n"):
            fail(f"nginx answers the checkpoint {said}")

    def goes_on(self, said):
        if not self.bare.log_runs() or head()[0] != self.size:
            fail("after a backup the log doesn't run, or is another one")

    def lose_an_issuer(self):
        issuers = self.bare.folder / f"var/lib/ctserve/{NAME}/objects/issuer"
        self.lost = next(issuers.iterdir())
        self.content = self.lost.read_bytes()
        self.lost.unlink()

    def issuer_is_back(self, said):
        if get(f"{LOG}/issuer/{self.lost.name}") != self.content or hashlib.sha256(self.content).hexdigest() != self.lost.name:
            fail("an issuer that was lost isn't put back")

    def upgraded(self, said):
        said = self.bare.run("ctserve --version", quiet=True)
        figures = get("http://127.0.0.1:8619/metrics").decode()
        if "0.1.1" not in said or 'version="0.1.1"' not in figures or head()[0] != self.size:
            fail(f"after an upgrade it is {said}, with {head()}")

    def mirrored(self, said):
        own, (mirror,) = self.bare.folder / f"var/lib/ctserve/{NAME}/objects", (self.bare.folder / "root/mirror").iterdir()
        kept = [path.relative_to(mirror) for path in mirror.rglob("*") if path.is_file()]
        tiles = [path for path in kept if path.parts[0] in ("tile", "issuer")]
        if (mirror / "checkpoint").read_bytes() != get(f"{LOG}/checkpoint") or len(tiles) < 3:
            fail(f"the mirror has {len(tiles)} tiles and issuers: {said}")
        for path in tiles:
            if (mirror / path).read_bytes() != (own / path).read_bytes():
                fail(f"the mirror's {path} is another one than the log's")

    def judged(self, said):
        if f" {self.size} leaves " not in said or not said.endswith(": all as they have to be\n"):
            fail(f"ctaudit fsck says of the backup {said}")

    def make_table(self):
        """A table as CCADB has them, of Debian's roots: the first is for mail only, and the second was removed."""
        text = (self.bare.folder / "etc/ssl/certs/ca-certificates.crt").read_text()
        roots = re.findall("-----BEGIN CERTIFICATE-----.*?-----END CERTIFICATE-----", text, re.S)
        with open(self.bare.folder / "root/ccadb.csv", "w", newline="") as to:
            table = csv.writer(to)
            table.writerow(["CA Owner", "Certificate Name", "Trust Bits", "Status of Root Cert", "X.509 Certificate (PEM)"])
            for number, root in enumerate(roots):
                status = "Mozilla: Removed" if number == 1 else "Apple: Included; Mozilla: Included"
                table.writerow(["an owner", f"root {number}", "Email" if number == 0 else "Email;Websites", status, f"'{root}'"])
        self.due_roots = len(roots) - 2

    def roots_came(self, said):
        due = f"left out: 1 not for TLS servers, 1 not included\n/etc/ctserve/roots/ccadb.pem: {self.due_roots} roots, {self.due_roots} added, 0 removed\n"
        if not said.endswith(due):
            fail(f"ctserve roots says {said[-500:]}")

    def passed(self, said):
        if not said.startswith(f"{HOST}: passed\n"):
            fail(f"the probe says {said}")

    def archived(self, said):
        size, _ = head()
        if f"complete: {size} entries, root " not in said:
            fail(f"the archive of {size} entries says {said}")

    def archive_served(self, said):
        if (json.loads(said)["tree_size"], json.loads(said)["sha256_root_hash"]) != head():
            fail(f"the archive has the head {said}, and the log {head()}")

    def certspotter(self):
        """certspotter follows the log by RFC 6962's calls, through nginx over TLS, to a verified head."""
        run = self.bare.run
        run("apt-get install --yes --no-install-recommends certspotter", quiet=True)
        run(f"cp /etc/ssl/{HOST}.pem /usr/local/share/ca-certificates/trial.crt && update-ca-certificates", quiet=True)
        key = "".join(line for line in run(f"ctserve key --show /etc/ctserve/{NAME}.key", quiet=True).splitlines() if re.fullmatch("[A-Za-z0-9+/=]{40,}", line))
        one = {"key": key, "log_id": base64.b64encode(hashlib.sha256(base64.b64decode(key)).digest()).decode(), "description": "a log", "mmd": 86400, "url": f"{SITE}/",
               "state": {"usable": {"timestamp": "2026-01-01T00:00:00Z"}}}
        listed = {"version": "1.0.0", "log_list_timestamp": "2026-01-01T00:00:00Z", "operators": [{"name": "an operator", "email": [], "logs": [one]}]}
        (self.bare.folder / "root/logs.json").write_text(json.dumps(listed))
        (self.bare.folder / "root/watched").write_text(".example\n")
        print("$ certspotter, until it has verified the newest head", flush=True)
        line = "exec certspotter -verbose -stdout -no_save -logs logs.json -state_dir spotted -watchlist watched > spotted.told 2>&1"
        watcher = subprocess.Popen(self.bare.words(line), stdin=subprocess.DEVNULL)
        told = self.bare.folder / "root/spotted.told"

        def verified():
            if watcher.poll() is not None:
                fail(f"certspotter ended: {told.read_text()[-2000:]}")
            words = [sys.executable, ROOT / "tests/clients/verified.py", self.bare.folder / "root/spotted", f"{LOG}/", str(self.size)]
            return subprocess.run(words, capture_output=True).returncode == 0

        until(verified, "certspotter verifies no head")
        watcher.terminate()
        watcher.wait()
        names = set(re.findall(r"DNS Name = (host-\d+\.example)", told.read_text()))
        # (each of ctload's entries has a name of its own)
        if len(names) != self.size:
            fail(f"certspotter reports {len(names)} names of {self.size}")

    def readers(self):
        """ctwatch and curl read the log through nginx over TLS."""
        self.bare.run(f'ctwatch run --once --folder read --keep tiles --log "tiled+{SITE} 2027h1.pem"')
        if [path.read_text().split("\n")[1] for path in (self.bare.folder / "root/tiles").glob("*/checkpoint")] != [str(self.size)]:
            fail("ctwatch reads another tree over TLS")
        entries = json.loads(self.bare.run(f"curl -s --fail '{SITE}/ct/v1/get-entries?start=0&end=0'"))["entries"]
        version = self.bare.run(f"curl -s --fail -o tile -w '%{{http_version}} %{{http_code}}' {SITE}/tile/data/000{'' if self.size >= 256 else f'.p/{self.size}'}")
        if len(entries) != 1 or version != "2 200":
            fail(f"curl gets {len(entries)} entries, and a tile by {version}")

    def put_back(self):
        """The backup, after which the log continued, is refused by a status of its own. The log itself continues."""
        run = self.bare.run
        run(f'ctload --roots /etc/ctserve/roots/trial.pem --reload "systemctl reload ctserve@{NAME}" --not-after 2027-03-01 --answers answers --most 9', quiet=True)
        size, root = head()
        run(f"systemctl stop ctserve@{NAME} && mv /var/lib/ctserve/{NAME} /var/lib/ctserve/{NAME}.guard /root && cp -a /root/backup/{NAME} /root/backup/{NAME}.guard /var/lib/ctserve")
        said = run(f"systemctl start ctserve@{NAME}", status=3)
        if "older" not in said:
            fail(f"an older copy is refused by {said}")
        run(f"rm -rf /var/lib/ctserve/{NAME} /var/lib/ctserve/{NAME}.guard && mv /root/{NAME} /root/{NAME}.guard /var/lib/ctserve && systemctl start ctserve@{NAME}")
        if head() != (size, root):
            fail(f"put back, the log has {head()}")
        self.size = size

    def judge(self):
        """The units, the log's folder with all that was answered, and its entry for a list."""
        for unit in ("ctserve@.service", "ctserve-signer@.service", "ctwitness@.service", "ctwatch.service"):
            said = self.bare.run(f"systemd-analyze verify /lib/systemd/system/{unit} 2>&1", quiet=True)
            if unit in said:
                fail(f"systemd-analyze says {said}")
        self.bare.run(f"systemctl stop ctserve@{NAME}")
        print(self.bare.run(f"ctaudit fsck /var/lib/ctserve/{NAME}/objects 2027h1.pem answers"), end="")
        listed = json.loads(self.bare.run(f"ctserve list-entry --config /etc/ctserve/{NAME}.conf --operator An-operator --email mail@log.example"))
        if listed["operators"][0]["tiled_logs"][0]["submission_url"] != f"{SITE}/":
            fail(f"the list's entry is {listed}")


def main():
    words = argparse.ArgumentParser(description="Runs the lines of docs/OPERATING.md on a bare Debian.")
    words.add_argument("--built", type=pathlib.Path, default=ROOT / "crates", help="the folder in which the crates' builds lie")
    words.add_argument("--keep", action="store_true", help="leave the folder")
    given = words.parse_args()
    if os.geteuid() or not shutil.which("mmdebstrap"):
        fail("it needs root, and mmdebstrap (Debian's package of that name)")
    own, lines, network = [line for line in commands(PAGE) if run_by(PAGE, line) == BARE], bare_commands(), Network()
    work = pathlib.Path(tempfile.mkdtemp(prefix="bare-"))
    bare = Bare(work / "debian", network)
    try:
        releases = Releases(work, given.built)
        if releases.lacking:
            print(f"The packages have no {', '.join(releases.lacking)}, because it isn't built here. No line runs it.", flush=True)
        debs = releases.make(work / "first")
        bare.make(debs + releases.make(work / "second", "0.1.1"))
        trial = Trial(bare)
        trial.run(own)
        trial.certspotter()
        trial.readers()
        trial.run(lines[len(own) :])
        trial.all_seen()
        trial.put_back()
        trial.judge()
        lintian(debs)
        print(f"bare.py: {len(lines)} lines, {len(own)} of them of {PAGE.name}, as typed: the log serves through nginx to certspotter, ctwatch and curl, is watched by Prometheus, reloads,"
              " is backed up, put back where that may be, and upgraded; it takes the roots of a table, passes the probe, and is archived.")
    finally:
        bare.close()
        if given.keep:
            print(f"It is left in {work}.")
        else:
            subprocess.run(["rm", "-rf", "--one-file-system", work])


if __name__ == "__main__":
    main()
