#!/usr/bin/env python3
"""Runs the commands of README.md in the order of the page, in a copy of the repository in which nothing is built, without the kit. For each command of the
other pages, it has the name of the script that runs it.

`make serve` runs until the end, at a free port. The script checks the output of each command. It also runs the first session of docs/LINES.md, by ctlog if
that is built and otherwise by expected.py. A command of README.md that this script doesn't know is a fault. It prints one line, and ends with status 1 at the
first command that does something else than README.md says. It needs what `make test` fetches.

ELSEWHERE has the commands of the other pages, each with what runs it: this script, in that copy; installation/bare.py, on a bare Debian with the packages of a release;
or nobody but a user. A command that is missing there is a fault, and one that is on no page is a fault too.
"""
import collections
import contextlib
import json
import os
import pathlib
import random
import re
import shutil
import signal
import socket
import subprocess
import sys
import tempfile
import urllib.request

ROOT = pathlib.Path(__file__).resolve().parent.parent
sys.path.append(str(ROOT / "checks"))

from documents import BLOCK, files, pages  # noqa: E402


def fail(why):
    sys.exit(f"readme.py: {why}")


def commands(page=ROOT / "README.md"):
    """The commands of a page, in order, each with what a << takes."""
    blocks = BLOCK.findall(re.sub(r"<!-- Made by .*?<!-- Made until here. -->", "", page.read_text(), flags=re.S))
    found, end = [], None
    for line in "\n".join(blocks).splitlines():
        if end:
            found[-1] += "\n" + line[4:]
            end = None if line[4:] == end else end
        elif line.startswith("    $ "):
            found.append(line[6:])
            here = re.search(r"<<(\w+)$", line)
            end = here and here[1]
    if end:
        fail(f"{page.name}: a command lacks the end {end}")
    return found


def free_port():
    """A port at which nobody listens, nor at the next one. It is below those that the kernel gives to other programs while this one builds."""
    while True:
        port = random.randrange(10_000, 32_000)
        with socket.socket() as first, socket.socket() as second, contextlib.suppress(OSError):
            first.bind(("127.0.0.1", port))
            second.bind(("127.0.0.1", port + 1))
            return port


def path_without_kit():
    """The PATH without the folders that have the kit's command, or a program of this repository."""
    folders = os.environ["PATH"].split(":")
    return ":".join(folder for folder in folders if not any(os.path.exists(f"{folder}/{name}") for name in ("rt", "ctwatch")))


class Page:
    """README.md's commands over a fresh copy of the repository."""

    def __init__(self, work):
        self.copy, self.port, self.log, self.count = work / "copy", free_port(), None, 0
        for file in files():
            (self.copy / file).parent.mkdir(parents=True, exist_ok=True)
            shutil.copy(ROOT / file, self.copy / file)
        self.around = {name: value for name, value in os.environ.items() if name not in ("MAKEFLAGS", "MFLAGS", "MAKELEVEL")}
        self.around.update({"PATH": path_without_kit(), "no_proxy": "127.0.0.1", "PYTHONDONTWRITEBYTECODE": "1"})
        self.how = {"cwd": self.copy, "env": self.around, "text": True}

    def serve(self, command):
        """Starts it, and waits until the log is served."""
        how = {"stdout": subprocess.PIPE, "stderr": subprocess.STDOUT, "start_new_session": True, **self.how}
        self.log = subprocess.Popen(["sh", "-c", f"exec {command} PORT={self.port}"], **how)
        said = []
        while line := self.log.stdout.readline():
            said.append(line)
            if '"event":"serving"' in line:
                break
        else:
            fail(f"{command} ended with status {self.log.wait()}: {''.join(said)}")
        if not said[0].startswith("The decisions of this log are proved code, compiled from dist/.") or "  a page " not in "".join(said):
            fail(f"{command} says {''.join(said)}")
        if json.loads(self.answer("log.v3.json")).get("notice") or self.answer("key") != (self.copy / "ct-log" / "log.pem").read_bytes():
            fail(f"{command}: the log answers {self.answer('log.v3.json')} and {self.answer('key')}")

    def answer(self, path):
        direct = urllib.request.build_opener(urllib.request.ProxyHandler({}))
        with direct.open(f"http://127.0.0.1:{self.port}/{path}") as answer:
            return answer.read()

    def run(self, command, status, form):
        """Runs it, and sees that it ends with that status and prints text of this form."""
        ran = subprocess.run(["sh", "-c", command.replace("8618", str(self.port))], capture_output=True, **self.how)
        if ran.returncode != status or not re.fullmatch(form, ran.stdout, re.S):
            fail(f"{command} ends with status {ran.returncode} instead of {status}, and prints {ran.stdout}{ran.stderr}")

    def first_session(self, command):
        """Runs the session of docs/LINES.md by ctlog if it is built, and otherwise by expected.py."""
        if os.access(ROOT / command.split()[0], os.X_OK):
            ran = subprocess.run(["sh", "-c", command], cwd=ROOT, stdout=subprocess.PIPE)
        else:
            program = re.search(r"`(tests/expected\.py [^`]+)`", (ROOT / "docs" / "LINES.md").read_text())[1]
            ran = subprocess.run(["sh", "-c", program], cwd=self.copy, stdout=subprocess.PIPE)
        if ran.returncode or ran.stdout != (ROOT / "examples" / "first-session.expected.jsonl").read_bytes():
            fail(f"{command}: status {ran.returncode}: {ran.stdout.decode()}")

    def end(self):
        if self.log:
            # (if the log has ended already, the failure must be reported, and not this)
            with contextlib.suppress(ProcessLookupError):
                os.killpg(self.log.pid, signal.SIGTERM)
            self.log.communicate()


HERE, BARE, BY_HAND = "readme.py", "make bare", "by hand"
# The commands of the other pages, each by how it begins, and what runs it.
ELSEWHERE = {
    "docs/ACCEPTED.md": {"make serve": HERE, "cmd/out/ctaudit probe": HERE, "openssl ecparam": BARE, "openssl req -x509 -new": BARE, "systemctl reload": BARE, "ctserve list-entry": BARE,
                         "ctaudit probe https": BARE, "ctserve roots": BARE},
    "docs/ARCHIVE.md": {"": BARE},
    "docs/AUDIT.md": {"cat ct-log/leaf.pem": HERE, "curl -s -d @ct-log/chain.json": HERE, "cmd/out/ctaudit sct": HERE},
    "docs/LINES.md": {"crates/ctlog/out/ctlog": HERE},
    "docs/OPERATING.md": {"install -m 600": BARE, **dict.fromkeys(("make service", "install ", "adduser "), BY_HAND), "": BARE},
    "docs/WATCH.md": {"make serve": HERE, "curl -s -d @ct-log/chain.json": HERE, "cmd/out/ctwatch run --once": HERE, "openssl req": HERE, "openssl x509": HERE, "printf": HERE,
                      "curl -s -d @own.json": HERE},
    "examples/README.md": {"examples/pem_lines.py": HERE},
    "examples/link/README.md": {"": BY_HAND},
    "release/README.md": {"apt-get install": BARE, "": BY_HAND},
    "docs/SERVICE.md": {**dict.fromkeys(("make deps", "make service-engines", "make test"), BY_HAND), "make service": HERE, "openssl genpkey": BARE, "cp 2027h1.pem": BARE,
                        "cat > /etc/ctwitness/a.conf": BARE, "runuser -u ctwitness": BARE, "systemctl": BARE, "ctaudit cosign": BARE,
                        "(printf '{\"chain\":['": HERE, "curl -s -d @chain.json": HERE, "curl -s '127.0.0.1:8618/ct/v1/get-entr": HERE},
}


def run_by(page, command):
    """Returns the name of the script that runs a command of another page."""
    known = ELSEWHERE.get(str(page.relative_to(ROOT)), {})
    return next((runs for beginning, runs in known.items() if command.startswith(beginning)), None)


def elsewhere():
    """Each command of the other pages with its page, in order. All of them are known, and nothing else is."""
    found = {page: commands(page) for page in pages() if page != ROOT / "README.md"}
    unknown = [f"{page.name}: {command}" for page, given in found.items() for command in given if run_by(page, command) is None]
    beginnings = [(name, beginning) for name, known in ELSEWHERE.items() for beginning in known]
    gone = [f"{name}: {beginning}" for name, beginning in beginnings if not any(command.startswith(beginning) for command in found.get(ROOT / name, []))]
    if unknown or gone:
        fail(f"commands of pages that ELSEWHERE hasn't, or that no page has: {unknown + gone}")
    return found


def bare_commands():
    """Those that bare.py runs, in the order of the pages below."""
    found = elsewhere()
    pages_in_order = ("docs/OPERATING.md", "docs/SERVICE.md", "docs/ACCEPTED.md", "docs/ARCHIVE.md")
    return [command for name in pages_in_order for command in found[ROOT / name] if run_by(ROOT / name, command) == BARE]


def pem_lines(page):
    """The command of examples/README.md, over chains of files of their own, prints what the page has."""
    chain = (page.copy / "ct-log" / "root.pem").read_text()
    for name, many in (("chain.pem", 2), ("other.pem", 1)):
        (page.copy / name).write_text(chain * many)
    text = (ROOT / "examples" / "README.md").read_text()
    first, = commands(ROOT / "examples" / "README.md")
    said = subprocess.run(["sh", "-c", first], stderr=subprocess.PIPE, **page.how)
    due = re.search(r"^    (pem_lines\.py: .*)$", text, re.M)[1]
    if said.returncode or said.stderr.strip() != due or len((page.copy / "lines.jsonl").read_text().splitlines()) != 2:
        fail(f"{first}: status {said.returncode}: {said.stderr}")


SIGNED = r'\{"sct_version":0,.*"signature":"[A-Za-z0-9+/=]+"\}\s*'
CHECKPOINT = "ct-log.example\n1\n[A-Za-z0-9+/=]{44}\n\n\u2014 ct-log.example [A-Za-z0-9+/=]+\n"
ALERT = r"FOUND example\.org: shop\.example\.org \(1 name\); issued by .*; certificate 0 of 127\.0\.0\.1:[0-9]+; .*\n"
AUDITED = r"ct-log\.example: passed\n.*"
# The answers to the requests of docs/SERVICE.md, by a part of the command.
ANSWERS = {"add-chain": SIGNED, "get-entries": r'\{"entries":\[\{"leaf_input":.*\}\]\}\n', "get-entry-and-proof": r'\{"leaf_input":.*"audit_path":\[\]\}\n'}
# (the whole of it runs this script)
TESTED = r"1 parts on .*\n\[1/1\] docs/check\.sh: 1 passed, [0-9]+ s\n1 passed, 0 failed\nNot checked: the proofs \(make prove\), .*\.\n"
INCLUDED = r"127\.0\.0\.1:[0-9]+: INCLUDED: the leaf is at 0 of [0-9]+\n"
# The commands by their first words, with the test of each.
KNOWN = [
    ("make serve", lambda page, command: page.serve(command)),
    ("make test", lambda page, command: page.run(f"{command} ONLY=docs/", 0, TESTED)),
    ("curl -s -d @ct-log/chain.json", lambda page, command: page.run(command, 0, SIGNED)),
    ("curl -s 127.0.0.1:8618/checkpoint", lambda page, command: page.run(command, 0, CHECKPOINT)),
    ("cmd/out/ctwatch run", lambda page, command: page.run(command, 8, ALERT)),
]


def main():
    given, others = commands(), elsewhere()
    unknown = [command for command in given if not any(command.startswith(beginning) for beginning, _ in KNOWN)]
    if unknown or len(given) < len(KNOWN):
        fail(f"README.md has commands that aren't run here, or lacks some: {unknown}")
    with tempfile.TemporaryDirectory() as folder:
        page = Page(pathlib.Path(folder))
        try:
            for command in given:
                next(known[1] for known in KNOWN if command.startswith(known[0]))(page, command)
                page.count += 1
            page.run("make help", 0, r"(?:make [a-z-]+ +\S.*\n)+")
            for command in commands(ROOT / "docs" / "LINES.md"):
                page.first_session(command)
            # (README's make serve built it, in this copy)
            page.run("make service", 0, "")
            watching = commands(ROOT / "docs" / "WATCH.md")
            page.run(next(command for command in watching if command.startswith("curl")), 0, SIGNED)
            # (in a folder of its own: the store of README.md's ctwatch has the alert already)
            watches = next(command for command in watching if command.startswith("cmd/out/ctwatch run"))
            audits = next(command for command in commands(ROOT / "docs" / "ACCEPTED.md") if command.startswith("cmd/out/ctaudit probe"))
            page.run(audits, 0, AUDITED)
            page.run(watches.replace("ctwatch run", "ctwatch run --folder another-store"), 8, ALERT)
            for command in watching[watching.index(watches) + 1 :]:
                page.run(command, 0, SIGNED if command.startswith("curl") else "")
            for command in commands(ROOT / "docs" / "AUDIT.md"):
                page.run(command, 0, INCLUDED if "ctaudit sct" in command else "")
            # (chain.pem is that of AUDIT.md)
            for command in commands(ROOT / "docs" / "SERVICE.md"):
                if "chain.json" in command or "/ct/v1/" in command:
                    page.run(command, 0, next((form for part, form in ANSWERS.items() if part in command), ""))
            pem_lines(page)
        finally:
            page.end()
    by = collections.Counter(run_by(name, command) for name, known in others.items() for command in known)
    print(f"README.md: {page.count} commands do what it says, in its order, where nothing is built.")
    print("The commands of the other pages are run " + ", ".join(f"{count} by {runs}" for runs, count in by.items()).replace("by by", "by") + ".")


if __name__ == "__main__":
    main()
