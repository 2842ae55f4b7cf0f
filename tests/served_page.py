#!/usr/bin/env python3
"""Looks at the page of a log of ctserve in a headless Chromium: empty, with three entries, and with as many more as are asked for.

    served_page.py [--more ENTRIES]

It serves a log of its own by cmd/serve.sh at a port that is free. The page has to tell what the log answers: its size, names, key and notice; that the
head's signature is the key's, and a changed head's isn't; that an audit path leads to the head's root, and a changed one doesn't. It may not be wider
than a phone. Without JavaScript it says so. With --more ctload submits so many before the script looks once more. The script prints a line that says what it saw, and ends with status 1 if something is wrong.
"""
import argparse
import base64
import itertools
import json
import os
import pathlib
import re
import shutil
import signal
import subprocess
import sys
import tempfile
import time
import urllib.request

from readme import free_port

ROOT = pathlib.Path(__file__).resolve().parent.parent
NAMES = ["www.example.org", "*.example.org", "b\u00fccher.example"]
# Whether a path from the newest entry leads to the head's root, as it is and with a bit changed in it; and whether a head is signed, as it is and larger.
CHECKED = """(async () => {
  const entry = entries[0], reply = await (await answer(`ct/v1/get-entry-and-proof?leaf_index=${entry.index}&tree_size=${head.tree_size}`)).json();
  const path = reply.audit_path.map(bytes), root = bytes(head.sha256_root_hash), leads = () => includes(entry.leaf, entry.index, head.tree_size, path, root);
  const said = [await leads()];
  if (path.length) path[0][0] ^= 1; else root[0] ^= 1;
  return [...said, await leads(), await isSigned(head, key), await isSigned({ ...head, tree_size: head.tree_size + 1 }, key)];
})()"""


def hold(right, what):
    if not right:
        sys.exit(f"served_page.py: {what}")


class Browser:
    """Chromium (Debian's) with one page, driven over two pipes: messages in JSON, a zero byte after each."""

    def __init__(self, folder, address):
        theirs, ours = os.pipe(), os.pipe()
        words = ["chromium", "--headless=new", "--no-sandbox", "--disable-gpu", f"--user-data-dir={folder}", "--remote-debugging-pipe"]
        # Chromium reads from the descriptor 3 and writes to 4.
        line = f'exec "$@" 3<&{theirs[0]} 4>&{ours[1]}'
        self.process = subprocess.Popen(["bash", "-c", line, "bash", *words], pass_fds=(theirs[0], ours[1]), stderr=subprocess.DEVNULL)
        os.close(theirs[0]), os.close(ours[1])
        self.given, self.told, self.rest = os.fdopen(theirs[1], "wb", 0), ours[0], b""
        self.numbers, self.session = itertools.count(1), {}
        page = self.call("Target.createTarget", url=address)["targetId"]
        self.session = {"sessionId": self.call("Target.attachToTarget", targetId=page, flatten=True)["sessionId"]}
        self.call("Emulation.setDeviceMetricsOverride", width=1000, height=900, deviceScaleFactor=1, mobile=False)

    def call(self, method, **values):
        number = next(self.numbers)
        self.given.write(json.dumps({"id": number, "method": method, "params": values, **self.session}).encode() + b"\0")
        while True:
            while b"\0" not in self.rest:
                piece = os.read(self.told, 1 << 16)
                if not piece:
                    sys.exit("served_page.py: chromium ended")
                self.rest += piece
            message, _, self.rest = self.rest.partition(b"\0")
            answer = json.loads(message)
            if answer.get("id") == number:
                if "error" in answer:
                    sys.exit(f"served_page.py: {method}: {answer['error']}")
                return answer["result"]

    def end(self):
        self.process.terminate()
        self.process.wait()


class Served:
    """A log by serve.sh in a folder of its own."""

    def __init__(self, work):
        self.folder, self.port = work / "log", free_port()
        self.base = f"http://127.0.0.1:{self.port}/"
        words = [ROOT / "cmd" / "serve.sh", self.folder, str(self.port), "--notice", "only to look at"]
        self.log = subprocess.Popen(words, stdout=subprocess.PIPE, stderr=subprocess.STDOUT, text=True, start_new_session=True)
        while line := self.log.stdout.readline():
            if '"event":"serving"' in line:
                return
        sys.exit(f"served_page.py: serve.sh ended with status {self.log.wait()}")

    def size(self):
        """How many entries the log has, after those that ctload was answered for. A submission that it gave up may become an entry too."""
        due = len(NAMES) + len((self.folder / "answers").read_text().splitlines())
        for _ in range(600):
            found = json.load(urllib.request.urlopen(self.base + "ct/v1/get-sth"))["tree_size"]
            if found >= due:
                return found
            time.sleep(0.1)
        sys.exit(f"served_page.py: the log has {found} entries, and answered for {due} (look at {self.folder}/answers)")

    def roots(self):
        """How many roots the log has."""
        return len(json.load(urllib.request.urlopen(self.base + "ct/v1/get-roots"))["certificates"])

    def submit(self, number, name):
        """A certificate of the log's own root for a name."""
        at, run = self.folder, lambda *words: subprocess.run(words, check=True, capture_output=True, cwd=self.folder).stdout
        (at / "extensions").write_text(f"subjectAltName=DNS:{name.encode('idna').decode() if not name.isascii() else name}")
        run("openssl", "req", "-new", "-utf8", "-key", "leaf.key", "-subj", f"/CN={name}", "-out", "request")
        signer = ["-CA", "root.pem", "-CAkey", "root.key", "-set_serial", str(100 + number), "-days", "90", "-extfile", "extensions"]
        chain = [run("openssl", "x509", "-req", "-in", "request", *signer, "-outform", "DER"), run("openssl", "x509", "-in", "root.pem", "-outform", "DER")]
        given = json.dumps({"chain": [base64.b64encode(one).decode() for one in chain]}).encode()
        urllib.request.urlopen(self.base + "ct/v1/add-chain", given).read()

    def load(self, entries):
        """So many entries of an authority of ctload's own, whose root the log is given."""
        roots = self.folder / "roots.pem"
        words = ["--nodes", self.base.rstrip("/"), "--roots", roots, "--reload", f"kill -HUP {self.log.pid}", "--answers", self.folder / "answers"]
        loaded = subprocess.run([ROOT / "cmd/out/ctload", *words, "--clients", "48", "--repeats", "0", "--most", str(entries)], stdout=subprocess.DEVNULL)
        hold(loaded.returncode == 0, "ctload failed")

    def end(self):
        os.killpg(self.log.pid, signal.SIGTERM)
        self.log.communicate()


class Look:
    """The page in a browser."""

    def __init__(self, work, base):
        self.browser = Browser(work / "browser", base)

    def run(self, text):
        return self.browser.call("Runtime.evaluate", expression=text, returnByValue=True, awaitPromise=True)["result"].get("value")

    def until(self, text, what):
        """The value of an expression, once it has one that counts."""
        for _ in range(600):
            if found := self.run(text):
                return found
            time.sleep(0.1)
        sys.exit(f"served_page.py: {what}")

    def size(self, size):
        """Waits until the page shows so many entries, with the notice and a signed head."""
        self.until(f"document.querySelector('#head dd')?.textContent === '{size:,}'", f"the page doesn't show {size} entries")
        facts = self.until("document.querySelector('#head').innerText.includes('is the key')&&document.body.innerText", "the head isn't found to be signed")
        hold("only to look at" in facts and "log id" in facts, f"the page says {facts}")

    def entries(self, size):
        said = self.run(CHECKED)
        hold(said == [True, False, True, False], f"at {size} entries the page's checks of path, forged path, head and forged head: {said}")
        self.run("document.querySelector('#entries button').click()")
        told = self.until("document.querySelector('#entries .good, #entries .bad')?.textContent", "a check has no outcome")
        hold(told.startswith("yes") and told.endswith(f"the root of {size}"), f"a check says {told}")
        self.run("document.getElementById('grow').click()")
        self.until("document.querySelector('#curve polyline').getAttribute('points')", "no growth is shown")

    def rate(self, size):
        """The rate is of the newest entries."""
        rate = self.run("[...document.querySelectorAll('#head dt')].find((e) => e.textContent === 'rate').nextSibling.textContent")
        hold(re.fullmatch(rf"\d+(\.\d)? entries a (second|minute|hour), by the newest {min(size, 256)}" if size <= 64 else r"\d+(\.\d)? entries a second, by the newest \d+", rate), f"the rate is told as {rate}")

    def roots(self, names):
        """The page has each root by its name."""
        self.run("document.getElementById('name').click()")
        told = self.until("document.querySelectorAll('#roots li').length && document.getElementById('roots').innerText", "no root is named")
        hold("a root to try a log with, until 20" in told and "not read" not in told and "without a name" not in told, f"the roots are told as {told}")
        hold(self.run("document.getElementById('named').textContent") == f"{names} root{'s' * (names > 1)}" and len(told.splitlines()) == names, f"other roots are named than {names}")

    def find(self, number, name):
        """The entry with this number, by its number, has that name."""
        self.run(f"(() => {{ const s = document.getElementById('search'); s.value = '#{number}'; s.oninput(); s.onchange(); }})()")
        row = "document.querySelectorAll('#entries tr').length === 1 && document.querySelector('#entries tr').innerText"
        told = self.until(row, f"the entry #{number} isn't found")
        hold(f"#{number}" in told and name in told, f"the entry #{number} is shown as {told}")
        self.run("(() => { const s = document.getElementById('search'); s.value = ''; s.oninput(); })()")

    def phone(self, name):
        self.browser.call("Emulation.setDeviceMetricsOverride", width=390, height=1600, deviceScaleFactor=1, mobile=True)
        hold(not self.run("document.documentElement.scrollWidth > 390"), f"the page is wider than a phone, with {name}")
        self.browser.call("Emulation.setDeviceMetricsOverride", width=1000, height=900, deviceScaleFactor=1, mobile=False)

    def without_script(self):
        self.browser.call("Emulation.setScriptExecutionDisabled", value=True)
        self.browser.call("Page.enable")
        self.browser.call("Page.reload")
        for _ in range(600):
            # (no expression has a value then, so the layout is read)
            shot = self.browser.call("DOMSnapshot.captureSnapshot", computedStyles=[])
            said = " ".join(shot["strings"][at] for at in shot["documents"][0]["layout"]["text"] if at >= 0)
            if "needs JavaScript" in said:
                break
            time.sleep(0.1)
        hold("needs JavaScript" in said and "Growth" not in said, f"without JavaScript the page says {said}")


def main():
    words = argparse.ArgumentParser()
    words.add_argument("--more", type=int)
    options = words.parse_args()
    if not shutil.which("chromium"):
        sys.exit("served_page.py: there is no chromium (apt-get install chromium)")
    with tempfile.TemporaryDirectory() as folder:
        work = pathlib.Path(folder)
        served, look = Served(work), None
        try:
            look = Look(work, served.base)
            look.size(0)
            look.phone("empty")
            for number, name in enumerate(NAMES):
                served.submit(number, name)
            size = len(NAMES)
            look.size(size)
            look.entries(size)
            look.rate(size)
            look.roots(served.roots())
            look.find(1, NAMES[1])
            look.phone("three")
            if options.more:
                served.load(options.more)
                size = served.size()
                hold(size >= options.more, f"the log has {size} entries of {options.more}")
                look.size(size)
                look.entries(size)
                look.rate(size)
                look.find(0, NAMES[0])
                look.phone("many")
            look.without_script()
        finally:
            if look:
                look.browser.end()
            served.end()
    print(f"The page of ctserve showed {size} entries. It checked paths and heads, and refused forged ones, on a phone too. Without JavaScript it says so.")


if __name__ == "__main__":
    main()
