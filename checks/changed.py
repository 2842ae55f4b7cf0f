#!/usr/bin/env python3
"""Proves the crates that changed: each crate whose own text, or what it reads from its dependencies, changed since it was last proved here.

A crate reads the contracts, specs and proofs of its dependencies, but not their bodies. So if only a body changed, that crate is proved, and no crate that
depends on it. `make prove` proves everything from scratch, and decides. This script is for daily work (make check): it proves crates of tests and measurements as
programs, without their tests. A checksum of everything with which a crate was last proved is in crates/NAME/out/proved. If a crate was changed during its
proof, the checksum is unknown, and the file is deleted.
"""
import hashlib
import importlib.util
import os
import pathlib
import re
import subprocess
import sys
import time

ROOT = pathlib.Path(__file__).resolve().parent.parent
SPEC = importlib.util.spec_from_file_location("build", ROOT / "examples" / "build.py")
BUILD = importlib.util.module_from_spec(SPEC)
SPEC.loader.exec_module(BUILD)


def sum_of(paths, top):
    """Returns one checksum of the names of these files below a folder and of their bytes."""
    found = hashlib.sha256()
    for path in sorted(paths):
        bytes_of = path.read_bytes()
        found.update(repr((str(path.relative_to(top)), len(bytes_of))).encode() + bytes_of)
    return found.hexdigest()


class Check:
    """The state of the last proofs, and what each crate reads now."""

    def __init__(self):
        self.crates = BUILD.Crates()
        kit = subprocess.run(["rt", "version"], capture_output=True, text=True, check=True).stdout
        self.kit = kit + (ROOT / "HANDLES").read_text()
        self.lines = {re.split(r"[ :]", line)[0]: line for line in (ROOT / "crates.txt").read_text().splitlines()}
        self.reads = {}

    def rlib(self, name):
        return ROOT / "crates" / name / "out" / "rlib" / f"{name}.rlib"

    def read_of(self, name):
        """Returns a checksum of the parts of a library that dependent proofs read: everything except compiled code and sums over it. None if it is not built."""
        if name not in self.reads:
            top, paths = self.rlib(name), []
            for at, folders, files in os.walk(top):
                folders[:] = [folder for folder in folders if folder != "toolchain"]
                paths += [pathlib.Path(at, file) for file in files if file not in ("format", "made.json")]
            self.reads[name] = sum_of(paths, top) if paths else None
        return self.reads[name]

    def now(self, name):
        """Returns a checksum of everything that the proof of a crate reads, or None if a library that it depends on is not built."""
        below = [self.read_of(it) for it in self.crates.below(name)[:-1]]
        own = sum_of(self.crates.sources(name), ROOT / "crates" / name)
        return hashlib.sha256(repr((self.kit, self.lines[name], own, below)).encode()).hexdigest() if None not in below else None

    def prove(self, name):
        """Proves a crate, and builds it if others depend on it, in one run. Reports whether that succeeded. If not, `rt check` shows more about the open goals."""

        def does(word):
            return subprocess.run(["rt", word], cwd=ROOT / "crates" / name, stdin=subprocess.DEVNULL).returncode == 0

        if self.crates.is_program(name):
            return does("check")
        return does("lib") or (does("check") and does("lib"))


def main():
    start, check = time.monotonic(), Check()
    names = check.crates.below(*check.crates.uses)
    proved = 0
    for name in names:
        kept = ROOT / "crates" / name / "out" / "proved"
        sum_now = check.now(name)
        if sum_now is not None and kept.exists() and kept.read_text() == sum_now and (check.crates.is_put_together(name) or check.rlib(name).exists()):
            continue
        print(f"{name}: it changed, or what it reads from its dependencies", flush=True)
        if not check.prove(name):
            sys.exit(f"{name} is not proved (the lines above say why)")
        if check.now(name) != sum_now:
            kept.unlink(missing_ok=True)
            sys.exit(f"{name} was changed while it was proved (run make check again)")
        check.reads.pop(name, None)
        kept.write_text(sum_now or "")
        proved += 1
    print(f"{len(names)} crates proved, {proved} of them now, in {int(time.monotonic() - start)} s. This leaves out tests and wrong bodies (make prove), and all that needs no prover (make test).")


if __name__ == "__main__":
    main()
