#!/usr/bin/env python3
"""Proves and builds crates and all crates that they depend on, the lowest ones first, and prints how long each one took.

    build.py CRATE ..

rt decides which crates must be proved. It is not asked about a library that is newer than its sources and those of its dependencies. What rt prints is
printed only if rt fails.
"""
import pathlib
import subprocess
import sys
import time

ROOT = pathlib.Path(__file__).resolve().parent.parent


class Crates:
    """The content of crates.txt."""

    def __init__(self):
        lines = [line.partition(":") for line in (ROOT / "crates.txt").read_text().splitlines() if line and line[0] != "#"]
        uses = {head.split()[0]: below.split() for head, _, below in lines}
        self.uses = {name: [it for it in below if it in uses] for name, below in uses.items()}
        self.archives = {head.split()[0] for head, _, _ in lines if "staticlib" in head.split()}

    def below(self, *names):
        """Returns these crates and all that they depend on, the lowest first."""
        found = {}
        for name in names:
            found.update(dict.fromkeys(self.below(*self.uses[name])))
            found[name] = None
        return [*found]

    def is_program(self, name):
        return (ROOT / "crates" / name / "src" / "main.rt").exists()

    def is_put_together(self, name):
        """Reports whether a crate is built for itself, and not for crates above it."""
        return self.is_program(name) or name in self.archives

    def sources(self, name):
        return [path for part in ("src", "specs", "proofs") for path in (ROOT / "crates" / name / part).rglob("*") if path.is_file() and not path.name.startswith(".")]

    def is_built(self, name):
        """Reports whether a library was built after its sources, and those of its dependencies, were last written."""
        built = ROOT / "crates" / name / "out" / "rlib" / "stamp"
        paths = [ROOT / "crates.txt", *(path for below in self.below(name) for path in self.sources(below))]
        return built.exists() and built.stat().st_mtime > max(path.stat().st_mtime for path in paths)

    def build(self, name):
        """Has rt prove and build a crate. Its dependencies must be built."""
        words = ["rt", "run", "--", "--help"] if self.is_program(name) else ["rt", "lib"]
        ran = subprocess.run(words, cwd=ROOT / "crates" / name, stdin=subprocess.DEVNULL, stdout=subprocess.PIPE, stderr=subprocess.STDOUT)
        if ran.returncode:
            sys.stderr.flush()
            sys.stderr.buffer.write(ran.stdout)
            sys.exit(f"build.py: {name} was not built: rt ended with status {ran.returncode}; what was proved is kept")


def main():
    crates = Crates()
    for name in crates.below(*sys.argv[1:]):
        if not crates.is_put_together(name) and crates.is_built(name):
            continue
        start = time.monotonic()
        print(f"{name}: ", end="", flush=True)
        crates.build(name)
        print(f"proved and built, in {time.monotonic() - start:.0f} s", flush=True)


if __name__ == "__main__":
    main()
