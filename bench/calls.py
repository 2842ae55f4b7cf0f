#!/usr/bin/env python3
"""Times calls of the Go package, and equal work by the Go libraries, by turns.

    calls.py [--turns 9]

It builds bench/calls by Go (make deps fetches it), and runs it --turns times. If the processor has SHA instructions, it also builds it with the build tag
wagtenib_sha_instructions (dist/README.md), and runs the two by turns. Each figure is the least of the turns: the processor time of one call (user and system), and the
median of a turn by the clock. A ratio is the median of those of the turns, so what else the machine does falls on both sides.
"""
import argparse
import os
import pathlib
import re
import statistics
import subprocess
import tempfile

HERE = pathlib.Path(__file__).resolve().parent
DEPS = HERE.parent / "deps"
TAG = "wagtenib_sha_instructions"


def built(folder):
    """The programs by the end of their names."""
    programs = {}
    for end, tags in (("", ""), (" with SHA instructions", TAG)):
        made = folder / f"calls{len(programs)}"
        subprocess.run([DEPS / "go", "-C", DEPS.parent, "build", f"-tags={tags}", "-o", made, "./bench/calls"], check=True, env={**os.environ, "CGO_ENABLED": "1"})
        if not end or subprocess.run([made, "--has-sha-instructions"], capture_output=True, text=True, check=True).stdout == "true\n":
            programs[end] = made
    return programs


def run(program):
    """The figures of one run: the processor time and the time by the clock of each work."""
    told = subprocess.run([program], capture_output=True, text=True, check=True).stdout
    return {name: (int(processor), int(clock)) for name, processor, clock in (line.split("\t") for line in told.splitlines())}


def shown(nanoseconds):
    """A time with three digits."""
    unit, of = next((unit, of) for unit, of in (("ms", 1e6), ("µs", 1e3), ("ns", 1)) if nanoseconds >= of or of == 1)
    return f"{nanoseconds / of:.3g} {unit}"


def machine():
    """The machine's processor, and its load."""
    found = re.search(r"model name\s*: (.*)", pathlib.Path("/proc/cpuinfo").read_text())
    return f"{found[1] if found else os.uname().machine}, {os.cpu_count()} processors, load {os.getloadavg()[0]:.1f}"


def main():
    parser = argparse.ArgumentParser()
    parser.add_argument("--turns", type=int, default=9)
    turns = []
    with tempfile.TemporaryDirectory(prefix="wagtenib-calls-") as folder:
        programs = built(pathlib.Path(folder))
        for _ in range(parser.parse_args().turns):
            turns.append({f"{name}{end}": figures for end, program in programs.items() for name, figures in run(program).items()})
    print(machine() + ("" if len(programs) > 1 else "; no SHA instructions"))
    print("| Call | processor time | latency | over Go's libraries | over the proved SHA-256 |\n|---|---|---|---|---|")
    for name in turns[0]:
        if "/Go" in name:
            continue
        ratios = []
        for other in (f"{name}/Go", name.partition(" with SHA")[0]):
            found = [turn[name][0] / turn[other][0] for turn in turns if other in turn and other != name]
            ratios.append(f"{statistics.median(found):.2f}" if found else "")
        least = [shown(min(turn[name][kind] for turn in turns)) for kind in (0, 1)]
        print(f"| {name} | {' | '.join(least)} | {' | '.join(ratios)} |")
    for name in turns[0]:
        if name.endswith("/Go"):
            print(f"| {name} | {' | '.join(shown(min(turn[name][kind] for turn in turns)) for kind in (0, 1))} | | |")


if __name__ == "__main__":
    main()
