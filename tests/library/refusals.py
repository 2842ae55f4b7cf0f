#!/usr/bin/env python3
"""Refuses memory to each function of libwagtenib, as gcc makes it of dist/, and compares what it takes with include/wagtenib.h.

    refusals.py

refusals.c wraps the functions while other comparisons run over them. Each call is made again with one growth of memory refused, and must return
OUT_OF_MEMORY then. After every call all memory must be given back, and no call may use more stack or more memory than the header says. large.py makes calls that take much
memory. Each function must be called, and each that takes memory must have been refused some. Without gcc for this processor it says so.
"""
import fnmatch
import os
import pathlib
import platform
import re
import shutil
import sys
import tempfile

import signatures

HERE = pathlib.Path(__file__).resolve().parent
HEADER = signatures.HEADER
# The stack that the header states for each function, in bytes.
STACK = 16 << 10

# The function that is there only in a build with the processor's SHA instructions, which sha_instructions.py tries. It takes no memory.
ONLY_WITH_THE_OPTION = {"wagtenib_has_sha_instructions"}

# The lines in which it says of groups of functions how many bytes of memory a call takes at most for each byte of its arguments, and how much beyond these.
MEMORY = re.compile(r"^ \*   (wagtenib_[\w*]+(?:, wagtenib_[\w*]+)*) +(\d+) bytes? and (\d+) (KB|MB)$", re.M)


def memory_of(name):
    """How many bytes of memory a function may take for each byte of its arguments, and how many beyond these. A function that the header does not name takes none."""
    for names, multiple, more, unit in MEMORY.findall(HEADER):
        if any(fnmatch.fnmatchcase(name, one) for one in names.split(", ")):
            return int(multiple), int(more) << (20 if unit == "MB" else 10)
    return 0, 0


def library_in(folder):
    """The library whose functions refusals.c wraps."""
    multiples = (f"#define MULTIPLE_{name} {memory_of(name)[0]}\n" for name, _, _ in signatures.functions())
    (folder / "multiples.h").write_text("".join(multiples))
    return signatures.wrapped(folder, "-O2", "-Wall", HERE / "refusals.c")


def faults(told):
    """The faults of a run."""
    names = set(re.findall(r"^\w+ (wagtenib_\w+)\(", HEADER, re.M)) - ONLY_WITH_THE_OPTION
    said = re.search(r"The stack has (\d+) KB left\.", HEADER)
    if not said or int(said[1]) << 10 != STACK:
        yield "the header has another sentence about the stack"
    for name in sorted(names - set(told)):
        yield f"{name} is not called"
    for name, (calls, refused, wrong, kept, stack, memory, excess) in sorted(told.items()):
        if not calls:
            yield f"{name} is not called"
        if memory and not refused:
            yield f"{name} takes memory, and none was refused"
        if excess > memory_of(name)[1]:
            yield f"{name} takes {excess} bytes of memory beyond {memory_of(name)[0]} for each byte of its arguments"
        if wrong:
            yield f"{name}: {wrong} of {refused} calls without memory do not return OUT_OF_MEMORY"
        if kept:
            yield f"{name}: {kept} calls did not give back all memory"
        if stack > STACK:
            yield f"{name}: {stack} bytes of stack"


def main():
    if not shutil.which("gcc") or platform.machine() not in ("x86_64", "aarch64"):
        print("left out: tests/library/refusals.py (there is no gcc for a processor of dist/)")
        return 0
    with tempfile.TemporaryDirectory(prefix="wagtenib-refusals-") as folder:
        folder = pathlib.Path(folder)
        library, report = library_in(folder), folder / "report"
        signatures.run_over(library, "tests/library/refusals.py", ["large.py"], at_a_time=len(os.sched_getaffinity(0)), REFUSALS=str(report))
        told = {}
        for line in report.read_text().splitlines():
            name, *numbers = line.split()
            numbers, before = list(map(int, numbers)), told.get(name, [0] * 7)
            told[name] = [*(a + b for a, b in zip(numbers[:4], before)), *map(max, numbers[4:], before[4:])]
    found = list(faults(told))
    for fault in found:
        print(f"tests/library/refusals.py: {fault}")
    deepest = max(told, key=lambda name: told[name][4])
    print(f"tests/library/refusals.py: {sum(counts[0] for counts in told.values())} calls of {len(told)} functions, {sum(counts[1] for counts in told.values())} without memory; "
          f"{deepest} uses most stack, {told[deepest][4]} bytes")
    return 1 if found else 0


if __name__ == "__main__":
    sys.exit(main())
