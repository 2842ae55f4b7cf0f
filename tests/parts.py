#!/usr/bin/env python3
"""Runs all tests that need no prover, and says what was not checked (make test).

    parts.py [BEGINNING ..]

PARTS has the commands. With arguments, the script runs only those that begin with one of them: `make test ONLY=checks/`, for example. go vet and the Go tests
use all processors, so each runs by itself. After them, as many other parts run at a time as there are processors. When a part ends, a line says what it came to.
Its output is printed only if it failed.

A part counts as one test, and the Go part as many as it has. A line that begins with 'left out: ' says what a part did not test, and why. A part that prints only
such lines is not counted. The last two lines are 'N passed, M failed', and what was not checked. The status is 0 if nothing failed.
"""
import collections
import concurrent.futures
import json
import os
import pathlib
import re
import subprocess
import sys
import time

ROOT = pathlib.Path(__file__).resolve().parent.parent
LEFT_OUT = "left out: "
GO_TESTS = "cmd/build.sh test"
# The parts that use all processors.
ALONE = ["cmd/build.sh vet", GO_TESTS]
# The others, those that take longest first.
PARTS = [
    *(f"tests/library/{name}.py" for name in ("refusals", "replays", "sha_instructions", "arm64")),
    *("tests/readme.py", "checks/allocation_errors.py", "checks/definitions.py"),
    *(f"tests/library/{name}.py" for name in ("proofs", "step", "guard", "witness", "monitor", "node", "names", "data_tiles", "texts", "cost", "rust")),
    *("bindings/python/tests/compare.py", "tests/scripts.py", "tests/checks.py", "tests/user_scripts.py", "release/prometheus/check.sh"),
    *("checks/fault_causes.py", "checks/loops.py", "checks/wrong_bodies.py", "checks/header.py", "checks/dist.py --sources"),
    *("docs/check.sh", "examples/demo.sh path"),
]
OTHERS = "the proofs (make prove), data races (make service-race), engines (make service-engines), other clients (make service-clients)"


class Ended:
    """What a part came to: how many tests passed and failed, what it left out, and what is shown of it if it failed."""

    def __init__(self, passed, failed, left_out=(), shown=""):
        self.passed, self.failed, self.left_out, self.shown = passed, failed, list(left_out), shown


def started(line):
    """Starts the command of a line."""
    script, *words = line.split()
    command = [*[sys.executable] * script.endswith(".py"), ROOT / script, *words]
    how = {"stdin": subprocess.DEVNULL, "stdout": subprocess.PIPE, "stderr": subprocess.STDOUT, "text": True, "errors": "replace"}
    return subprocess.Popen(command, cwd=ROOT, env={**os.environ, "PYTHONDONTWRITEBYTECODE": "1"}, **how)


def run(line):
    """Runs a command as one test."""
    part = started(line)
    said = part.communicate()[0]
    lines = said.splitlines()
    left_out = [one.removeprefix(LEFT_OUT) for one in lines if one.startswith(LEFT_OUT)]
    if part.returncode:
        return Ended(0, 1, left_out, said)
    return Ended(int(not lines or len(left_out) < len(lines)), 0, left_out)


def run_go():
    """Runs the Go tests, and says when a package is done. The subtests of a test count as one."""
    counts, left_out, said = collections.Counter(), collections.defaultdict(list), collections.defaultdict(list)
    # (go test alone simulates 300 histories; these take 85 to 105 seconds of a processor)
    os.environ.setdefault("SIM_HISTORIES", "10000")
    part, shown = started(f"{GO_TESTS} -timeout 1h -json"), []
    for line in part.stdout:
        try:
            event = json.loads(line)
        except ValueError:
            shown.append(line)
            continue
        package, test, action = event.get("Package", event.get("ImportPath", "")), event.get("Test", ""), event["Action"]
        if action in ("output", "build-output"):
            said[package, test.partition("/")[0]].append(event["Output"])
        elif action in ("pass", "fail", "skip") and "/" not in test:
            text = "".join(said.pop((package, test), []))
            counts[action] += bool(test)
            if action == "fail":
                shown.append(text)
            elif test and action == "skip":
                left_out[why(text)].append(test)
            if not test and action != "skip":
                print(f"      {package.removeprefix('wagtenib/')}: {action}, {event.get('Elapsed', 0):.0f} s", flush=True)
    shown += ["".join(texts) for texts in said.values()]
    is_wrong = part.wait() != 0 or not counts["pass"]
    told = [f"{', '.join(tests)} ({reason})" for reason, tests in left_out.items()]
    return Ended(counts["pass"], max(counts["fail"], int(is_wrong)), told, "".join(shown) if is_wrong else "")


def why(text):
    """Returns the reason in what go test prints of a test that was left out, after the name of the file and the line."""
    return next(iter(re.findall(r"^\s+\w+\.go:\d+: (.*)$", text, re.M)), "no reason is given")


class Progress:
    """Counts the parts, and says what each came to."""

    def __init__(self, of):
        self.of, self.ended, self.passed, self.failed, self.left_out = of, 0, 0, 0, []

    def tell(self, line, ended, seconds):
        self.ended += 1
        self.passed, self.failed = self.passed + ended.passed, self.failed + ended.failed
        self.left_out += ended.left_out
        told = f"{ended.failed} FAILED" if ended.failed else f"{ended.passed} passed" if ended.passed else "left out"
        print(ended.shown, end="" if ended.shown.endswith("\n") or not ended.shown else "\n")
        print(f"[{self.ended}/{self.of}] {line}: {told}, {seconds:.0f} s", flush=True)


def run_parts(parts, at_a_time, progress):
    """Runs commands, some at a time, and says what each came to."""

    def timed(line):
        began = time.monotonic()
        ended = run_go() if line == GO_TESTS else run(line)
        return line, ended, time.monotonic() - began

    with concurrent.futures.ThreadPoolExecutor(at_a_time) as pool:
        for done in concurrent.futures.as_completed([pool.submit(timed, line) for line in parts]):
            progress.tell(*done.result())


def main():
    wanted = tuple(sys.argv[1:])
    unknown = [word for word in wanted if not any(line.startswith(word) for line in (*ALONE, *PARTS))]
    if unknown:
        print(f"parts.py: no part begins with \"{unknown[0]}\" (name beginnings of these: {', '.join((*ALONE, *PARTS))})", file=sys.stderr)
        sys.exit(2)
    parts = [line for line in (*ALONE, *PARTS) if line.startswith(wanted or "")]
    processors = len(os.sched_getaffinity(0))
    is_all = len(parts) == len(ALONE) + len(PARTS)
    print(f"{len(parts)} parts on {processors} processors{f', in {max(5, 60 // processors)} minutes at most' if is_all else ''}.", flush=True)
    progress = Progress(len(parts))
    run_parts([line for line in parts if line in ALONE], 1, progress)
    run_parts([line for line in parts if line not in ALONE], processors, progress)
    print(f"{progress.passed} passed, {progress.failed} failed")
    not_checked = [OTHERS, *["all other parts"] * (not is_all), *dict.fromkeys(progress.left_out)]
    print(f"Not checked: {'; '.join(not_checked)}.")
    sys.exit(1 if progress.failed else 0)


if __name__ == "__main__":
    main()
