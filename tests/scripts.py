#!/usr/bin/env python3
"""Tries the scripts of examples/ and of this folder. It compares expected.py with the stored replies and with the sessions; has check.py refuse damaged outputs;
and compares what pem_lines.py makes with the files in the tree. It looks for names that no script in Python defines, and runs shellcheck over the others.

It prints one line if everything is as expected. Otherwise it names the fault, and ends with status 1.
"""
import argparse
import ast
import builtins
import dis
import itertools
import json
import pathlib
import re
import shutil
import subprocess
import sys
import tempfile
import textwrap
import types

from check import Wrong, checked
from expected import outcome
from sessions import read_sessions

HERE = pathlib.Path(__file__).resolve().parent
EXAMPLES = HERE.parent / "examples"

NO_REQUEST = b"this line is no request"
# The stored inputs, each with the fronts, ring and moments under which its replies are expected.
INPUTS = {
    "first-session": "1 4096 0 7",
    "real-chains": "1 32 1767225600000 1767225660000",
    "four-fronts": "4 32 1767225600000 1767225660000",
}


def fail(why):
    sys.exit(f"scripts.py: {why}")


def run(script, *words, given=b""):
    folder = EXAMPLES if (EXAMPLES / script).exists() else HERE
    return subprocess.run([sys.executable, folder / script, *map(str, words)], input=given, capture_output=True)


def lines_of(name):
    return (EXAMPLES / f"{name}.jsonl").read_bytes().splitlines()


def pem_of(chain):
    """A PEM file of a chain given in base64, with text between the certificates."""
    blocks = ["\n".join(["-----BEGIN CERTIFICATE-----", *textwrap.wrap(text, 64), "-----END CERTIFICATE-----"]) for text in chain]
    return "\n   subject and issuer\n".join(blocks) + "\n"


def try_refusal(file, what, why):
    ran = run("pem_lines.py", file)
    if ran.returncode != 1 or ran.stdout or why not in ran.stderr.decode():
        fail(f"pem_lines.py doesn't refuse {what} as it should: {ran.stderr.decode()}")


def try_pem(folder):
    """The chains of the demo, written as PEM files, give the demo's lines again. A file without a certificate is refused."""
    requests = [(line, json.loads(line)) for line in lines_of("real-chains") if line != NO_REQUEST]
    chains = {line: request["chain"] for line, request in requests if request["op"] == "add-chain" and request["chain"]}
    files = [folder / f"{number:02}.pem" for number in range(len(chains))]
    for file, chain in zip(files, chains.values()):
        file.write_text(pem_of(chain))
    ran = run("pem_lines.py", *files)
    if ran.returncode or ran.stdout.splitlines() != list(chains):
        fail(f"pem_lines.py makes other lines than those of real-chains.jsonl: {ran.stderr.decode()}")
    if f"--ring {len(files)} or more\n" not in ran.stderr.decode():
        fail(f"pem_lines.py doesn't say that these lines need {len(files)} places: {ran.stderr.decode()}")
    precert = next(request for _, request in requests if request["op"] == "add-pre-chain" and request["chain"])
    (folder / "precert.pem").write_text(pem_of(precert["chain"]))
    try_refusal(folder / "precert.pem", "a precertificate", "is a precertificate")
    (folder / "cut.pem").write_text(pem_of([next(iter(chains.values()))[0][:256]]))
    try_refusal(folder / "cut.pem", "a certificate that is cut off", "one value of DER")
    try_refusal(EXAMPLES / "real-chains.jsonl", "a file of no certificate", "no certificate")
    return len(chains)


def damages(replies):
    """Ways to damage the replies of a log, each with what the damage is: a reply dropped, twice, or cut in half, a number raised, a letter of base64 changed."""
    for place, reply in enumerate(replies):
        before, behind = replies[:place], replies[place + 1 :]
        yield f"{reply[:60]} dropped", before + behind
        yield f"{reply[:60]} twice", [*before, reply, reply, *behind]
        yield f"{reply[:60]} cut in half", [*before, reply[: len(reply) // 2], *behind]
        for key in re.findall(r'"(ticket|settled|accepted|leaf_index|tree_size)":\d', reply):
            yield f"{key} of {reply[:60]} raised", [*before, re.sub(rf'(?<="{key}":)\d+', lambda found: str(int(found[0]) + 1), reply), *behind]
        for key in re.findall(r'"(audit_path|consistency|leaf_input|sha256_root_hash)":\[?"', reply):
            yield f"{key} of {reply[:60]} changed", [*before, re.sub(rf'("{key}":\[?")(.)', lambda found: found[1] + ("B" if found[2] != "B" else "C"), reply, count=1), *behind]


def try_check():
    """check.py takes the replies that are expected of four fronts, with their tickets in order, and refuses each damaged output."""
    given, numbers = (EXAMPLES / "four-fronts.jsonl").read_text(), itertools.count()
    expected = (EXAMPLES / "four-fronts.expected.jsonl").read_text()
    written = re.sub(r'(?<="ticket":)_', lambda _: str(next(numbers)), expected)
    checked(4, given, written)
    count = 0
    for what, replies in damages(written.splitlines()):
        try:
            checked(4, given, "\n".join(replies) + "\n")
        except (Wrong, KeyError, IndexError, ValueError):
            count += 1
            continue
        fail(f"check.py doesn't refuse an output with {what}")
    return count


BAD_LINES = "\n".join(['{"error":"bad-line"}'] * 3)


def try_sessions(folder):
    """The expected output of the sessions of ctlog is that of expected.py. If a program replies with three bad lines to each session, sessions.py names every
    session that expects something else."""
    options = argparse.ArgumentParser()
    for name, value in (("--fronts", None), ("--ring", None), ("--open-at", 0), ("--close-at", (1 << 53) - 1)):
        options.add_argument(name, type=int, default=value)
    sessions = read_sessions()
    for session in sessions:
        words = options.parse_args(session.words)
        lines, fault = outcome(words.fronts, words.ring, words.open_at, words.close_at, session.given)
        told = (1, f"ctlog: {fault}\n") if fault else (0, "")
        output = re.sub(r'(?<={"ticket":)\d+', "_", session.output.decode()) if words.fronts > 1 else session.output.decode()
        if (output, session.status, session.told.decode()) != ("".join(f"{line}\n" for line in lines), *told):
            fail(f"the session {session.name} in {session.file} expects another reply than expected.py computes: {lines}, {told}")
    program = folder / "ctlog" / "out" / "ctlog"
    program.parent.mkdir(parents=True)
    program.write_text(f"#!/bin/sh\ncat >/dev/null\necho '{BAD_LINES}'\n")
    program.chmod(0o755)
    due = [session.output.decode() == f"{BAD_LINES}\n" and not session.status for session in sessions]
    ran = run("sessions.py", folder)
    named = [f"\n{session.file}: {session.name} " in f"\n{ran.stdout.decode()}" for session in sessions]
    if ran.returncode != 1 or named != [not is_due for is_due in due]:
        fail(f"sessions.py of a program with three replies: status {ran.returncode}, {ran.stdout.decode()}")
    return len(sessions)


def codes(code):
    """A compiled text, and the functions and classes in it."""
    yield code
    for constant in code.co_consts:
        if isinstance(constant, types.CodeType):
            yield from codes(constant)


def faults_of_names(text):
    """The names of a script that nothing defines, and its imports that nothing uses."""
    known, loaded = {*dir(builtins), "__annotations__", "__file__", "__module__", "__qualname__"}, set()
    for instruction in itertools.chain(*map(dis.get_instructions, codes(compile(text, "script", "exec")))):
        if instruction.opname in ("STORE_NAME", "STORE_GLOBAL"):
            known.add(instruction.argval)
        elif instruction.opname in ("LOAD_NAME", "LOAD_GLOBAL"):
            loaded.add(instruction.argval)
    imports = [each for node in ast.walk(ast.parse(text)) if isinstance(node, (ast.Import, ast.ImportFrom)) for each in node.names]
    names = {(each.asname or each.name).partition(".")[0] for each in imports} - {"annotations"}
    unused = {name for name in names if len(re.findall(rf"\b{name}\b", text)) == 1}
    return [*(f"{name} is not defined" for name in sorted(loaded - known)), *(f"{name} is imported, and not used" for name in sorted(unused))]


def try_names():
    """Each name in the scripts in Python is defined, and each import is used. Some scripts need engines or hours, so that no test runs them."""
    if faults_of_names("import os\nimport re\nprint(os.sep, absent)\n") != ["absent is not defined", "re is imported, and not used"]:
        fail("it finds no undefined name, or no unused import, in a text that has both")
    root = HERE.parent
    scripts = [path for folder in ("bench", "bindings/python", "checks", "cmd", "deps", "examples", "release", "tests") for path in sorted((root / folder).rglob("*.py"))]
    scripts = [path for path in scripts if "out" not in path.relative_to(root).parts and path.name != "__init__.py"]
    for path in scripts:
        for fault in faults_of_names(path.read_text()):
            fail(f"{path.relative_to(root)}: {fault}")
    return len(scripts)


def try_shell():
    """shellcheck warns of nothing in the shell scripts. Without shellcheck it isn't tried, and says so."""
    root = HERE.parent
    folders = (".ci", "bench", "checks", "cmd", "deps", "dist", "docs", "examples", "release", "tests")
    files = [path for folder in folders for path in sorted((root / folder).rglob("*")) if path.is_file() and "out" not in path.relative_to(root).parts]
    scripts = [path.relative_to(root) for path in files if re.match(rb"#!.*\b(bash|sh)\n", path.open("rb").readline())]
    if not shutil.which("shellcheck"):
        print("left out: shellcheck of the shell scripts (shellcheck is not installed)")
        return 0
    ran = subprocess.run(["shellcheck", "--severity=warning", "--format=gcc", *scripts], cwd=root, capture_output=True, text=True)
    if ran.returncode:
        fail(f"shellcheck warns:\n{ran.stdout}{ran.stderr}")
    return len(scripts)


def main():
    outputs = try_check()
    with tempfile.TemporaryDirectory() as folder:
        chains = try_pem(pathlib.Path(folder))
    with tempfile.TemporaryDirectory() as folder:
        sessions = try_sessions(pathlib.Path(folder))
    shell, python = try_shell(), try_names()
    for name, words in INPUTS.items():
        ran = run("expected.py", *words.split(), given=(EXAMPLES / f"{name}.jsonl").read_bytes())
        if ran.stdout != (EXAMPLES / f"{name}.expected.jsonl").read_bytes():
            fail(f"expected.py computes other replies than {name}.expected.jsonl")
    print(f"tests/scripts.py: as expected, over {chains} chains, {len(INPUTS)} inputs, {sessions} sessions, {outputs} damaged outputs, {shell} scripts for shells and {python} in Python.")


if __name__ == "__main__":
    main()
