#!/usr/bin/env python3
"""Compares the build option WAGTENIB_SHA_INSTRUCTIONS (dist/README.md) with the proved code.

    sha_instructions.py [--blocks 100000] [--seed 1]

1. Without the option, gcc makes the same object of the assembly as of the text without the option's lines, byte for byte, with and without the C preprocessor.
2. A program that has dist/sha_instructions.c but not the option in its assembly is not linked.
3. sha_instructions.c hashes --blocks random blocks by the option and by the proved code, in chains over random states, on this machine's processor and on arm64
   under qemu. It also hashes 1,025 leaves, which are compared with hashlib.
4. The same with a processor that lacks the instructions. There the option must call the proved code.
5. The tests of the Go package with the build tag wagtenib_sha_instructions, which compare --blocks blocks with crypto/sha256, the version line of the service's
   programs, and the tests of the Rust crates with the feature sha-instructions.

If this machine's processor lacks the instructions, 3 and the hashes of 5 also run under qemu-x86_64, which has them from version 8.2 on. 10,000,000 blocks take some
minutes there. A part whose program is not installed is left out, and the script says so. It ends with status 1 if something differs.
"""
import argparse
import hashlib
import os
import pathlib
import platform
import shutil
import subprocess
import sys
import tempfile

import arm64

HERE = pathlib.Path(__file__).resolve().parent
ROOT = HERE.parent.parent
DIST, PACKAGE, RUST = ROOT / "dist", ROOT / "bindings" / "go" / "wagtenib", ROOT / "bindings" / "rust"
NAME, TAG = "WAGTENIB_SHA_INSTRUCTIONS", "wagtenib_sha_instructions"
FLAGS = ["-std=c11", "-O2", "-Wall", "-Wextra", "-Werror", f"-I{ROOT / 'include'}", f"-D{NAME}", "-static"]
# How qemu emulates a processor with the instructions, and one without.
WITH, WITHOUT = ["qemu-x86_64", "-cpu", "max"], ["qemu-x86_64", "-cpu", "max,-sha-ni"]
LONGEST = 1024


def say(text):
    print(f"tests/library/sha_instructions.py: {text}", flush=True)


def fail(text):
    sys.exit(f"tests/library/sha_instructions.py: {text}")


def ran(words, **how):
    """Returns the output of a command. The script ends if it fails."""
    done = subprocess.run(words, stdout=subprocess.PIPE, stderr=subprocess.STDOUT, text=True, **how)
    if done.returncode:
        fail(f"{' '.join(map(str, words))} ends with status {done.returncode}:\n{done.stdout[-4000:]}")
    return done.stdout


def without_option(text):
    """The assembly without the lines from .ifc to .endif."""
    before, found, rest = text.partition(f"\t.ifc {NAME},1\n")
    option, end, after = rest.partition("\t.endif\n")
    if not found or not end or "wagtenib_compress" not in option or ".ifc" in after:
        fail("the assembly of dist/ does not have the lines of the option once")
    return before + after


def try_default(folder, processor, compiler):
    """The object without the option is that of the proved code."""
    source = DIST / f"libwagtenib_linux_{processor}.s"
    bare, preprocessed = folder / "bare.s", folder / "preprocessed.S"
    bare.write_text(without_option(source.read_text()))
    shutil.copyfile(source, preprocessed)
    objects = set()
    for one in (bare, source, preprocessed):
        ran([compiler, "-c", one, "-o", folder / "made.o"])
        objects.add((folder / "made.o").read_bytes())
    if len(objects) != 1:
        fail(f"the lines of the option change the code for {processor} of a build without the option")


def sources(processor):
    """The files of a program with the option, with the flag by which gcc has the preprocessor read the assembly."""
    files = [HERE / "sha_instructions.c", DIST / "memory.c", DIST / "sha_instructions.c"]
    return [*files, "-x", "assembler-with-cpp", DIST / f"libwagtenib_linux_{processor}.s"]


def try_half(folder, processor, compiler):
    """A program whose assembly lacks the option is not linked."""
    words = [word for word in sources(processor) if word not in ("-x", "assembler-with-cpp")]
    done = subprocess.run([compiler, *FLAGS, *words, "-o", folder / "half"], stderr=subprocess.PIPE, text=True)
    if done.returncode == 0 or "wagtenib_proved_compress" not in done.stderr:
        fail(f"for {processor}, a program was linked that has sha_instructions.c and whose assembly lacks the option")


def try_blocks(words, blocks, seed):
    """Has the program compare blocks. Returns whether its processor has the instructions."""
    had, *hashes = ran([*words, str(blocks), str(seed)]).split("\n")[:-1]
    leaf = bytes((i * i + 7) & 0xFF for i in range(LONGEST))
    if hashes != [hashlib.sha256(b"\0" + leaf[:length]).hexdigest() for length in range(LONGEST + 1)]:
        fail(f"{' '.join(map(str, words))}: a hash of a leaf is not that of hashlib")
    return had == "has"


def try_processor(folder, processor, compiler, options, emulators):
    """Tries the option on a processor. `emulators` are the words before the program, each with what the option must find there, or None if either is right."""
    try_default(folder, processor, compiler)
    try_half(folder, processor, compiler)
    made = folder / f"{processor}.program"
    ran([compiler, *FLAGS, *sources(processor), "-o", made])
    found = set()
    for before, due in emulators:
        if before and not shutil.which(before[0]):
            continue
        has = try_blocks([*before, made], options.blocks, options.seed)
        if due is not None and has != due:
            fail(f"{' '.join(before) or 'this processor'} {'has' if due else 'lacks'} the instructions, and the option does not see it")
        found.add(has)
        what = "by the instructions" if has else "by the proved code, as there are no instructions,"
        say(f"{processor}{', ' + ' '.join(before) if before else ''}: {options.blocks} blocks and {LONGEST + 1} leaves {what} have the right hashes")
    if True not in found:
        print(f"left out: the SHA instructions of {processor} (no processor or qemu here has them)")
    return True in found


def has_natively():
    """Whether this machine's processor has SHA-NI, as Linux says."""
    return " sha_ni " in pathlib.Path("/proc/cpuinfo").read_text().replace("\n", " ")


def known(has):
    """The variable by which the tests know whether the processor has the instructions."""
    return {"WAGTENIB_INSTRUCTIONS": "yes" if has else "no"}


def try_go(options, emulator):
    """The tests of the Go package with the build tag."""
    go = f'. "{ROOT}/deps/env.sh" && command -v go >/dev/null && exec go "$@"'
    if not (ROOT / "vendor" / "modules.txt").exists():
        return print("left out: the Go package with SHA instructions (Go and its modules are missing: make deps fetches them)")
    surroundings = {**os.environ, "WAGTENIB_BLOCKS": str(options.blocks), "CGO_ENABLED": "1"}
    words = ["bash", "-c", go, "go", "test", "-count=1", f"-tags={TAG}"]
    ran([*words, ".", "wagtenib/internal/command/version"], cwd=PACKAGE, env={**surroundings, **known(has_natively())})
    if emulator:
        ran([*words, "-exec", " ".join(emulator), "-run", "SHAInstructions", "."], cwd=PACKAGE, env={**surroundings, **known(True)})
    return say(f"the tests of the Go package pass with the tag{', and its hashes by the instructions' if emulator or has_natively() else ''}")


def try_rust(folder, emulator):
    """The tests of the Rust crates with the feature."""
    if not shutil.which("cargo"):
        return print("left out: the Rust crate with SHA instructions (there is no cargo)")
    surroundings = {**os.environ, **known(emulator or has_natively()), "CARGO_TARGET_DIR": str(folder / "target"), "CARGO_INCREMENTAL": "0"}
    if emulator:
        surroundings["CARGO_TARGET_X86_64_UNKNOWN_LINUX_GNU_RUNNER"] = " ".join(emulator)
    ran(["cargo", "test", "--offline", "--quiet", "--features", "sha-instructions", "-p", "wagtenib"], cwd=RUST, env=surroundings)
    return say(f"the tests of the Rust crate pass with the feature{', by the instructions' if emulator or has_natively() else ''}")


def main():
    parser = argparse.ArgumentParser()
    parser.add_argument("--blocks", type=int, default=100_000)
    parser.add_argument("--seed", type=int, default=1)
    options = parser.parse_args()
    if not shutil.which("gcc"):
        fail("gcc is not here: install it")
    with tempfile.TemporaryDirectory(prefix="wagtenib-sha-") as folder:
        folder = pathlib.Path(folder)
        if why := arm64.lacking():
            print(f"left out: arm64 ({why})")
        else:
            try_processor(folder, "arm64", arm64.COMPILER, options, [([arm64.QEMU], None)])
        if platform.machine() != "x86_64":
            return print("left out: amd64 (this machine is not an amd64)")
        native = has_natively()
        emulated = [] if native else [(WITH, None)]
        seen = try_processor(folder, "amd64", "gcc", options, [([], native), *emulated, (WITHOUT, False)])
        emulator = WITH if seen and not native else []
        try_go(options, emulator)
        return try_rust(folder, emulator)


if __name__ == "__main__":
    main()
