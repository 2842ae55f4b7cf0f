#!/usr/bin/env python3
"""Checks that dist/ has the code that the proved sources make.

    dist.py [--sources | --write]

The generated files of dist/ are the assembly of libwagtenib for each processor, as the kit's compiler makes it, without its comments, and with the lines of a build option that is off by default (sha_instructions.c); NOTICE, with the licences
of the kit's crates whose code is in it; and SOURCES, which says what all of this is made of. With --sources, or without the kit, the script compares SOURCES
with the checkout: a sum over the code of each crate that the library is made of (without comments and clauses, from which no code is made), and with the kit
the logic of the kit (README.md names the kits of one logic). Otherwise it builds the library once more for each processor, over the crates as they are proved and built in crates/*/out, and compares each
byte. It also has the kit's assembler make an object of the text, which must be the very object that the proved library is. With --write it writes the files.
The Go package in bindings/go/wagtenib has copies of the assembly, of memory.c, of sha_instructions.c and of include/wagtenib.h, because `go build` compiles what its
folder has. The script always compares these copies, byte for byte, and with --write it writes them too.
It prints what differs, and ends with status 1 if something does.
"""
import hashlib
import pathlib
import re
import shlex
import shutil
import subprocess
import sys
import tempfile

from source import CRATES, ROOT, blanked, sources, without_clauses

DIST = ROOT / "dist"
LIBRARY = "libwagtenib"
# For each processor the kit's name of the target, and the oldest of its kind, whose code runs on all of them.
TARGETS = {"amd64": ("x86_64-unknown-linux-gnu", "x86-64"), "arm64": ("aarch64-unknown-linux-gnu", "generic")}
# Flags with which the kit's assembler fills gaps as its compiler does.
PADDING = {"amd64": ["-march=x86-64-v2"], "arm64": []}
REMEDY = "make dist makes it again, with the kit"
# The folder of the Go package, and the files of which it has copies. `go build` has the C preprocessor read a file .S, by which a build tag can set the option below.
BINDINGS = ROOT / "bindings" / "go" / "wagtenib"
COPIED = {
    **{DIST / f"{LIBRARY}_linux_{processor}.s": BINDINGS / f"{LIBRARY}_linux_{processor}.S" for processor in TARGETS},
    **{of: BINDINGS / of.name for of in (DIST / "memory.c", DIST / "sha_instructions.c", ROOT / "include" / "wagtenib.h")},
}
# A build option of dist/sha_instructions.c, at the start of the function that hashes a block. These lines make no code if the file is assembled as it is: the texts
# are equal only if the C preprocessor has put 1 for the name.
COMPRESS = '"sha2::block256::compress":\n'
JUMPS = {"amd64": "jmp", "arm64": "b"}
OPTION = """\
	.ifc WAGTENIB_SHA_INSTRUCTIONS,1
	.hidden	wagtenib_compress
	{jump}	wagtenib_compress
	.globl	wagtenib_proved_compress
	.hidden	wagtenib_proved_compress
	.type	wagtenib_proved_compress,@function
wagtenib_proved_compress:
	.endif
"""
COMMENT = re.compile(r"//[^\n]*|/\*.*?\*/|(\"(?:\\.|[^\"\\])*\"|'(?:\\.|[^'\\])')", re.S)
# The script that the compiler calls as clang: it runs clang once with -c, and once more for the text.
CLANG = """#!/bin/sh
{clang} "$@" || exit
left=$#
while [ $left -gt 0 ]; do
  word=$1
  shift
  left=$((left - 1))
  case $word in
    -c) set -- "$@" -S ;;
    -o) cp "$1" {kept}/code.o || exit; shift; left=$((left - 1)); set -- "$@" -o {kept}/code.s ;;
    *) set -- "$@" "$word" ;;
  esac
done
exec {clang} "$@"
"""


def uses():
    """Returns the line of each crate of crates.txt, and its dependencies, including libraries of the kit."""
    found = {}
    for line in (ROOT / "crates.txt").read_text().splitlines():
        if line and not line.startswith("#"):
            head, _, below = line.partition(":")
            found[head.split()[0]] = (line, below.split())
    return found


def made_of(listed):
    """Returns the repository's crates that the library is made of, dependencies first."""
    found = {}

    def take(name):
        for below in listed[name][1]:
            if below in listed and below not in found:
                take(below)
        found[name] = None

    take(LIBRARY)
    return [*found]


def code(text):
    """Returns the text of a source without comments, clauses and layout."""
    bare = blanked(text)
    kept = COMMENT.sub(lambda found: found[1] or re.sub(r"[^\n]", " ", found[0]), text)
    ghostless = without_clauses(bare)
    return " ".join("".join(" " if one != other else char for one, other, char in zip(bare, ghostless, kept)).split())


def sum_of(crate, line):
    """Returns a checksum of the sources that the code of a crate is made from."""
    found = hashlib.sha256(line.encode())
    for path in sources(crate):
        found.update(f"\n{path.relative_to(CRATES).as_posix()}\n{code(path.read_text())}".encode())
    return found.hexdigest()


def kit():
    """Returns the folder of the kit, or None."""
    rt = shutil.which("rt")
    return rt and pathlib.Path(rt).resolve().parent.parent


def said_of_sources(kit_name):
    """Returns the text of SOURCES."""
    listed = uses()
    lines = ["# What dist/ is made of. Made by checks/dist.py --write.", f"kit: {kit_name}"]
    lines += [f"{processor}: --target {target} --cpu {cpu}" for processor, (target, cpu) in TARGETS.items()]
    lines += [f"{crate}: {sum_of(crate, listed[crate][0])}" for crate in made_of(listed)]
    return "".join(f"{line}\n" for line in lines)


def kit_name(is_written=False):
    """Returns the name of the kit for SOURCES: the one that is there, unless the file is written or the kit here has another logic. (Kits of one logic prove
    alike, and the code that they make is compared byte for byte.)"""
    said = re.search(r"^kit: (.*)$", (DIST / "SOURCES").read_text(), re.M) if (DIST / "SOURCES").exists() else None
    if not kit():
        return said[1] if said else "unknown"
    here = subprocess.run(["rt", "version"], capture_output=True, text=True, check=True).stdout.strip()
    is_alike = said and said[1].partition(" logic ")[2] == here.partition(" logic ")[2]
    return said[1] if is_alike and not is_written else here


def toolchain(folder, of_kit, kept):
    """Makes a folder like the kit's toolchain, whose clang also keeps the object and the assembly."""
    (folder / "bin").mkdir(parents=True)
    (folder / "lib").symlink_to(of_kit / "lib")
    for tool in (of_kit / "bin").iterdir():
        if tool.name != "clang":
            (folder / "bin" / tool.name).symlink_to(tool)
    clang = folder / "bin" / "clang"
    clang.write_text(CLANG.format(clang=shlex.quote(str(of_kit / "bin" / "clang")), kept=shlex.quote(str(kept))))
    clang.chmod(0o755)


def words_of_build(top, listed):
    """Returns the arguments of `rattle build` for the library, except its target and its output."""
    own = listed[LIBRARY][1]
    words = ["build", "--crate-name", LIBRARY, "src/lib.rt", "--extern", f"std={top}/rlibs/std.rlib"]
    for name in own:
        words += ["--extern", f"{name}={CRATES / name / 'out' / 'rlib' if name in listed else top / 'rlibs'}/{name}.rlib"]
    words += ["-L", f"dependency={top}/rlibs"]
    for name in made_of(listed)[:-1]:
        words += ["-L", f"dependency={CRATES / name / 'out' / 'rlib'}"]
    words += ["--antt-project", f"{top}/rattle/logic/antt-project.json", "--logic-built", f"{top}/logic_built"]
    return [*words, "--jobs", "1", "--links", f"{LIBRARY}=", "--crate-type", "staticlib", "--backend", "llvm"]


def plain(text):
    """Returns the assembly in a form that any assembler accepts: without comments, empty lines and the lines .addrsig, which only clang knows."""
    found = []
    for line in text.splitlines():
        if not re.match(r"\s*\.(?:ascii|asciz|string)\b", line):
            line = re.sub(r"\s+(?:#|//) .*$", "", line)
        if line.strip() and not re.match(r"\s*(?:#|//|\.addrsig)", line):
            found.append(line)
    return "".join(f"{line}\n" for line in found)


def with_option(text, processor):
    """Returns the assembly with the lines of the build option."""
    if text.count(COMPRESS) != 1:
        sys.exit(f"checks/dist.py: the assembly for {processor} has {text.count(COMPRESS)} functions that hash a block: change COMPRESS in this script")
    return text.replace(COMPRESS, COMPRESS + OPTION.format(jump=JUMPS[processor]))


def is_the_object(text, processor, kept, clang, work):
    """Reports whether the kit's assembler makes this text into the library's object, after the lines .addrsig are added back."""
    marks = "".join(f"{line}\n" for line in (kept / "code.s").read_text().splitlines() if re.match(r"\s*\.addrsig", line))
    (work / "text.s").write_text(text + marks)
    subprocess.run([clang, f"--target={TARGETS[processor][0]}", *PADDING[processor], "-c", work / "text.s", "-o", work / "text.o"], check=True)
    return (work / "text.o").read_bytes() == (kept / "code.o").read_bytes()


def assembly(processor, top, work):
    """Returns the assembly of the library for a processor, made from the sources."""
    listed = uses()
    absent = [name for name in made_of(listed)[:-1] if not (CRATES / name / "out" / "rlib" / f"{name}.rlib").exists()]
    if absent:
        sys.exit(f"checks/dist.py: {', '.join(absent)} is not built in crates/*/out (examples/build.py {LIBRARY} builds it)")
    target, cpu = TARGETS[processor]
    folder, kept = work / processor, work / processor / "kept"
    kept.mkdir(parents=True)
    toolchain(folder / "toolchain", top / "toolchain", kept)
    # (a kept proof of the library saves proving it here; otherwise the second target's build uses the first one's)
    incremental = CRATES / LIBRARY / "out" / "incremental"
    incremental = incremental if incremental.exists() else work / "incremental"
    words = [*words_of_build(top, listed), "--target", target, "--cpu", cpu, "--toolchain", folder / "toolchain", "--incremental", incremental]
    ran = subprocess.run([top / "bin" / "rattle", *words, "-o", folder / "made.a"], cwd=CRATES / LIBRARY, stdout=subprocess.PIPE, stderr=subprocess.STDOUT, text=True)
    if ran.returncode:
        sys.exit(f"{ran.stdout}checks/dist.py: {LIBRARY} was not built for {target}: status {ran.returncode}")
    text = with_option(plain((kept / "code.s").read_text()), processor)
    if not is_the_object(text, processor, kept, top / "toolchain" / "bin" / "clang", folder):
        sys.exit(f"checks/dist.py: the assembly for {processor} is not the object that the library has: a line that it needs was left out")
    return text


def of_the_kit(texts, top):
    """Returns the kit's crates whose functions the assembly contains, by the names of its symbols."""
    named = {name for text in texts for name in re.findall(r"(?<![\w:])([a-z]\w*)::", text)}
    return sorted(name for name in named if (top / "rattle" / name).is_dir() and name not in uses())


def notice(names, top):
    """Returns the text of NOTICE."""
    texts, without = {}, []
    for name in names:
        folder = top / "rattle" / name
        files = sorted(folder.glob("LICENSE*"))
        # (of two licences between which one may choose, the shorter one)
        files = [it for it in files if it.name == "LICENSE-MIT"] or files
        for file in files:
            texts.setdefault(file.read_text(errors="replace").strip(), []).append(name)
        if not files:
            without.append(name)
    said = ["The assembly in this folder is compiled from the crates of this repository (LICENSE), and from these crates of the Rattle kit.", ""]
    said += [f"- {', '.join(without)}: the kit's own, which has no file of a licence"] if without else []
    said += [f"- {', '.join(dict.fromkeys(of))}: the licence below, number {number}" for number, of in enumerate(texts.values(), 1)]
    for number, text in enumerate(texts, 1):
        said += ["", "=" * 80, f"Licence {number}", "", "\n".join(line.rstrip() for line in text.splitlines())]
    return "\n".join(said) + "\n"


def made(is_written):
    """Returns the generated files, each by its name."""
    top = kit()
    with tempfile.TemporaryDirectory(prefix="wagtenib-dist-") as folder:
        texts = {f"{LIBRARY}_linux_{processor}.s": assembly(processor, top, pathlib.Path(folder)) for processor in TARGETS}
    return {**texts, "NOTICE": notice(of_the_kit(texts.values(), top), top), "SOURCES": said_of_sources(kit_name(is_written))}


def differing(said, due):
    """Describes the first line of a file that is not as expected."""
    lines = zip([*said.splitlines(), ""], [*due.splitlines(), ""])
    return next((f"line {number} is {one!r}, and must be {other!r}" for number, (one, other) in enumerate(lines, 1) if one != other), "it ends too early or too late")


def stale_copies():
    """Returns the copied files whose copy in the Go package is missing or has other bytes, each with its copy."""
    return [(of, copy) for of, copy in COPIED.items() if not copy.exists() or copy.read_bytes() != of.read_bytes()]


def main():
    words = sys.argv[1:]
    if words not in ([], ["--sources"], ["--write"]):
        sys.exit(__doc__)
    if words == ["--write"] and not kit():
        sys.exit("checks/dist.py --write needs the Rattle kit: put its folder bin on the PATH (README.md, 'With the kit')")
    due = made(words == ["--write"]) if kit() and words != ["--sources"] else {"SOURCES": said_of_sources(kit_name())}
    if words == ["--write"]:
        for name, text in due.items():
            (DIST / name).write_text(text)
        for of, copy in COPIED.items():
            shutil.copyfile(of, copy)
    wrong = [(name, text) for name, text in due.items() if not (DIST / name).exists() or (DIST / name).read_text() != text]
    for name, text in wrong:
        print(f"dist/{name} is not what the sources make: {differing((DIST / name).read_text(), text) if (DIST / name).exists() else 'it is not there'} ({REMEDY})")
    stale = stale_copies()
    for of, copy in stale:
        there, here = (path.relative_to(ROOT) for path in (of, copy))
        print(f"{here} is not the copy of {there} that it must be (make dist writes the copies; so does cp {there} {here})")
    sys.exit(1 if wrong or stale else 0)


if __name__ == "__main__":
    main()
