#!/usr/bin/env python3
"""Runs the tests of the Rust crates in bindings/rust, and compares wagtenib-sys with the header.

    rust.py [--write]

1. wagtenib-sys/src/lib.rs must be what this script makes of include/wagtenib.h. --write writes it.
2. Each constant of the header must have its error in wagtenib/src/error.rs. Each function of the header must be called by the crate wagtenib, and each function of that
   crate must be named in its tests.
3. cargo runs the crates' tests, without the network.

Without cargo or gcc, 3 is left out, and a line says so. It ends with status 1 if something differs.
"""
import os
import pathlib
import platform
import re
import shutil
import subprocess
import sys

ROOT = pathlib.Path(__file__).resolve().parents[2]
RUST = ROOT / "bindings" / "rust"
HEADER = (ROOT / "include" / "wagtenib.h").read_text()
TYPES = {"uint8_t": "u8", "uint32_t": "u32", "uint64_t": "u64", "size_t": "usize", "bool": "bool"}

SYS = """\
//! The functions of libwagtenib as C declares them. `include/wagtenib.h` in the repository says what each one takes, returns and requires.
//! `tests/library/rust.py --write` makes this file from it.
//!
//! The crate `wagtenib` has the same functions in safe Rust.
#![no_std]
#![allow(non_camel_case_types)]

/// The answers. 0 is success, and nothing is written at any other number unless the header says so.
pub mod code {{
{constants}
}}
{structs}
extern "C" {{
{functions}
    /// It exists only with the feature, and returns whether the processor's SHA instructions are used in place of the proved code.
    #[cfg(feature = "sha-instructions")]
    pub fn wagtenib_has_sha_instructions() -> bool;
}}
"""


def codes():
    """The header's constants and their numbers."""
    return {name: int(number) for name, number in re.findall(r"\bWAGTENIB_(\w+) = (\d+)", HEADER)}


def argument(text):
    """An argument or a field of C, as Rust declares it."""
    constant, of, kind, star, name, length = re.fullmatch(r"(const )?(struct )?(\w+) (\*)?(\w+)(?:\[(\d+)\])?", text.strip()).groups()
    rust = kind if of else TYPES[kind]
    if star or length:
        rust = f"*{'const' if constant else 'mut'} {rust}"
    return f"{name}: {rust}"


def field(text):
    """A field of a struct of C, as Rust declares it."""
    of, kind, name, length = re.fullmatch(r"(struct )?(\w+) (\w+)(?:\[(\d+)\])?", text.strip()).groups()
    rust = kind if of else TYPES[kind]
    return f"    pub {name}: " + (f"[{rust}; {length}]" if length else rust) + ","


def sys_source():
    """The source of wagtenib-sys."""
    bare = re.sub(r"/\*.*?\*/", " ", HEADER, flags=re.S)
    structs = ""
    for name, fields in re.findall(r"\bstruct (\w+) \{([^}]*)\};", bare):
        declared = "\n".join(field(part) for part in fields.split(";") if part.strip())
        structs += f"\n#[repr(C)]\n#[derive(Clone, Copy, Debug, Default)]\npub struct {name} {{\n{declared}\n}}\n"
    functions = [
        f"    pub fn {name}({', '.join(map(argument, arguments.split(','))) if arguments != 'void' else ''}){' -> u32' if result == 'uint32_t' else ''};"
        for result, name, arguments in re.findall(r"\b(uint32_t|void) (wagtenib_\w+)\(([^)]*)\);", bare)
    ]
    constants = "\n".join(f"    pub const {name}: u32 = {number};" for name, number in codes().items())
    return SYS.format(constants=constants, structs=structs, functions="\n".join(functions))


def unnamed():
    """The constants of the header that have no error in the crate."""
    named = set(re.findall(r"^    \w+ = (\w+), \"", (RUST / "wagtenib" / "src" / "error.rs").read_text(), re.M))
    # (the second enum has the verdicts of a monitor, which no call returns)
    returned = set(re.findall(r"\bWAGTENIB_(\w+) = \d+", HEADER.partition("};")[0]))
    return sorted(returned - {"OK"} - named)


def untried():
    """What a function of the header or of the crate wagtenib lacks: a call in the crate, or a test that names it."""
    crate = RUST / "wagtenib"
    sources = {path.stem: path.read_text() for path in (crate / "src").glob("*.rs")}
    tests = "".join(path.read_text() for path in (crate / "tests").rglob("*.rs"))
    for name in re.findall(r"^    pub fn (wagtenib_\w+)\(", sys_source(), re.M):
        if not any(f"sys::{name}(" in source for source in sources.values()) and name != "wagtenib_has_sha_instructions":
            yield f"no function of bindings/rust/wagtenib calls {name} (write one)"
    for module, source in sources.items():
        for name in re.findall(r"\bpub fn (\w+)", source):
            if not re.search(rf"(?:\b{module}::|\w::|\.){name}\(", tests):
                yield f"no test of bindings/rust/wagtenib calls {module}::{name} (write one)"


def main():
    wrong = 0
    source = RUST / "wagtenib-sys" / "src" / "lib.rs"
    if "--write" in sys.argv[1:]:
        source.write_text(sys_source())
    elif source.read_text() != sys_source():
        print("tests/library/rust.py: bindings/rust/wagtenib-sys/src/lib.rs is not what include/wagtenib.h says (tests/library/rust.py --write makes it)")
        wrong += 1
    for name in unnamed():
        print(f"tests/library/rust.py: bindings/rust/wagtenib/src/error.rs has no error for WAGTENIB_{name}")
        wrong += 1
    for fault in untried():
        print(f"tests/library/rust.py: {fault}")
        wrong += 1
    if not shutil.which("cargo") or not shutil.which("gcc") or platform.machine() not in ("x86_64", "aarch64"):
        print("left out: the tests of the Rust crate (there is no cargo, or no gcc for a processor of dist/)")
        return int(wrong > 0)
    ran = subprocess.run(["cargo", "test", "--offline", "--quiet"], cwd=RUST, capture_output=True, text=True, timeout=900, env={**os.environ, "RUSTFLAGS": "-D warnings"})
    passed = sum(map(int, re.findall(r"^test result: ok\. (\d+) passed; 0 failed", ran.stdout, re.M)))
    if ran.returncode or not passed:
        print(f"{ran.stdout}{ran.stderr}tests/library/rust.py: the tests of bindings/rust fail")
        return 1
    print(f"tests/library/rust.py: {passed} tests of the Rust crate passed")
    return int(wrong > 0)


if __name__ == "__main__":
    sys.exit(main())
