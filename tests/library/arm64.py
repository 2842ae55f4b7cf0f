#!/usr/bin/env python3
"""Runs the programs in C, the Go package, the Python package and the Rust crate over the code for arm64 of dist/, by qemu's emulation of a program.

    arm64.py

1. The programs verify.c and follow.c of examples/link are compiled for arm64, and run over the cases of cases.py.
2. The tests of bindings/go/wagtenib are compiled for arm64 and run.
3. Comparisons of this folder run in Debian's Python for arm64, over a shared library for arm64.
4. The tests of bindings/rust/wagtenib are compiled with Debian's Rust and its standard library for arm64, and run.

replays.py compares the same code with that for amd64, called from C. Debian's packages qemu-user, gcc-aarch64-linux-gnu and libc6-dev-arm64-cross must be installed. With SETUP=yes in the
environment, root installs them, and apt fetches Python and Rust into a folder that is removed at the end. A part whose packages cannot be had is left out, and the script says so in one line.
It ends with status 1 if something fails.
"""
import fcntl
import functools
import os
import pathlib
import platform
import re
import shutil
import subprocess
import sys
import tempfile

HERE = pathlib.Path(__file__).resolve().parent
ROOT = HERE.parent.parent
DIST, RUST = ROOT / "dist", ROOT / "bindings" / "rust"
PACKAGES = ["qemu-user", "gcc-aarch64-linux-gnu", "libc6-dev-arm64-cross"]
COMPILER, QEMU = "aarch64-linux-gnu-gcc", "qemu-aarch64"
# The folder of the C library for arm64, for programs that are not linked statically.
LIBRARIES = "/usr/aarch64-linux-gnu"
TARGET = "aarch64-unknown-linux-gnu"
# The settings of apt for packages that are only unpacked. No file of the machine's own apt is written.
SETTINGS = """\
APT::Architecture "{of}";
APT::Architectures {{ "{of}"; }};
APT::Sandbox::User "";
Acquire::Languages "none";
Dir::State "{folder}";
Dir::State::status "{status}";
Dir::Cache "{folder}";
#clear APT::Update::Post-Invoke;
"""


def say(text):
    print(f"tests/library/arm64.py: {text}", flush=True)


def may_install():
    """Whether packages may be installed and fetched without a question."""
    return os.environ.get("SETUP") == "yes" and os.geteuid() == 0 and bool(shutil.which("apt-get"))


@functools.lru_cache
def lacking():
    """The packages that are missing to compile and run programs for arm64, in a sentence; or no text."""
    if platform.machine() != "x86_64":
        return "this machine is not an amd64"
    is_here = lambda: all(map(shutil.which, (COMPILER, QEMU)))
    # (several scripts come here at the same time, and apt-get update does not wait for another one)
    with open(__file__) as lock:
        fcntl.flock(lock, fcntl.LOCK_EX)
        install(is_here)
    return "" if is_here() else f"{', '.join(PACKAGES)} must be installed"


def install(is_here):
    """Installs PACKAGES, if they are missing and may be installed."""
    if not is_here() and may_install():
        words = ["apt-get", "-qq", "-o", "DPkg::Lock::Timeout=300"]
        subprocess.run([*words, "update"], stdout=subprocess.DEVNULL)
        subprocess.run([*words, "install", "--yes", "--no-install-recommends", *PACKAGES], stdout=subprocess.DEVNULL, env={**os.environ, "DEBIAN_FRONTEND": "noninteractive"})


def ran(what, words, **how):
    """Returns the output of a command. The script ends if it fails."""
    done = subprocess.run(words, stdout=subprocess.PIPE, stderr=subprocess.STDOUT, text=True, **how)
    if done.returncode:
        sys.exit(f"{done.stdout[-4000:]}tests/library/arm64.py: {what} fails: {' '.join(map(str, words))}")
    return done.stdout


class Packages:
    """Debian's packages for a processor, which apt fetches and which are unpacked in a folder."""

    def __init__(self, folder, of, status):
        self.of = of
        for part in ("lists/partial", "archives/partial", "root"):
            (folder / part).mkdir(parents=True)
        (folder / "none").touch()
        (folder / "settings").write_text(SETTINGS.format(of=of, folder=folder, status=status or folder / "none"))
        self.folder, self.surroundings = folder, {**os.environ, "APT_CONFIG": str(folder / "settings"), "LC_ALL": "C.UTF-8"}
        self.is_known = subprocess.run(["apt-get", "-qq", "update"], env=self.surroundings, stdout=subprocess.DEVNULL, stderr=subprocess.DEVNULL).returncode == 0

    def unpack(self, words):
        """The folder with the packages unpacked, or None if they cannot be had. `words` are those of apt-get."""
        archives = self.folder / "archives"
        if not self.is_known or subprocess.run(["apt-get", "-qq", *words], env=self.surroundings, cwd=archives, stdout=subprocess.DEVNULL, stderr=subprocess.DEVNULL).returncode:
            return None
        for package in archives.glob("*.deb"):
            subprocess.run(["dpkg-deb", "-x", package, self.folder / "root"], check=True)
        return self.folder / "root"

    def with_all_below(self, *names):
        """These packages, with all that they depend on and `status` does not have."""
        return self.unpack(["--download-only", "--yes", "--no-install-recommends", "install", *names])

    def alone(self, *names):
        """These packages alone."""
        return self.unpack(["download", *names])


def try_c(folder):
    """The programs of examples/link."""
    link = ROOT / "examples" / "link"
    cases = ran("cases.py", [sys.executable, link / "cases.py"])
    (folder / "hashes.h").write_text(ran("cases.py", [sys.executable, link / "cases.py", "--header"]))
    code = [DIST / "memory.c", DIST / "libwagtenib_linux_arm64.s"]
    words = [COMPILER, "-std=c99", "-Wall", "-Wextra", "-Werror", "-O1", "-static", f"-I{ROOT / 'include'}", f"-I{folder}"]
    ran("verify.c", [*words, link / "verify.c", *code, "-o", folder / "verify"])
    ran("follow.c", [*words, link / "follow.c", *code, "-pthread", "-Wl,--wrap=malloc,--wrap=realloc", "-o", folder / "follow"])
    told = ran("verify.c", [QEMU, folder / "verify"], input=cases) + ran("follow.c", [QEMU, folder / "follow"])
    say(" ".join(told.split()))


def try_go(folder):
    """The tests of the Go package."""
    made, package = folder / "go.test", ROOT / "bindings" / "go" / "wagtenib"
    go = f'. "{ROOT}/deps/env.sh" && command -v go >/dev/null && exec go "$@"'
    if subprocess.run(["bash", "-c", go, "go", "version"], cwd=ROOT, stdout=subprocess.DEVNULL).returncode or not (ROOT / "vendor" / "modules.txt").exists():
        return print("left out: the Go package for arm64 (Go and its modules are missing: make deps fetches them)")
    surroundings = {**os.environ, "CGO_ENABLED": "1", "CC": COMPILER, "GOARCH": "arm64"}
    ran("the test of the Go package", ["bash", "-c", go, "go", "test", "-c", "-o", made, "./bindings/go/wagtenib"], cwd=ROOT, env=surroundings)
    told = ran("the test of the Go package", [QEMU, "-L", LIBRARIES, made, "-test.v"], cwd=package)
    passed = len(re.findall(r"^--- PASS", told, re.M))
    if not passed or "--- SKIP" in told:
        sys.exit(f"{told[-2000:]}tests/library/arm64.py: not every test of the Go package ran")
    say(f"{passed} tests of the Go package passed")


def try_python(folder):
    """Comparisons of the Python package with models."""
    root = Packages(folder / "python", "arm64", None).with_all_below("python3-minimal", "libpython3-stdlib") if may_install() else None
    if root is None:
        return print("left out: the Python package for arm64 (there is no Python for arm64: SETUP=yes, as root, has apt fetch it)")
    library = folder / "libwagtenib.so"
    sources = [DIST / "memory.c", DIST / "libwagtenib_linux_arm64.s"]
    ran("the library for arm64", [COMPILER, "-shared", "-fPIC", "-O2", "-fvisibility=hidden", *sources, "-o", library])
    surroundings = {**os.environ, "WAGTENIB_LIBRARY": str(library), "PYTHONHOME": str(root / "usr"), "PYTHONDONTWRITEBYTECODE": "1"}
    python = next(root.glob("usr/bin/python3.[0-9]*"))
    # Programs that the comparison runs are this machine's, so only qemu's program gets the variables.
    given = [word for name in ("WAGTENIB_LIBRARY", "PYTHONHOME", "PYTHONDONTWRITEBYTECODE") for word in ("-E", f"{name}={surroundings[name]}")]
    machine = ran("Python for arm64", [QEMU, "-L", root, *given, python, "-c", "import platform; print(platform.machine())"]).strip()
    if machine != "aarch64":
        sys.exit(f"tests/library/arm64.py: the Python for arm64 says that it runs on {machine}")
    for script, calls in (("proofs.py", 150), ("step.py", 9), ("guard.py", 2000), ("monitor.py", 2000)):
        words = [QEMU, "-L", root, *given, python, HERE / script, "--calls", str(calls)]
        told = ran(f"the comparison {script}", words)
        if "calls are as the model has them" not in told:
            sys.exit(f"{told}tests/library/arm64.py: the Python package was not compared by {script}")
        say(f"the Python package: {told.strip().rpartition('/')[2]}")


def rust_compiler(folder):
    """The words by which Debian's Rust compiles for arm64, and its environment; or None."""
    if not may_install():
        return None
    standard = Packages(folder / "std", "arm64", None).alone("libstd-rust-dev")
    compiler = Packages(folder / "rustc", "amd64", "/var/lib/dpkg/status").with_all_below("rustc")
    if not standard or not compiler:
        return None
    rustc = compiler / "usr/bin/rustc" if (compiler / "usr/bin/rustc").exists() else "/usr/bin/rustc"
    paths = [str(compiler / "usr/lib/x86_64-linux-gnu"), os.environ.get("LD_LIBRARY_PATH", "")]
    words = [rustc, "--sysroot", standard / "usr", "--target", TARGET, "--edition", "2021", "-O", "-D", "warnings", "-C", f"linker={COMPILER}"]
    return words, {**os.environ, "LD_LIBRARY_PATH": ":".join(filter(None, paths))}


def try_rust(folder):
    """The tests of the Rust crate."""
    found = rust_compiler(folder)
    if found is None:
        return print("left out: the Rust crate for arm64 (there is no Rust with the standard library for arm64: SETUP=yes, as root, has apt fetch it)")
    words, surroundings = found
    made = folder / "made"
    made.mkdir()
    objects = [made / "memory.o", made / "code.o"]
    for source, compiled in zip((DIST / "memory.c", DIST / "libwagtenib_linux_arm64.s"), objects):
        ran("the code for arm64", [COMPILER, "-std=c11", "-O2", "-fPIC", "-c", source, "-o", compiled])
    ran("the code for arm64", ["ar", "crs", made / "libwagtenib.a", *objects])
    below = ["-L", f"native={made}", "-L", f"dependency={made}", "--out-dir", made]
    build = lambda *more: ran("the build of the Rust crate", [*words, *below, *more], env=surroundings)
    build("--crate-type", "rlib", "--crate-name", "wagtenib_sys", RUST / "wagtenib-sys/src/lib.rs", "-l", "static=wagtenib")
    build("--crate-type", "rlib", "--crate-name", "wagtenib", RUST / "wagtenib/src/lib.rs", "--extern", f"wagtenib_sys={made}/libwagtenib_sys.rlib")
    passed, own = 0, ["--extern", f"wagtenib={made}/libwagtenib.rlib"]
    for test in sorted((RUST / "wagtenib/tests").glob("*.rs")):
        build("--test", "--crate-name", test.stem, test, *own)
        told = ran(f"the test {test.name} of the Rust crate", [QEMU, "-L", LIBRARIES, made / test.stem])
        passed += sum(map(int, re.findall(r"^test result: ok\. (\d+) passed; 0 failed", told, re.M)))
    if not passed:
        sys.exit("tests/library/arm64.py: no test of the Rust crate ran")
    say(f"{passed} tests of the Rust crate passed")


def main():
    if why := lacking():
        print(f"left out: arm64 ({why})")
        return
    with tempfile.TemporaryDirectory(prefix="wagtenib-arm64-") as folder:
        folder = pathlib.Path(folder)
        try_c(folder)
        try_go(folder)
        try_python(folder)
        try_rust(folder)


if __name__ == "__main__":
    main()
