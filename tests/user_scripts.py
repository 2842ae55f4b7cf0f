#!/usr/bin/env python3
"""Tries what users run to install, release and serve, over made-up builds and with programs in place of apt, ctserve and ctwitness: make install,
release/release.py, deps/fetch.sh, cmd/serve.sh and cmd/serve-witness.sh.

It prints one line. At the first fault it says what is wrong, and ends with status 1.
"""
import json
import os
import pathlib
import shutil
import socket
import subprocess
import sys
import tempfile
import types

from readme import free_port

ROOT = pathlib.Path(__file__).resolve().parent.parent
VERSION = (ROOT / "VERSION").read_text().strip()


def fail(why):
    sys.exit(f"user_scripts.py: {why}")


def program(path, script):
    """Makes a program of a line for the shell."""
    path.parent.mkdir(parents=True, exist_ok=True)
    path.write_text(f"#!/bin/sh\n{script}\n")
    path.chmod(0o755)


def try_install(folder):
    """The builds are installed, byte for byte, in a folder whose name has a space. Without a build nothing is installed."""
    environment = {name: value for name, value in os.environ.items() if name not in ("MAKEFLAGS", "MFLAGS", "MAKELEVEL")}

    def install(built):
        words = ["make", "--silent", "install", f"BUILT={built}", f"DESTDIR={folder}/to", "PREFIX=/opt/log"]
        return subprocess.run(words, cwd=ROOT, env=environment, capture_output=True, text=True)

    if not install(folder / "nothing").returncode or (folder / "to").exists():
        fail("make install, with nothing built, installs something")
    texts = {"ctlog/out/ctlog": "a program", "libwagtenib/out/link/libwagtenib.a": "an archive", "libwagtenib/out/link/libwagtenib.so": "a library"}
    for path, text in texts.items():
        program(folder / "built" / path, text)
    ran, to = install(folder / "built"), folder / "to" / "opt" / "log"
    made = lambda name: f"#!/bin/sh\n{name}\n"
    due = {"bin/ctlog": made("a program"), "lib/libwagtenib.a": made("an archive"), "include/wagtenib.h": (ROOT / "include" / "wagtenib.h").read_text(),
           "lib/pkgconfig/wagtenib.pc": (ROOT / "include" / "wagtenib.pc.in").read_text().replace("@PREFIX@", "/opt/log").replace("@VERSION@", VERSION),
           **{f"lib/libwagtenib.{end}": made("a library") for end in ("so", "so.0", f"so.{VERSION}")}}  # fmt: skip
    found = {str(path.relative_to(to)): path.read_text() for path in to.rglob("*") if not path.is_dir()}
    if ran.returncode or found != due or not os.access(to / "bin" / "ctlog", os.X_OK):
        fail(f"make install: status {ran.returncode}, it installed {sorted(found)}, or another text: {ran.stdout}{ran.stderr}")


def try_release(folder):
    """A release has the builds, byte for byte. If one is missing, it is named and nothing is made. The same files give the same bytes twice. Builds
    are made up, as for try_install. Without dpkg-deb it isn't tried, and says so."""
    if not shutil.which("dpkg-deb") or not shutil.which("objdump"):
        print("left out: the files of a release (dpkg-deb or objdump is not installed)")
        return "not made"

    def make(to, built="built", service="service"):
        words = [ROOT / "release" / "release.py", "--built", folder / built, "--service", folder / service, "--to", folder / to]
        return subprocess.run(words, capture_output=True, text=True)

    ran = make("none", "nothing", "nothing")
    if ran.returncode != 1 or not all(name in ran.stderr for name in ("ctlog (make demo)", "ctserve (make service)", "libwagtenib.so (make link)")):
        fail(f"release.py, with nothing built: status {ran.returncode}: {ran.stdout}{ran.stderr}")
    if (folder / "none").exists():
        fail("release.py makes something of nothing")
    programs = {name: folder / "built" / name / "out" / name for name in ("ctlog",)}
    programs.update({name: folder / "service" / name for name in ("ctserve", "ctaudit", "ctload", "ctwitness", "ctwatch")})
    library = {f"libwagtenib.{end}": folder / "built" / "libwagtenib" / "out" / "link" / f"libwagtenib.{end}" for end in ("a", "so")}
    commit = subprocess.run(["git", "log", "-1", "--format=%H"], cwd=ROOT, capture_output=True, text=True).stdout[:12]
    texts = {name: f"#!/bin/sh\necho '{name} 0.1.0{f' (commit {commit})' if path.parent.name == 'service' else ''}'\n" for name, path in programs.items()}
    for name, path in {**programs, **library}.items():
        path.parent.mkdir(parents=True, exist_ok=True)
        path.write_text(texts.get(name, f"made up: {name}"))
        path.chmod(0o755)
    optional = f"ctserve 0.1.0 (commit {commit}, with SHA instructions, which are not proved)"
    for name, other in (("ctlog", "ctlog 0.1.1"), ("ctaudit", f"ctaudit 0.1.0 (commit {commit[::-1]})"), ("ctserve", optional)):
        programs[name].write_text(f"#!/bin/sh\necho '{other}'\n")
        ran = make("none")
        if ran.returncode != 1 or f"of another version than 0.1.0, or another commit than {commit}, or with a build option: {name} ({other})" not in ran.stderr or (folder / "none").exists():
            fail(f"release.py, with a program that says {other}: status {ran.returncode}: {ran.stdout}{ran.stderr}")
        programs[name].write_text(texts[name])
    ran = make("first")
    again = make("a-second-folder")
    names = sorted(path.name for path in (folder / "first").iterdir())
    due = ["SBOM.spdx.json", "SHA256SUMS", "ctaudit_0.1.0_amd64.deb", "ctwatch_0.1.0_amd64.deb", "libwagtenib-dev_0.1.0_amd64.deb", "wagtenib-0.1.0-x86_64.tar.gz", "wagtenib_0.1.0_amd64.deb"]
    if ran.returncode or again.returncode or names != due:
        fail(f"release.py: status {ran.returncode}, {names}: {ran.stdout}{ran.stderr}{again.stderr}")
    for name in names:
        if (folder / "first" / name).read_bytes() != (folder / "a-second-folder" / name).read_bytes():
            fail(f"release.py: {name} has other bytes at the second time")
    if subprocess.run(["sha256sum", "--check", "--quiet", "SHA256SUMS"], cwd=folder / "first").returncode:
        fail("release.py: SHA256SUMS isn't that of the files")
    out = folder / "unpacked"
    for name in names[2:]:
        (out / name).mkdir(parents=True)
        words = ["tar", "-xzf", folder / "first" / name, "-C", out / name] if name.endswith(".gz") else ["dpkg-deb", "-x", folder / "first" / name, out / name]
        if subprocess.run(words).returncode:
            fail(f"release.py: {name} can't be unpacked")
    places = {"wagtenib-0.1.0-x86_64.tar.gz": ("wagtenib-0.1.0/bin", tuple(programs)),
              "wagtenib_0.1.0_amd64.deb": ("usr/bin", ("ctserve", "ctwitness", "ctload", "ctlog")),
              "ctaudit_0.1.0_amd64.deb": ("usr/bin", ("ctaudit",)),
              "ctwatch_0.1.0_amd64.deb": ("usr/bin", ("ctwatch",))}
    for name, (below, held) in places.items():
        for program in held:
            path = out / name / below / program
            if not path.exists() or path.read_text() != texts[program] or not os.access(path, os.X_OK):
                fail(f"release.py: {name} has no {program} that is as it was built and can be run")
    others = {path.name for path in (out / "wagtenib_0.1.0_amd64.deb" / "usr/bin").iterdir()} - {*places["wagtenib_0.1.0_amd64.deb"][1]}
    if others:
        fail(f"release.py: the log's package has programs that nothing in it asks: {sorted(others)}")
    unit = (out / "wagtenib_0.1.0_amd64.deb" / "lib" / "systemd" / "system" / "ctserve@.service").read_text()
    if "ExecStart=/usr/bin/ctserve " not in unit:
        fail("release.py: the package's unit starts another ctserve than its own")
    if subprocess.run(["sha256sum", "--check", "--quiet", "SHA256SUMS"], cwd=out / "wagtenib-0.1.0-x86_64.tar.gz" / "wagtenib-0.1.0").returncode:
        fail("release.py: SHA256SUMS in the tarball isn't that of its files")
    for name, (below, held) in {**places, "libwagtenib-dev_0.1.0_amd64.deb": ("usr/lib/x86_64-linux-gnu", ("libwagtenib.a", "libwagtenib.so.0.1.0"))}.items():
        top, proved = (out / name / "wagtenib-0.1.0", "PROVED") if name.endswith(".gz") else (out / name, f"usr/share/{name.split('_')[0]}/PROVED")
        if subprocess.run(["sha256sum", "--check", "--quiet", "--strict", proved], cwd=top).returncode:
            fail(f"release.py: PROVED of {name} isn't of its files")
        named = {line.split("/")[-1] for line in (top / proved).read_text().splitlines() if line[0] != "#"}
        if not set(held) <= named:
            fail(f"release.py: PROVED of {name} names {sorted(named)}")
    bill = json.loads((folder / "first" / "SBOM.spdx.json").read_text())
    named = {package["name"] for package in bill["packages"]}
    if bill["spdxVersion"] != "SPDX-2.3" or not {"ctserve", "ctlog", "sha2", "std"} <= named or len({it["SPDXID"] for it in bill["packages"]}) != len(bill["packages"]):
        fail(f"release.py: the SBOM names {sorted(named)}")
    try_c_libraries(folder)
    has_go = not subprocess.run([ROOT / "deps" / "fetch.sh"], env={**os.environ, "SETUP": "no"}, capture_output=True).returncode
    if has_go and (not {"go", "golang.org/x/mod", "github.com/lib/pq"} <= named or "github.com/google/certificate-transparency-go" in named):
        fail(f"release.py: the SBOM names other modules than those that are linked: {sorted(named)}")
    return f"{len(names)} files twice the same"


def try_c_libraries(folder):
    """The SBOM has the C libraries that a program loads, and SQLite if it is compiled into a program."""
    sys.path.append(str(ROOT / "release"))
    import release

    (folder / "with-sqlite").write_bytes(b"a program\0SQLite format 3\0")
    programs = {name: pathlib.Path(sys.executable).resolve() for name in release.SERVICE} | {"ctaudit": folder / "with-sqlite"}
    found = {(library, relation): of for library, _, relation, of in release.c_libraries(types.SimpleNamespace(programs=programs))}
    if sorted(found.get(("libc.so.6", "DYNAMIC_LINK"), [])) != sorted(set(release.SERVICE) - {"ctaudit"}) or found.get(("sqlite3", "STATIC_LINK")) != ["ctaudit"]:
        fail(f"release.py: the C libraries are {found}")


def answered(words, answer, **how):
    """Runs a program on a terminal, on which it is answered so."""
    ours, terminal = os.openpty()
    with open(ours, "wb", buffering=0) as writing:
        writing.write(answer)
        ended = subprocess.run(words, stdin=terminal, **how)
        os.close(terminal)
    return ended


def try_deps(folder):
    """fetch.sh installs a missing C compiler if that needs no question, and after a question on a terminal. It neither upgrades nor removes
    anything, except with SETUP=yes. With SETUP=no it does nothing, and says what is missing."""
    top, log, planned = folder / "checkout", folder / "log", folder / "planned"
    shutil.copytree(ROOT / "deps", top / "deps")
    shutil.copy(ROOT / "go.mod", top)
    (top / "go.sum").touch()
    stubs = {
        "apt-get": f'case "$*" in *--simulate*) cat {planned} ;; *) echo "apt-get $*" >>{log}; [ "$DEBIAN_FRONTEND" = noninteractive ] || exit 9 ;; esac; '
                   f'case "$*" in *--simulate*) ;; *update) touch {folder}/lists ;; *) $FAILS ;; esac',
        "sudo": f'echo "sudo $1" >>{log}; [ $1 = -n ] && $ASKS_NOTHING && shift && exec "$@"',
        "id": "echo $USER_ID",
        "go": "$HAS_GO && echo go1.24.4",
    }  # fmt: skip
    for name, script in stubs.items():
        (folder / name).write_text(f"#!/bin/sh\n{script}\n")
        (folder / name).chmod(0o755)
    line = "apt-get install --yes --no-install-recommends gcc libc6-dev"
    install, update = "apt-get -o DPkg::Lock::Timeout=300 install --yes --no-install-recommends gcc libc6-dev", "apt-get -o DPkg::Lock::Timeout=300 update"
    lists, never, always = f"test -e {folder}/lists", "false", "true"
    new, upgrade = "Inst gcc (12 Debian)\n", "Inst libc6 [1] (2 Debian)\nInst gcc (12 Debian)\n"
    missing, other = "a-compiler-that-is-missing", f"{folder}/cache"

    def place(setup="", user=0, asks_nothing=always, fails=always, has_go=always, compiler=missing):
        return {**os.environ, "PATH": f"{folder}:{os.environ['PATH']}", "SETUP": setup, "USER_ID": str(user), "ASKS_NOTHING": asks_nothing, "FAILS": fails,
                "HAS_GO": has_go, "CC": compiler, "XDG_CACHE_HOME": other}  # fmt: skip

    def judge(what, ended, status, ran, says):
        did = log.read_text().splitlines() if log.exists() else []
        if ended.returncode != status or did != ran or says not in ended.stderr:
            fail(f"fetch.sh, by {what}, ends with status {ended.returncode}, ran {did} and says {ended.stderr}")

    for what, how, plan, status, ran, says in (
        ("SETUP=no", {"setup": "no"}, new, 1, [], f"deps: gcc libc6-dev must be installed: {line}"),
        ("root", {}, new, 0, [install], line),
        ("root, where others would be upgraded", {}, upgrade, 1, [], "upgrade or remove packages that are installed (libc6)"),
        ("root, where others would be removed", {}, "Remv tcc [1]\n", 1, [], "upgrade or remove packages that are installed (tcc)"),
        ("root with SETUP=yes, where others are upgraded", {"setup": "yes"}, upgrade, 0, [install], line),
        ("root without lists of packages", {"fails": lists}, new, 0, [install, update, install], line),
        ("root without a network", {"fails": never}, new, 1, [install, update, install], "deps: apt-get couldn't install gcc libc6-dev"),
        ("a sudo that asks nothing", {"user": 7}, new, 0, ["sudo -n", "sudo -n", install], f"sudo -n {line}"),
        ("a sudo that asks", {"user": 7, "asks_nothing": never}, new, 1, ["sudo -n"], f"sudo asks for a password: sudo {line}"),
        ("a machine that has all of it", {"compiler": "true"}, new, 0, [], ""),
        ("SETUP=no without Go", {"compiler": "true", "has_go": never, "setup": "no"}, new, 1, [], "deps: Go 1.24 or its modules aren't here: make deps"),
    ):
        for path in (log, folder / "lists"):
            path.unlink(missing_ok=True)
        planned.write_text(plan)
        judge(what, subprocess.run([top / "deps" / "fetch.sh"], env=place(**how), stdin=subprocess.DEVNULL, capture_output=True, text=True), status, ran, says)
    for answer, status, ran in ((b"\n", 1, []), (b"n\n", 1, []), (b"y\n", 0, [install])):
        log.unlink(missing_ok=True)
        planned.write_text(new)
        judge(f"the answer {answer}", answered([top / "deps" / "fetch.sh"], answer, env=place(), capture_output=True, text=True), status, ran, line)


def served(folder, script, program_name, stub):
    """Copies a script of cmd/ into a folder, beside a program in place of its own, and returns its path."""
    shutil.copy(ROOT / "cmd" / script, folder)
    for path, text in ((folder / "build.sh", ""), (folder.parent / "deps" / "fetch.sh", ""), (folder / "out" / program_name, stub)):
        program(path, text)
    return folder / script


def serve_at_taken_ports(script, *words):
    """A script that serves refuses a port that is taken, and the one after it, before it does anything."""
    port = free_port()
    for taken in (port, port + 1):
        with socket.socket() as other:
            other.bind(("127.0.0.1", taken))
            other.listen()
            ran = subprocess.run([script, words[0], str(port), *words[1:]], capture_output=True, text=True)
            if ran.returncode != 1 or f"another program listens at port {taken} " not in ran.stderr or words[0].exists():
                fail(f"{script.name} at a port that is taken: status {ran.returncode}, {ran.stdout}{ran.stderr}")
    return port


def try_serve(folder):
    """serve.sh refuses a folder that it did not make. A first start that fails leaves no files, and the next one makes the log, once."""
    (folder / "cmd").mkdir()
    log, fails, calls = folder / "a log", folder / "fails", folder / "calls"
    script = served(folder / "cmd", "serve.sh", "ctserve", f"""echo "$*" >>'{calls}'
[ ! -e '{fails}' ] || {{ echo 'it fails' >&2; exit 1; }}
echo '{{"event":"serving"}}' >&2
case "$*" in *--create*) trap 'exit 0' TERM; while :; do sleep 0.1; done ;; esac""")
    port = serve_at_taken_ports(script, log)

    def serve(what, status, says, is_there):
        ran = subprocess.run([script, log, str(port)], env={**os.environ, "ROOTS": os.devnull}, capture_output=True, text=True)
        left = {path.name for path in folder.iterdir()} - {"cmd", "deps", "fails", "calls"}
        if ran.returncode != status or says not in ran.stdout + ran.stderr or left != ({log.name} if is_there else set()):
            fail(f"serve.sh, with {what}, ends with status {ran.returncode}, leaves {left} and says {ran.stdout}{ran.stderr}")

    fails.touch()
    serve("a first start that fails", 1, "it fails", False)
    fails.unlink()
    serve("a first start", 0, f"A log in {log}:", True)
    serve("a second start", 0, f"A log in {log}:", True)
    created = [("--create" in call) for call in calls.read_text().splitlines()]
    if created != [True, True, False, False]:
        fail(f"serve.sh calls ctserve by {calls.read_text()}")
    (log / "made").unlink()
    serve("another folder", 1, f"serve.sh: {log} isn't a log that serve.sh made", True)


def try_serve_witness(folder):
    """serve-witness.sh refuses a log that is not there. The first start makes the witness's key, which nobody else reads, and its state. The next one goes on."""
    (folder / "cmd").mkdir()
    log, witness, calls = folder / "a log", folder / "a witness", folder / "calls"
    script = served(folder / "cmd", "serve-witness.sh", "ctwitness", f"echo \"$*\" >>'{calls}'")
    ran = subprocess.run([script, witness, str(free_port()), log], capture_output=True, text=True)
    if ran.returncode != 1 or f"{log} has no log.pem" not in ran.stderr or witness.exists():
        fail(f"serve-witness.sh of no log: status {ran.returncode}, {ran.stderr}")
    log.mkdir()
    (log / "log.pem").touch()
    port = serve_at_taken_ports(script, witness, log)
    for _ in range(2):
        subprocess.run([script, witness, str(port), log], capture_output=True, check=True)
    of = f"--config {witness}/settings --listen 127.0.0.1:{port} --operator-listen 127.0.0.1:{port + 1}"
    due = [f"{of} --create ct-log.example", f"{of} --verifier-key", of, f"{of} --verifier-key", of]
    if calls.read_text().splitlines() != due or (witness / "key.pem").stat().st_mode & 0o077:
        fail(f"serve-witness.sh calls ctwitness by {calls.read_text()}")


def main():
    told = {}
    for case in (try_install, try_release, try_deps, try_serve, try_serve_witness):
        with tempfile.TemporaryDirectory(prefix="two words " if case is try_install else None) as folder:
            told[case] = case(pathlib.Path(folder))
    print(f"tests/user_scripts.py: as expected; a release: {told[try_release]}")


if __name__ == "__main__":
    main()
