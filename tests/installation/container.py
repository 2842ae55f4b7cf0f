#!/usr/bin/env python3
"""Builds the image of release/Containerfile out of a release's package, and runs it: a log is made, serves, takes a submission, ends by SIGTERM with
status 0, and goes on.

    container.py [--built FOLDER] [--base IMAGE]

As root, with buildah, podman and mmdebstrap, and runc where the machine has both versions of cgroups. IMAGE is Debian's slim base, docker.io/library/debian:bookworm-slim say. Without it nothing is fetched from a
registry: the base is made here of Debian's own packages, which is said. The programs are those of bare.py. It prints what it saw, and ends with status 1
where something is wrong.
"""
import argparse
import json
import os
import pathlib
import resource
import shutil
import subprocess
import sys
import tempfile
import time
import urllib.request

from bare import ROOT, Releases, fail

BASE, IMAGE = "localhost/wagtenib-trial-base", "localhost/wagtenib-trial"
WITHIN = 900


def run(*words, **how):
    ran = subprocess.run([str(word) for word in words], capture_output=True, text=True, **how)
    if ran.returncode:
        fail(f"{' '.join(map(str, words))[:200]}: status {ran.returncode}: {ran.stdout[-2000:]}{ran.stderr[-2000:]}")
    return ran.stdout.strip()


def limits():
    """This machine's limits: one that may not raise them (without CAP_SYS_RESOURCE) starts nothing with podman's own. That of processes podman sets to pid_max."""
    of, most = {"nofile": resource.RLIMIT_NOFILE, "nproc": resource.RLIMIT_NPROC}, int(pathlib.Path("/proc/sys/kernel/pid_max").read_text())
    return [word for name, which in of.items() for word in ("--ulimit", "{}={}:{}".format(name, *(min(one, most) if name == "nproc" and one >= 0 else one for one in resource.getrlimit(which))))]


# If both versions of cgroups are mounted, crun, which podman takes, starts nothing, and runc does. runc starts nothing without cgroups.
BOTH = pathlib.Path("/sys/fs/cgroup/unified").exists()


class Tool:
    """buildah and podman over a store of their own, which goes at the end."""

    def __init__(self, store):
        self.store = ["--root", store / "root", "--runroot", store / "run", "--storage-driver", "vfs"]

    def buildah(self, *words):
        return run("buildah", *self.store, *words)

    def podman(self, *words):
        return run("podman", *self.store, "--cgroup-manager", "cgroupfs", *(["--runtime", "runc"] if BOTH else []), *words)

    def start(self, *words):
        """Runs an image on this machine's network, with its limits."""
        return self.podman("run", "--network", "host", "--cgroups", "enabled" if BOTH else "disabled", *limits(), *words)


def base(tool, work, more):
    """Debian's base of Debian's own packages, as an image."""
    tree = work / "base.tar"
    run("mmdebstrap", "--variant=minbase", "--quiet", "--dpkgopt=force-unsafe-io", f"--include={more}", "bookworm", tree)
    name = tool.buildah("from", "scratch")
    tool.buildah("add", name, tree, "/")
    tool.buildah("commit", "--rm", name, BASE)
    tree.unlink()
    return BASE


def settings(work, port):
    """A log's settings, key, roots and a submission, for the image's user."""
    at = work / "settings"
    at.mkdir()
    (at / "log.conf").write_text(f"origin log.example\nsigning-key /etc/ctserve/log.key\nroots /etc/ctserve/roots.pem\nfolder /var/lib/ctserve/log\nlisten 127.0.0.1:{port}\noperator-listen 127.0.0.1:{port + 1}\n")
    script = """set -e; cd "$1"; for n in log root leaf; do openssl ecparam -name prime256v1 -genkey -noout -out $n.key; done
openssl req -x509 -key root.key -subj "/CN=A root of a trial" -days 3650 -out roots.pem
openssl req -new -key leaf.key -subj /CN=www.example.org -out leaf.csr
openssl x509 -req -in leaf.csr -CA roots.pem -CAkey root.key -set_serial 1 -days 60 -out leaf.pem
printf '{"chain":["%s","%s"]}' "$(openssl x509 -in leaf.pem -outform DER | base64 -w 0)" "$(openssl x509 -in roots.pem -outform DER | base64 -w 0)" >chain.json
chmod 644 roots.pem; chmod 600 log.key"""
    run("bash", "-c", script, "bash", at)
    return at


class Container:
    """A log in the image."""

    def __init__(self, tool, at, data, port):
        self.tool, self.at, self.data, self.port = tool, at, data, port

    def start(self, *more):
        self.name = self.tool.start("--detach", "--volume", f"{self.at}:/etc/ctserve:ro", "--volume", f"{self.data}:/var/lib/ctserve", IMAGE, *more)
        last = time.monotonic() + WITHIN
        while '"event":"serving"' not in self.said():
            if self.tool.podman("inspect", "--format", "{{.State.Running}}", self.name) != "true" or time.monotonic() > last:
                fail(f"the container doesn't serve: {self.said()}")
            time.sleep(0.3)

    def said(self):
        ran = subprocess.run(["podman", *map(str, self.tool.store), "logs", self.name], capture_output=True, text=True)
        return ran.stdout + ran.stderr

    def ask(self, path, body=None):
        with urllib.request.urlopen(urllib.request.Request(f"http://127.0.0.1:{self.port}{path}", data=body), timeout=60) as answer:
            return answer.read()

    def end(self):
        self.tool.podman("stop", "--time", "60", self.name)
        status = self.tool.podman("inspect", "--format", "{{.State.ExitCode}}", self.name)
        if status != "0":
            fail(f"the container ends with status {status}: {self.said()}")


def trial(tool, work, given):
    releases = Releases(work, given.built)
    packages = [path for path in releases.make(work / "out") if path.name.startswith("wagtenib_")]
    context = work / "context"
    context.mkdir()
    for path in [*packages, ROOT / "release" / "Containerfile"]:
        shutil.copy(path, context)
    of = given.base or base(tool, work, "ca-certificates")
    print(f"The base is {of}" + ("." if given.base else ", made here by mmdebstrap: no registry is asked."), flush=True)
    tool.buildah("build", "--network", "host", "--isolation", "chroot", "--build-arg", f"BASE={of}", "--tag", IMAGE, "--file", context / "Containerfile", context)
    sys.path.append(str(ROOT / "tests"))
    from readme import free_port

    port = free_port()
    at, data = settings(work, port), work / "data"
    data.mkdir()
    number = tool.start("--rm", "--entrypoint", "id", IMAGE, "-u")
    for path in (data, at / "log.key"):
        os.chown(path, int(number), -1)
    log = Container(tool, at, data, port)
    log.start("--create")
    first = json.loads(log.ask("/ct/v1/add-chain", (at / "chain.json").read_bytes()))
    log.end()
    log.start()
    again = json.loads(log.ask("/ct/v1/add-chain", (at / "chain.json").read_bytes()))
    size = int(run("curl", "--silent", "--fail", f"http://127.0.0.1:{port}/checkpoint").splitlines()[1])
    if number == "0" or size != 1 or again["timestamp"] != first["timestamp"]:
        fail(f"as user {number}, after a second start: {size} entries, {again['timestamp']}, and {first['timestamp']} before")
    log.end()
    print("container.py: the image is built, and its log serves its head to curl, takes a submission, ends in order, and goes on.")


def main():
    words = argparse.ArgumentParser(description="Builds the image of release/Containerfile, and runs it.")
    words.add_argument("--built", type=pathlib.Path, default=ROOT / "crates", help="the folder in which the crates' builds lie")
    words.add_argument("--base", help="Debian's slim base")
    given = words.parse_args()
    lacking = [tool for tool in ("buildah", "podman", "mmdebstrap", "openssl", "curl", *(["runc"] if BOTH else [])) if not shutil.which(tool)]
    if os.geteuid() or lacking:
        fail(f"the container's trial needs root, and lacks {', '.join(lacking) or 'nothing else'}")
    work = pathlib.Path(tempfile.mkdtemp(prefix="container-"))
    tool = Tool(work / "store")
    try:
        trial(tool, work, given)
    finally:
        subprocess.run(["podman", *map(str, tool.store), "rm", "--all", "--force"], capture_output=True)
        subprocess.run(["podman", *map(str, tool.store), "unshare", "true"], capture_output=True)
        subprocess.run(["rm", "-rf", work])


if __name__ == "__main__":
    main()
