#!/usr/bin/env python3
"""Makes a release out of what is built: a tarball, Debian packages, SHA256SUMS of both, and what they are made of (SBOM, SPDX 2.3).

    release.py [--built FOLDER] [--service FOLDER] [--to FOLDER] [--quickly]

By default the programs are taken from crates/NAME/out, the service from cmd/out, and all goes to release/out. Nothing is built: a missing program is named,
with the command that builds it. Each program has to say at --version that it is of VERSION, those in Go also that they are of this commit. --quickly packs
less tightly, and asks no program, for trials. The same files give the same bytes each time, whatever the folder and the hour: moments are the commit's,
owners are root, and names are sorted.
"""
import argparse
import gzip
import hashlib
import io
import json
import os
import pathlib
import re
import shutil
import subprocess
import sys
import tarfile
import tempfile
import textwrap
import time

ROOT = pathlib.Path(__file__).resolve().parent.parent
PROGRAMS = {"ctlog": "make demo"}
# The services that contain the proved code of dist/.
LINKED = ("ctaudit", "ctserve", "ctwatch", "ctwitness")
SERVICE = ("ctserve", "ctaudit", "ctload", "ctwitness", "ctwatch")
UNITS = ("ctserve@.service", "ctserve-signer@.service", "ctwitness@.service")
WATCH_UNITS = ("ctwatch.service",)
SHARED = (
    "prometheus/prometheus.yml",
    "prometheus/ctserve.rules.yml",
    "prometheus/ctserve.dashboard.json",
    "nginx/ctserve.nginx.conf",
    "nginx/ctserve.folder.nginx.conf",
    "Containerfile",
)
MACHINE, DEBIAN = "x86_64", "amd64"
LIBRARY = "lib/x86_64-linux-gnu"
HOMEPAGE = "https://wagtenib.example/"

# The pages for users and operators, beside the README.
PAGES = ("OPERATING", "ACCEPTED", "ARCHIVE", "AUDIT", "GUARD", "GROWTH", "TILES", "LINES", "PROMISES", "WATCH", "WITNESS")

# Each package: its description, the packages that it needs beside libc6, and those that it recommends.
PACKAGES = {
    "wagtenib": (
        "Certificate Transparency log with proved steps, guard and proofs",
        "ctserve serves a log over HTTP (RFC 6962, C2SP static-ct-api), and ctwitness is a witness. Proved code in them decides what is appended, what is signed and what is cosigned; the rest of them, and what loads a log, is not proved. ctlog, a log in memory, is proved.",
        "adduser, libsqlite3-0, procps",
        "ca-certificates, ctaudit, nginx | httpd, openssl",
    ),
    "ctwatch": (
        "alerts to certificates for your names in Certificate Transparency logs",
        "ctwatch follows the logs of a log list, and alerts by mail, webhook or command to each certificate for the names of its owner. Proved code in it decides which names a certificate has, and whether a log kept its promises; the rest of it is not proved.",
        "adduser, ca-certificates, libsqlite3-0",
        "ctaudit, default-mta | mail-transport-agent",
    ),
    "ctaudit": (
        "audits of Certificate Transparency logs",
        "ctaudit asks logs whether they keep the promises in certificates, compares the tree heads that they show to others, checks evidence against a log, looks at a log from outside as the monitor of a browser's programme does, and judges what a log published. Proved code in it decides whether proofs hold; the rest of it is not proved.",
        "ca-certificates, libsqlite3-0",
        "",
    ),
    "libwagtenib-dev": (
        "proved checks of Certificate Transparency proofs, for C",
        "The verifiers of RFC 9162, sections 2.1.3 and 2.1.4, as a library for C: static and shared, a header and what pkg-config reads.",
        "",
        "",
    ),
}


# The reports of lintian about the packages that are on purpose, with the reasons.
UNSTRIPPED = "the bytes are those of the build, which make reproduce compares"
NO_PAGES = "each program says at --help what it takes; the pages are in /usr/share/doc"
OVERRIDES = {
    "wagtenib": {
        "unstripped-binary-or-object": UNSTRIPPED, "no-manual-page": NO_PAGES,
        "hardening-no-pie": "the programs in Go are linked at fixed addresses, as Go does where nothing else is said",
        "maintainer-script-calls-systemctl": "logs and witnesses are instances of templates, which deb-systemd-invoke doesn't start anew by a pattern",
    },
    "ctwatch": {
        "unstripped-binary-or-object": UNSTRIPPED, "no-manual-page": NO_PAGES,
        "hardening-no-pie": "programs in Go are linked at fixed addresses, as Go does where nothing else is said",
    },
    "ctaudit": {
        "unstripped-binary-or-object": UNSTRIPPED, "no-manual-page": NO_PAGES,
        "hardening-no-pie": "programs in Go are linked at fixed addresses, as Go does where nothing else is said",
    },
    "libwagtenib-dev": {"unstripped-binary-or-object": UNSTRIPPED},
}


def stop(text):
    sys.exit(f"release.py: {text}")


def run(*words, **how):
    return subprocess.run(words, cwd=ROOT, capture_output=True, text=True, **how)


def commit():
    """The commit's hash, followed by + if files differ from it, and its time in seconds."""
    said = run("git", "log", "-1", "--format=%H %ct").stdout.split()
    if len(said) != 2:
        stop("there is no commit here")
    differs = run("git", "status", "--porcelain", "--untracked-files=no").stdout.strip()
    return said[0] + ("+" if differs else ""), int(said[1])


class Release:
    """The files of the package."""

    def __init__(self, built, service, to, quickly=False):
        self.quickly = quickly
        self.built, self.service, self.to = pathlib.Path(built), pathlib.Path(service), pathlib.Path(to)
        self.version = (ROOT / "VERSION").read_text().strip()
        self.commit, self.moment = commit()
        self.logic = (run("rt", "version").stdout.split() or ["unknown"])[-1] if shutil.which("rt") else "unknown"
        self.programs = {**{name: self.built / name / "out" / name for name in PROGRAMS}, **{name: self.service / name for name in SERVICE}}
        self.linked = self.built / "libwagtenib" / "out" / "link" / "libwagtenib"

    def lacking(self):
        found = [f"{name} ({PROGRAMS.get(name, 'make service')})" for name, path in self.programs.items() if not path.is_file()]
        return found + [f"{path.name} (make link)" for path in (self.linked.with_suffix(".a"), self.linked.with_suffix(".so")) if not path.is_file()]

    def others(self):
        """The programs that say at --version that they are of another version than VERSION, or in Go of another commit than this one or with a build option."""
        for name, path in self.programs.items():
            said = run(path, "--version").stdout.strip()
            of_commit = rf" \(commit {self.commit[:12]}\+?\)" if name in SERVICE else "( .*)?"
            if not re.fullmatch(re.escape(f"{name} {self.version}") + of_commit, said):
                yield f"{name} ({said or 'nothing'})"

    def proved(self, files):
        """What PROVED says of a release's files: of which commit and by which logic they were built, and their SHA-256, as sha256sum checks them."""
        held = {path: it[0] for path, it in files.items() if isinstance(it, tuple)}
        by_kit = {path: data for path, data in held.items() if path.split("/")[-1] in PROGRAMS or path.split("/")[-1].startswith("libwagtenib.")}
        in_go = {path: data for path, data in held.items() if path.split("/")[-1] in SERVICE}
        text = f"# Wagtenib {self.version}, commit {self.commit}, logic {self.logic}\n# Built by the Rattle kit, which builds no crate that isn't proved:\n{sums_of(by_kit)}"
        return text + (f"# In Go, and not proved; {' and '.join(LINKED)} contain the proved code of dist/, of which dist/SOURCES of this commit says what it is made of:\n{sums_of(in_go)}" if in_go else "")

    def documents(self):
        """Pages by their names."""
        found = {name: ROOT / name for name in ("README.md", "CHANGELOG.md", "LICENSE")}
        found.update({f"{page}.md": ROOT / "docs" / f"{page}.md" for page in PAGES if (ROOT / "docs" / f"{page}.md").exists()})
        pages = {"service.md": "docs/SERVICE.md", "INCIDENTS.md": "docs/INCIDENTS.md", "LINKING.md": "examples/link/README.md"}
        return {**found, **{name: ROOT / path for name, path in pages.items()}}

    def shared(self):
        """The files that an operator installs: Prometheus' settings, the alerts, the dashboard, and the recipe for an image."""
        return {path.name: path for path in (ROOT / "release" / name for name in SHARED)}

    def pkg_config(self, prefix):
        return (ROOT / "include" / "wagtenib.pc.in").read_text().replace("@PREFIX@", prefix).replace("@VERSION@", self.version)

    def library_files(self, folder):
        """The library's files and links below a folder: bytes, or the name that a link leads to."""
        so = f"libwagtenib.so.{self.version}"
        return {
            f"{folder}/libwagtenib.a": (self.linked.with_suffix(".a").read_bytes(), 0o644),
            f"{folder}/{so}": (self.linked.with_suffix(".so").read_bytes(), 0o644),
            f"{folder}/libwagtenib.so.0": so,
            f"{folder}/libwagtenib.so": "libwagtenib.so.0",
        }

    def tree(self):
        """The tarball's files by their paths."""
        found = {f"bin/{name}": (path.read_bytes(), 0o755) for name, path in self.programs.items()}
        found.update(self.library_files("lib"))
        found["lib/pkgconfig/wagtenib.pc"] = (self.pkg_config("/usr/local").encode(), 0o644)
        found["include/wagtenib.h"] = ((ROOT / "include" / "wagtenib.h").read_bytes(), 0o644)
        found.update({f"lib/systemd/system/{unit}": ((ROOT / "release" / "systemd" / unit).read_bytes(), 0o644) for unit in UNITS + WATCH_UNITS})
        found.update({f"share/wagtenib/{name}": (path.read_bytes(), 0o644) for name, path in self.shared().items()})
        found.update({f"share/doc/wagtenib/{name}": (path.read_bytes(), 0o644) for name, path in self.documents().items()})
        found["PROVED"] = (self.proved(found).encode(), 0o644)
        found["SBOM.spdx.json"] = (sbom(self).encode(), 0o644)
        found["SHA256SUMS"] = (sums_of({path: it[0] for path, it in found.items() if isinstance(it, tuple)}).encode(), 0o644)
        return found

    def package(self, name):
        """A Debian package's files by their paths."""
        doc = f"usr/share/doc/{name}"
        found = {f"{doc}/copyright": (copyright_text().encode(), 0o644), f"{doc}/changelog.gz": (packed(self.changelog(name).encode(), self.moment), 0o644)}
        if name == "ctwatch":
            found["usr/bin/ctwatch"] = (self.programs["ctwatch"].read_bytes(), 0o755)
            found[f"{doc}/WATCH.md"] = (self.documents()["WATCH.md"].read_bytes(), 0o644)
            found.update(installed_units(WATCH_UNITS))
            found["etc/ctwatch.conf"] = ((ROOT / "release" / "ctwatch.conf").read_bytes(), 0o644)
        elif name == "ctaudit":
            found["usr/bin/ctaudit"] = (self.programs["ctaudit"].read_bytes(), 0o755)
            found[f"{doc}/AUDIT.md"] = (self.documents()["AUDIT.md"].read_bytes(), 0o644)
        elif name == "libwagtenib-dev":
            found.update(self.library_files(f"usr/{LIBRARY}"))
            found[f"usr/{LIBRARY}/pkgconfig/wagtenib.pc"] = (self.pkg_config("/usr").replace("${prefix}/lib", f"${{prefix}}/{LIBRARY}").encode(), 0o644)
            found["usr/include/wagtenib.h"] = ((ROOT / "include" / "wagtenib.h").read_bytes(), 0o644)
            found[f"{doc}/LINKING.md"] = (self.documents()["LINKING.md"].read_bytes(), 0o644)
        else:
            found.update({f"usr/bin/{command}": (path.read_bytes(), 0o755) for command, path in self.programs.items() if command not in PACKAGES})
            found.update(installed_units(UNITS))
            found.update({f"usr/share/wagtenib/{file}": (path.read_bytes(), 0o644) for file, path in self.shared().items()})
            found.update({f"{doc}/{page}": (path.read_bytes(), 0o644) for page, path in self.documents().items() if page != "LICENSE"})
            found.update({"etc/ctserve": None, "etc/ctwitness": None})
        found[f"usr/share/{name}/PROVED"] = (self.proved(found).encode(), 0o644)
        overrides = "".join(f"# {why}\n{name}: {tag}\n" for tag, why in OVERRIDES[name].items())
        found[f"usr/share/lintian/overrides/{name}"] = (overrides.encode(), 0o644)
        return found

    def changelog(self, name):
        date = time.strftime("%a, %d %b %Y %H:%M:%S +0000", time.gmtime(self.moment))
        return f"{name} ({self.version}) unstable; urgency=medium\n\n  * CHANGELOG.md of the package wagtenib says what is new.\n\n -- Wagtenib maintainers <{maintainer()}>  {date}\n"

    def control(self, name, size):
        about, more, needs, recommends = PACKAGES[name]
        lines = [f"Package: {name}", f"Version: {self.version}", f"Architecture: {DEBIAN}", f"Maintainer: Wagtenib maintainers <{maintainer()}>", f"Installed-Size: {size}"]
        if name != "libwagtenib-dev":
            lines.append(f"Depends: {', '.join(filter(None, [f'libc6 (>= {self.libc(name)})', needs]))}")
        else:
            lines.append(f"Depends: libc6 (>= {self.libc(name)})")
        lines += [f"Recommends: {recommends}"] if recommends else []
        lines += ["Section: " + ("libdevel" if name.endswith("-dev") else "net"), "Priority: optional", f"Homepage: {HOMEPAGE}", f"Description: {about}"]
        return "\n".join([*lines, *(f" {line}" for line in textwrap.wrap(more, 76))]) + "\n"

    def libc(self, name):
        """The newest version of libc that one of the package's programs asks for, by what objdump reads."""
        alone = {it: [path] for it, path in self.programs.items() if it in PACKAGES}
        paths = {**alone, "libwagtenib-dev": [self.linked.with_suffix(".so")]}.get(name) or [path for it, path in self.programs.items() if it not in alone]
        asked = [tuple(map(int, it.split("."))) for path in paths for it in re.findall(r"GLIBC_([0-9.]+)\)", run("objdump", "-T", path).stdout)]
        return ".".join(map(str, max(asked, default=(2, 34))))


def installed_units(names):
    """Units as a package has them: of the programs that it installs."""
    texts = {name: (ROOT / "release" / "systemd" / name).read_text().replace("/usr/local/bin/", "/usr/bin/") for name in names}
    return {f"lib/systemd/system/{name}": (text.encode(), 0o644) for name, text in texts.items()}


def maintainer():
    return "maintainers@wagtenib.example"


def packed(data, moment, level=9):
    """Bytes as gzip packs them, with no name and one moment."""
    out = io.BytesIO()
    with gzip.GzipFile(fileobj=out, mode="wb", compresslevel=level, mtime=moment) as file:
        file.write(data)
    return out.getvalue()


def sums_of(files):
    return "".join(f"{hashlib.sha256(data).hexdigest()}  {path}\n" for path, data in sorted(files.items()))


def copyright_text():
    return """Format: https://www.debian.org/doc/packaging-manuals/copyright-format/1.0/
Upstream-Name: wagtenib

Files: *
Copyright: 2026 Wagtenib maintainers
License: Apache-2.0
 On Debian systems the text of the Apache License, version 2.0, is in
 /usr/share/common-licenses/Apache-2.0.
"""


def tarball(files, top, moment, level):
    """A tarball's bytes: of these files below one folder, sorted, of root, with one moment."""
    out = io.BytesIO()
    with tarfile.open(fileobj=out, mode="w", format=tarfile.GNU_FORMAT) as archive:
        for path, it in sorted(files.items()):
            member = tarfile.TarInfo(f"{top}/{path}")
            member.mtime, member.uname, member.gname = moment, "root", "root"
            if isinstance(it, str):
                member.type, member.linkname = tarfile.SYMTYPE, it
                archive.addfile(member)
            else:
                data, member.mode = it
                member.size = len(data)
                archive.addfile(member, io.BytesIO(data))
    return packed(out.getvalue(), moment, level)


POSTINST = """#!/bin/sh
set -e
if [ "$1" = configure ]; then
  adduser --quiet --system --group --no-create-home --home /var/lib/ctserve ctserve
  install -d -m 751 -o ctserve -g ctserve /var/lib/ctserve
  adduser --quiet --system --group --no-create-home --home /var/lib/ctwitness ctwitness
  install -d -m 750 -o ctwitness -g ctwitness /var/lib/ctwitness
  if [ -d /run/systemd/system ]; then
    systemctl --system daemon-reload >/dev/null || true
    # (logs that run go on in the new version once they are started again)
    systemctl try-restart 'ctserve-signer@*' 'ctserve@*' 'ctwitness@*' >/dev/null || true
  fi
fi
"""

POSTRM = """#!/bin/sh
set -e
# (logs, keys and their user stay, also at a purge: a log that is gone can't be made again)
if [ "$1" = remove ] && [ -d /run/systemd/system ]; then
  systemctl --system daemon-reload >/dev/null || true
fi
"""


WATCH_POSTINST = """#!/bin/sh
set -e
if [ "$1" = configure ]; then
  adduser --quiet --system --group --no-create-home --home /var/lib/ctwatch ctwatch
  if [ -d /run/systemd/system ]; then
    systemctl --system daemon-reload >/dev/null || true
    systemctl try-restart ctwatch.service >/dev/null || true
  fi
fi
"""

SCRIPTS = {"wagtenib": {"postinst": POSTINST, "postrm": POSTRM}, "ctwatch": {"postinst": WATCH_POSTINST, "postrm": POSTRM}}


def write_tree(files, folder):
    for path, it in files.items():
        at = folder / path
        (at if it is None else at.parent).mkdir(parents=True, exist_ok=True)
        if isinstance(it, str):
            at.symlink_to(it)
        elif it is not None:
            at.write_bytes(it[0])
            at.chmod(it[1])
    for at in [folder, *(path for path in folder.rglob("*") if path.is_dir() and not path.is_symlink())]:
        at.chmod(0o755)


def make_package(release, name, to):
    """Has dpkg-deb make one package."""
    files = release.package(name)
    size = sum(len(it[0]) for it in files.values() if isinstance(it, tuple)) // 1024 + 1
    with tempfile.TemporaryDirectory() as work:
        folder = pathlib.Path(work) / name
        sums = {path: it[0] for path, it in files.items() if isinstance(it, tuple)}
        files = {**files, "DEBIAN/control": (release.control(name, size).encode(), 0o644)}
        files["DEBIAN/md5sums"] = ("".join(f"{hashlib.md5(data).hexdigest()}  {path}\n" for path, data in sorted(sums.items())).encode(), 0o644)
        if scripts := SCRIPTS.get(name):
            files.update({f"DEBIAN/{script}": (text.encode(), 0o755) for script, text in scripts.items()})
        if kept := [f"/{path}" for path, it in sorted(files.items()) if path.startswith("etc/") and it]:
            files["DEBIAN/conffiles"] = ("".join(f"{path}\n" for path in kept).encode(), 0o644)
        write_tree(files, folder)
        path = to / f"{name}_{release.version}_{DEBIAN}.deb"
        environment = {**os.environ, "SOURCE_DATE_EPOCH": str(release.moment)}
        packing = ["-Zgzip", "-z1"] if release.quickly else ["-Zxz"]
        ran = run("dpkg-deb", "--root-owner-group", "--threads-max=1", *packing, "--build", folder, path, env=environment)
        if ran.returncode:
            stop(f"dpkg-deb: {ran.stderr.strip()}")
    return path


def go_modules(release):
    """Returns the modules that are linked into the programs in Go, each with its version and where its sources are from, and Go itself. A trial has none where
    Go isn't there."""
    ran, go = run("cmd/build.sh", "modules", env={**os.environ, "SETUP": "no"}), run("deps/go", "env", "GOVERSION")
    if ran.returncode or go.returncode:
        if release.quickly:
            return []
        stop(f"the modules of the programs in Go can't be listed: {(ran.stderr or go.stderr).strip()}")
    lines = [line.split() for line in (ROOT / "deps" / "packages.txt").read_text().splitlines() if line[0] != "#"]
    package = {module.partition("=")[0]: name.rstrip("*") for name, *modules in lines for module in modules}
    listed = (ROOT / "vendor").resolve().parent / "versions"
    versions = dict(line.split() for line in listed.read_text().splitlines()) if listed.exists() else {}
    found = [("go", go.stdout.strip().removeprefix("go"), "the compiler and the standard library")]
    for module, version in (line.split() for line in ran.stdout.splitlines()):
        debian = versions.get(package.get(module))
        found.append((module, version, f"its sources are those of Debian's {package[module]} {debian}" if debian else "its sources are a module proxy's"))
    return found


def c_libraries(release):
    """Returns the C libraries of the programs in Go: each with its version, how it is linked (a relationship of SPDX), and the programs that have it. `objdump` names those that
    the system loads. SQLite is compiled into a program that contains its header and does not load it."""
    listed = (ROOT / "vendor").resolve().parent / "versions"
    versions = dict(line.split() for line in listed.read_text().splitlines()) if listed.exists() else {}
    found = {}
    for name in SERVICE:
        loaded = re.findall(r"NEEDED +(\S+)", run("objdump", "-p", release.programs[name]).stdout)
        for library in loaded:
            found.setdefault((library, "NOASSERTION", "DYNAMIC_LINK"), []).append(name)
        if not any(library.startswith("libsqlite3") for library in loaded) and b"SQLite format 3\0" in release.programs[name].read_bytes():
            found.setdefault(("sqlite3", versions.get("libsqlite3-dev", "NOASSERTION"), "STATIC_LINK"), []).append(name)
    return [(library, version, relation, programs) for (library, version, relation), programs in sorted(found.items())]


def crates_of_the_kit():
    """The kit's libraries that the crates name, and std."""
    lines = [line.partition(":") for line in (ROOT / "crates.txt").read_text().splitlines() if line and line[0] != "#"]
    own = {head.split()[0] for head, _, _ in lines}
    return sorted({it for _, _, below in lines for it in below.split() if it not in own} | {"std"})


def sbom(release):
    """The parts of the programs, in SPDX 2.3 (JSON)."""
    created = time.strftime("%Y-%m-%dT%H:%M:%SZ", time.gmtime(release.moment))

    def package(name, version, supplier, comment, **more):
        of = re.sub(r"[^A-Za-z0-9.-]", "-", f"{supplier}-{name}")
        return {"SPDXID": f"SPDXRef-{of}", "name": name, "versionInfo": version, "downloadLocation": "NOASSERTION", "filesAnalyzed": False, "comment": comment, **more}

    def located(module, version):
        return [{"referenceCategory": "PACKAGE-MANAGER", "referenceType": "purl", "referenceLocator": f"pkg:golang/{module}@{version}"}]

    own = [package(name, release.version, "wagtenib", "proved" if name in PROGRAMS else "in Go, not proved, with the proved code of dist/" if name in LINKED else "in Go, not proved") for name in release.programs]
    own.append(package("libwagtenib", release.version, "wagtenib", "proved"))
    kit = [package(name, release.logic, "rattle", "a library of the Rattle kit, by its logic") for name in crates_of_the_kit()]
    go = [package(name, version, "go", f"linked into the programs in Go; {comment}", externalRefs=located(name, version)) for name, version, comment in go_modules(release)]
    in_c, relations_in_c = [], []
    for name, version, relation, programs in c_libraries(release):
        how = "loaded from the system by" if relation == "DYNAMIC_LINK" else "compiled from Debian's libsqlite3-dev into"
        in_c.append(package(name, version, "c", f"{how} programs in Go"))
        users = [it["SPDXID"] for it in own if it["name"] in programs]
        relations_in_c += [{"spdxElementId": user, "relationshipType": relation, "relatedSpdxElement": in_c[-1]["SPDXID"]} for user in users]
    relations = [{"spdxElementId": "SPDXRef-DOCUMENT", "relationshipType": "DESCRIBES", "relatedSpdxElement": it["SPDXID"]} for it in own]
    for it in own:
        below = (go if it["name"] in SERVICE else []) + (kit if it["name"] not in SERVICE or it["name"] in LINKED else [])
        relations += [{"spdxElementId": it["SPDXID"], "relationshipType": "STATIC_LINK", "relatedSpdxElement": lib["SPDXID"]} for lib in below]
    document = {
        "spdxVersion": "SPDX-2.3", "dataLicense": "CC0-1.0", "SPDXID": "SPDXRef-DOCUMENT", "name": f"wagtenib-{release.version}",
        "documentNamespace": f"{HOMEPAGE}spdx/{release.version}-{release.commit}",
        "creationInfo": {"created": created, "creators": ["Tool: release.py"]}, "packages": [*own, *kit, *go, *in_c], "relationships": relations + relations_in_c,
    }
    return json.dumps(document, indent=1) + "\n"


def tagging(release):
    """The command that tags the commit of a release: a signed tag, whose text has the sums."""
    if release.commit.endswith("+"):
        return "No tag: files differ from the commit. A release is made of a commit, with a logic that is known."
    return f"To tag it, once these sums are another machine's, too:\ngit tag --sign v{release.version} --file release/out/SHA256SUMS {release.commit} && git push origin v{release.version}"


def main():
    words = argparse.ArgumentParser(description="Makes a release out of what is built.")
    words.add_argument("--built", default=ROOT / "crates", help="the folder in which the crates' builds lie")
    words.add_argument("--service", default=ROOT / "cmd" / "out", help="the folder of the programs in Go")
    words.add_argument("--to", default=ROOT / "release" / "out", help="where the release is put")
    words.add_argument("--quickly", action="store_true", help="pack less tightly, and ask no program for its version, for trials")
    given = words.parse_args()
    for tool in ("dpkg-deb", "objdump"):
        if not shutil.which(tool):
            stop(f"{tool} isn't on the PATH (Debian: {'dpkg' if tool == 'dpkg-deb' else 'binutils'})")
    release = Release(given.built, given.service, given.to, given.quickly)
    if lacking := release.lacking():
        stop(f"this isn't built: {', '.join(lacking)}")
    if not given.quickly and (others := list(release.others())):
        stop(f"of another version than {release.version}, or another commit than {release.commit[:12]}, or with a build option: {', '.join(others)}")
    shutil.rmtree(release.to, ignore_errors=True)
    release.to.mkdir(parents=True)
    top = f"wagtenib-{release.version}"
    (release.to / f"{top}-{MACHINE}.tar.gz").write_bytes(tarball(release.tree(), top, release.moment, 1 if release.quickly else 9))
    for name in PACKAGES:
        make_package(release, name, release.to)
    (release.to / "SBOM.spdx.json").write_text(sbom(release))
    (release.to / "SHA256SUMS").write_text(sums_of({path.name: path.read_bytes() for path in release.to.iterdir()}))
    print((release.to / "SHA256SUMS").read_text(), end="")
    print(tagging(release))


if __name__ == "__main__":
    main()
