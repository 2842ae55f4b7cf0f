#!/usr/bin/env python3
"""Makes the vendor folders for go.mod from the sources in Debian's packages.

    vendor.py UNPACKED

UNPACKED is the folder in which fetch.sh unpacked the packages of packages.txt, and where it listed their versions. The folders vendor and
vendor-static-sqlite in it are made: each has all modules of go.mod, and modules.txt, which the go command compares with go.mod. In the second one
go-sqlite3 links libsqlite3.a and compiles with sqlite3.h of Debian's package libsqlite3-dev in UNPACKED, in place of what is installed.
A package whose version is not the one that go.mod names is reported on standard error.
"""
import os
import pathlib
import re
import shutil
import sys

HERE = pathlib.Path(__file__).resolve().parent
SQLITE = "github.com/mattn/go-sqlite3"
PKCS11 = "github.com/miekg/pkcs11"
# What PKCS #11's declarations in C consist of, in Debian's packages of NSS and NSPR.
HEADERS = ("nss/pkcs11*.h", "nspr/prtypes.h", "nspr/prcpucfg.h", "nspr/obsolete/protypes.h")
# Debian generates some files again, by newer programs, so they need a newer language than their go.mod names. This is the last one with the old loops.
LANGUAGE = (1, 21)


def required():
    """Returns the modules that go.mod requires, each with the version that is named and the one that replaces it, or None."""
    text = re.sub(r"//.*", "", (HERE.parent / "go.mod").read_text())
    replaced = dict(re.findall(r"^(?:replace)?\s*(\S+) => \1 (v\S+)\s*$", text, re.M))
    return {module: (version, replaced.get(module)) for module, version in re.findall(r"^(?:require)?\s*(\S+\.\S+) (v\S+)\s*$", text, re.M)}


def packaged():
    """Yields each module of packages.txt, with its folder below Debian's sources, its package and whether that package has go.mod's version."""
    for line in (HERE / "packages.txt").read_text().splitlines():
        if line.startswith("#"):
            continue
        package, *modules = line.split()
        for module in modules:
            path, _, folder = module.partition("=")
            yield path, folder or path, package.rstrip("*"), not package.endswith("*")


def is_of(version, debian):
    """Reports whether the version of a module is that of a package. A pseudo-version has a date and a commit. Debian's version has both too."""
    debian = debian.partition(":")[2] or debian
    if commit := re.search(r"git(\d{8})\.?([0-9a-f]{7})", debian):
        return f"{commit[1]}" in version and f"-{commit[2]}" in version
    return re.match(r"[0-9.]+", debian)[0] == version.lstrip("v")


def language(go_mod):
    """Returns the version of the language that a module is compiled by."""
    named = re.search(r"^go (\d+)\.(\d+)", go_mod.read_text(), re.M) if go_mod.exists() else None
    return "{}.{}".format(*max(LANGUAGE, tuple(map(int, named.groups())) if named else LANGUAGE))


def is_left_out(folder, names, root):
    """Returns what a vendor folder does not have: tests, their data, hidden files, go.mod, and the folders of other modules."""
    folder = pathlib.Path(folder)
    return {name for name in names if name.endswith("_test.go") or name in ("testdata", "go.mod", "go.sum") or name.startswith((".", "_"))
            or (folder / name).is_symlink() and not (folder / name).exists()
            or (folder / name).is_dir() and (folder / name / "go.mod").exists() and folder / name != root}  # fmt: skip


def packages_of(module, folder):
    """Returns the import paths of the packages of a module in a folder."""
    below = sorted({path.parent.relative_to(folder) for path in folder.rglob("*.go")})
    return [module if str(path) == "." else f"{module}/{path}" for path in below]


def rename_imports(to, moved):
    """Has all packages import a module by its path. Debian's sources may import it by the name of its folder: moved has the paths by folders."""
    imported = re.compile('"(' + "|".join(map(re.escape, moved)) + ')((?:/[^"]*)?)"')
    for at in to.rglob("*.go"):
        text = at.read_text()
        renamed = imported.sub(lambda it: it[0] if it[0].startswith(f'"{moved[it[1]]}') else f'"{moved[it[1]]}{it[2]}"', text)
        if renamed != text:
            at.write_text(renamed)


def edit(at, *changes):
    """Replaces lines of a file in a vendor folder. The file may be the same one in both vendor folders: it is replaced."""
    text = at.read_text()
    for old, new in changes:
        if text.count(old) != 1:
            sys.exit(f"vendor.py: {at} has changed: it must have the line {old!r} once")
        text = text.replace(old, new)
    at.unlink()
    at.write_text(text)


def compile_with_headers(unpacked, folder):
    """Has the copy of pkcs11 in a folder compile with the declarations that are unpacked. Debian's links NSS, of which it calls nothing."""
    for pattern in HEADERS:
        for header in (unpacked / "usr/include").glob(pattern):
            to = folder / "include" / header.relative_to(unpacked / "usr/include").relative_to(pattern.split("/")[0])
            to.parent.mkdir(parents=True, exist_ok=True)
            shutil.copy(header, to)
    for name in ("params.go", "pkcs11.go", "types.go"):
        edit(folder / name, ("#cgo pkg-config: nss\n", "#cgo CFLAGS: -I${SRCDIR}/include\n"))


def link_statically(unpacked, folder):
    """Has the copy of go-sqlite3 in a folder link the library that is unpacked."""
    kept = folder / "lib"
    kept.mkdir()
    (library,) = (unpacked / "usr/lib").glob("*/libsqlite3.a")
    for path in (library, unpacked / "usr/include/sqlite3.h"):
        shutil.copy(path, kept)
    edit(folder / "sqlite3_libsqlite3.go", ("#cgo linux LDFLAGS: -lsqlite3\n", "#cgo linux LDFLAGS: -L${SRCDIR}/lib -lsqlite3 -lm\n"),
         ("#cgo CFLAGS: -DUSE_LIBSQLITE3\n", "#cgo CFLAGS: -DUSE_LIBSQLITE3 -I${SRCDIR}/lib\n"))  # fmt: skip


def make(unpacked, to):
    """Makes the vendor folder."""
    sources = unpacked / "usr/share/gocode/src"
    versions = dict(line.split() for line in (unpacked / "versions").read_text().splitlines())
    found = {path: it for path, *it in packaged()}
    lines, replacing = [], []
    for module, (named, replacement) in sorted(required().items()):
        if module not in found:
            sys.exit(f"vendor.py: no package in deps/packages.txt contains {module}, which go.mod requires: add the package to it")
        below, package, has_version = found[module]
        version = replacement or named
        if has_version and not is_of(version, versions[package]):
            print(f"deps: go.mod names {module} {version}, and Debian's {package} is {versions[package]}: the program is built with the latter", file=sys.stderr)
        source = sources / below
        shutil.copytree(source, to / module, ignore=lambda folder, names, root=source: is_left_out(folder, names, root), dirs_exist_ok=True)
        change = f" => {module} {replacement}" if replacement else ""
        lines += [f"# {module} {named}{change}", f"## explicit; go {language(source / 'go.mod')}"]
        lines += packages_of(module, to / module)
        replacing += [f"# {module}{change}"] if replacement else []
    rename_imports(to, {folder: path for path, (folder, *_) in found.items() if folder != path})
    compile_with_headers(unpacked, to / PKCS11)
    (to / "modules.txt").write_text("\n".join(lines + replacing) + "\n")


def main():
    unpacked = pathlib.Path(sys.argv[1])
    vendor, static = unpacked / "vendor", unpacked / "vendor-static-sqlite"
    make(unpacked, vendor)
    shutil.copytree(vendor, static, copy_function=os.link)
    link_statically(unpacked, static / SQLITE)


if __name__ == "__main__":
    main()
