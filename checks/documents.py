#!/usr/bin/env python3
"""Checks that everything that the documents name exists: links, files, functions, words of the code, and targets of the Makefile.

It reads the pages of the top folder (except CHANGELOG.md, of which it checks only the links), docs/**/*.md (except the parts that checking.py generates) and the
pages of other folders in PAGES. It checks that

- a link leads to a file, and its # to a heading there;
- in code (spans and blocks), a path is a file of this repository, `Type::name` a function or a case, `name()` a function, and `make name` a target;
- a name with a capital inside or an underscore, and a span of one word, occur in the code outside of comments, or in elsewhere.txt, which has no others;
- `make help` lists each target, except the parts of `make install`;
- a block below a comment `<!-- from FILE -->` has only text of that file, in its order (a line of `..` marks omitted text, and lines may be wrapped
  differently);
- the programs, the library and CHANGELOG.md state the version in VERSION;
- docs/README.md, the index, links to each page.

It prints each violation, and ends with status 1 if there is one. Before that it tests itself on a page where each of the first five is wrong.
"""
import os
import pathlib
import re
import sys

from source import MADE, ROOT

LINK = re.compile(r"\[[^\]]*\]\(([^)\s]+)\)")
BLOCK = re.compile(r"^```.*?^```$|(?:^(?: {4}|\t)[^\n]*\n)+", re.M | re.S)
SPAN = re.compile(r"`([^`]+)`")
PATH = re.compile(r"(?<![\w/.<-])(?:[\w.-]+/)*[\w-]+(?:\.[\w-]+)*\.(?:rt|antt|py|sh|md|jsonl|txt|c|h|rs|in|edit)\b(?![\w/])|(?<![\w/.<:-])(?:[\w.-]+/)+(?![\w*])")
PAIR = re.compile(r"\b([A-Za-z]\w*)::([A-Za-z]\w*)")
CALL = re.compile(r"(?<![\w.])([a-z]\w*)\(\)")
NAME = re.compile(r"\b(?:[A-Z][a-z0-9]+(?:[A-Z][a-z0-9]*)+|[a-z]+(?:_[a-z0-9]+)+)\b")
MAKE = re.compile(r"\bmake ([a-z]+(?:-[a-z]+)*)")
QUOTED = re.compile(r"^<!-- from (\S+) -->\n+(```.*?^```$|(?:^ {4}[^\n]*\n)+)", re.M | re.S)
# The pages that are read, in addition to docs/.
READMES = (
    "bench", "bindings", "bindings/go/wagtenib", "bindings/python", "bindings/rust", "checks", "cmd", "crates", "deps", "dist", "examples", "examples/link", "include",
    "internal", "internal/log/node", "internal/sim", "release", "tests",
)
PAGES = ("README.md", "CONTRIBUTING.md", "SECURITY.md", "bench/peers.md", *(f"{folder}/README.md" for folder in READMES))
# Files that do not count as code: this script, with its own page of faults, and elsewhere.txt.
OWN = ("documents.py", "elsewhere.txt")
# Words of the kit, of std, of the C library, of other crates and of standards, which occur in no code here.
ELSEWHERE = set((ROOT / "checks" / "elsewhere.txt").read_text().split())


def files():
    """Returns the paths of all files of the repository, relative to its top, without generated files, and without other things than files (such as sockets)."""
    found = []
    for folder, below, names in os.walk(ROOT):
        below[:] = [name for name in below if name not in MADE]
        paths = [pathlib.Path(folder, name) for name in names if name not in MADE]
        found += [path.relative_to(ROOT) for path in paths if path.is_file()]
    return found


def pages():
    return [*(ROOT / page for page in PAGES), *sorted((ROOT / "docs").glob("**/*.md"))]


def words_of_code(paths):
    """Returns each word of the code, without the comments of the crates, and the names of all files and folders."""
    found = set()
    for path in paths:
        found.update(part.split(".")[0] for part in path.parts)
        if path.suffix == ".md" or path.name in OWN:
            continue
        text = (ROOT / path).read_text(errors="replace")
        comment = {".rt": r"//[^\n]*", ".antt": r"--[^\n]*"}.get(path.suffix)
        found.update(re.findall(r"\w+", re.sub(comment, "", text) if comment else text))
    return found


def functions_of_code():
    """Returns the names that may follow `::`: those of functions, cases, fields, types, modules and constants."""
    found = set()
    for path in (ROOT / "crates").glob("*/src/**/*.rt"):
        text = path.read_text()
        found.update(re.findall(r"\bfn (\w+)", text))
        found.update(re.findall(r"^ *(\w+)(?:,|\(.*\),|\s*\{)$", text, re.M))
        found.update(re.findall(r"\b(?:struct|enum|trait|mod|type|const) (\w+)", text))
    return found


def anchors(text):
    """Returns the anchors of a page's headings."""
    titles = re.findall(r"^#+ (.*)$", re.sub(BLOCK, "", text), re.M)
    return {re.sub(r"[^\w -]", "", title.lower()).replace(" ", "-") for title in titles}


def targets():
    text = (ROOT / "Makefile").read_text()
    name = r"^([a-z]+(?:-[a-z]+)*):"
    return set(re.findall(name, text, re.M)), set(re.findall(name + ".*## ", text, re.M))


class Repository:
    """The things in the repository that a page may name."""

    def __init__(self):
        paths = files()
        self.files, self.names = [f"/{path}" for path in paths], {path.name for path in paths}
        self.words, self.functions = words_of_code(paths), functions_of_code()
        self.targets, self.told = targets()
        # The names that the pages need of elsewhere.txt.
        self.needed = set()

    def is_elsewhere(self, name):
        """Reports whether elsewhere.txt has a name, and notes that a page needs it."""
        self.needed.add(name)
        return name in ELSEWHERE

    def has_path(self, path, page):
        """Reports whether a path exists in the repository: from its top, the page's folder, crates/ or a crate, or at the end of some file's path."""
        path = re.sub(r"^(?:\.\./)+", "", path)
        if path.startswith(("out/", "/")) or "/out/" in f"/{path}":
            return True
        if "/" not in path:
            return path in self.names
        if path.endswith("/"):
            return any(f"/{path}" in file for file in self.files)
        return any(file.endswith(f"/{path}") for file in self.files) or (page.parent / path).exists()

    def faults_of_links(self, text, page):
        for link in LINK.findall(text):
            file, _, anchor = link.partition("#")
            target = (page.parent / file).resolve() if file else page
            if re.match(r"\w+:", link):
                continue
            if not target.exists():
                yield f"the link {link} leads nowhere"
            elif anchor and anchor not in anchors(text if target == page else target.read_text()):
                yield f"the link {link} leads to no heading"

    def faults_of_code(self, code, page):
        """Yields a message for each name in a span or a block that does not exist."""
        for path in PATH.findall(code):
            if not self.has_path(path, page) and not self.is_elsewhere(path):
                yield f"{path} is not a file of this repository"
        for left, right in PAIR.findall(code):
            if (left not in self.words or right not in self.functions) and not self.is_elsewhere(left):
                yield f"{left}::{right} occurs nowhere in the code"
        for name in CALL.findall(code):
            if name not in self.functions and not self.is_elsewhere(name):
                yield f"{name}() is not a function of this repository"
        names = NAME.findall(code) + [code] * bool(re.fullmatch(r"[A-Za-z]\w+", code))
        for name in dict.fromkeys(names):
            if name not in self.words and not self.is_elsewhere(name):
                yield f"{name} occurs nowhere in the code (or name it in checks/elsewhere.txt)"
        for name in MAKE.findall(code):
            if name not in self.targets:
                yield f"make {name} is not a target of the Makefile"

    def faults_of_quotations(self, text):
        for file, block in QUOTED.findall(text):
            if not (ROOT / file).is_file():
                yield f"{file}, which is quoted, does not exist"
                continue
            left = " ".join((ROOT / file).read_text().split())
            for part in re.split(r"^ *\.\.$|^```.*$", block, flags=re.M):
                part = " ".join(part.split())
                if part not in left:
                    yield f"not in {file}, in this order: {part[:80]} .."
                    break
                left = left[left.index(part) + len(part) :]
            lines = [" ".join(line.split()) for line in (ROOT / file).read_text().splitlines()]
            for line in (" ".join(line.split()) for line in block.splitlines()):
                if line not in ("", "..") and not line.startswith("```") and not any(line in whole for whole in lines):
                    yield f"on more than one line of {file}: {line[:80]} .."

    def faults(self, text, page):
        yield from self.faults_of_quotations(text)
        yield from self.faults_of_links(re.sub(BLOCK, "", text), page)
        prose = re.sub(BLOCK, "", text)
        for code in BLOCK.findall(text) + SPAN.findall(re.sub(r"\s*\n(?:> )?\s*", " ", prose)):
            yield from self.faults_of_code(code, page)


WRONG = """# A page
[a](no-such-page.md) and [b](#no-such-heading), `crates/ct_tree/src/absent.rt`, `Front::absent`, `absent()`, `AbsentWord`, `make nothing`.

    make neither

<!-- from Makefile -->
    no line of it

<!-- from Makefile -->
    SECONDS ?= 60 PREFIX ?= /usr/local
"""
WRONG_IN = ["no-such-page.md leads", "#no-such-heading leads", "src/absent.rt is", "Front::absent occurs", "absent() is", "AbsentWord occurs"]
WRONG_IN += ["make nothing is", "make neither is", "not in Makefile", "on more than one line of Makefile: SECONDS"]


# How a crate states the version of its program: a text that is proved to be printed cannot be read from a file.
STATED = re.compile(r'^const VERSION: &str = "(?:\w+ )?([^ "\\]+)(?:\\n)?";$', re.M)


# How the library states its version, as a number: in its header, and in the source of wagtenib_version, whose contract says that number too.
NUMBERED = {"include/wagtenib.h": r"^#define WAGTENIB_VERSION (\d+)$", "crates/libwagtenib/src/version.rt": r"^pub const VERSION: u32 = ([\d_]+);$"}


def three_numbers(number):
    """Returns the three numbers of a version that the library states."""
    return f"{number // 1_000_000}.{number // 1_000 % 1_000}.{number % 1_000}"


def version_faults():
    """Returns a message for each program, and for the library and the newest entry of CHANGELOG.md, that states another version than VERSION."""
    version = (ROOT / "VERSION").read_text().strip()
    said = {path: found for path in ROOT.glob("crates/*/src/**/*.rt") for found in STATED.findall(path.read_text())}
    if not said:
        return ["no crate states the version of its program"]
    said[ROOT / "CHANGELOG.md"] = next(iter(re.findall(r"^## (\S+)$", (ROOT / "CHANGELOG.md").read_text(), re.M)), "none")
    for path, pattern in NUMBERED.items():
        found = re.findall(pattern, (ROOT / path).read_text(), re.M)
        said[ROOT / path] = " and ".join(three_numbers(int(number.replace("_", ""))) for number in found) or "none"
    return [f"VERSION is {version}, and {path.relative_to(ROOT)} says {found}" for path, found in said.items() if found != version]


def missing_in_index():
    """Returns a message for each page that the index, docs/README.md, does not link to."""
    index = ROOT / "docs" / "README.md"
    linked = {(index.parent / link.partition("#")[0]).resolve() for link in LINK.findall(index.read_text())}
    return [f"docs/README.md: the index has no link to {page.relative_to(ROOT)}" for page in pages() if page != index and page not in linked]


def main():
    repository = Repository()
    told = "\n".join(repository.faults(WRONG, ROOT / "README.md"))
    missed = [fault for fault in WRONG_IN if fault not in told]
    if missed:
        sys.exit(f"checks/documents.py does not find these faults on its own test page: {', '.join(missed)}")
    found = version_faults()
    found += missing_in_index()
    found += [f"make help does not list {name} (add a comment ## to the target)" for name in sorted(repository.targets - repository.told) if not name.startswith("install-")]
    for page in pages():
        text = re.sub(r"<!-- Made by .*?<!-- Made until here. -->", "", page.read_text(), flags=re.S)
        found += [f"{page.relative_to(ROOT)}: {fault}" for fault in dict.fromkeys(repository.faults(text, page))]
    found += [f"CHANGELOG.md: {fault}" for fault in repository.faults_of_links((ROOT / "CHANGELOG.md").read_text(), ROOT / "CHANGELOG.md")]
    found += [f"checks/elsewhere.txt: no page needs {name} (remove it)" for name in sorted(ELSEWHERE - repository.needed)]
    for fault in found:
        print(fault)
    sys.exit(1 if found else 0)


if __name__ == "__main__":
    main()
