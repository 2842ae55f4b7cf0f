"""Shared functions of the checks: the repository's Rattle sources, without comments and texts, and the parts of a source file."""
import pathlib
import re

ROOT = pathlib.Path(__file__).resolve().parent.parent
CRATES = ROOT / "crates"
# The names of git's folder and of the ignored folders, which builds, logs, clusters and watches write here.
MADE = {".git", *(line.rstrip("/") for line in (ROOT / ".gitignore").read_text().splitlines())}


def crates():
    """Returns the names of all listed crates."""
    lines = (ROOT / "crates.txt").read_text().splitlines()
    return [re.split(r"[ :]", line)[0] for line in lines if line and not line.startswith("#")]


def is_for_tests(crate):
    """Reports whether a crate has only tests or measurements."""
    return crate.endswith("_tests") or crate == "bench_work"


def sources(crate):
    """Returns the source files of a crate, without tests."""
    return [path for path in sorted((CRATES / crate / "src").rglob("*.rt")) if path.stem != "tests"]


def blanked(text):
    """Returns the text with comments and string literals replaced by spaces. Every other byte and every line break keeps its position."""
    pattern = re.compile(r"//[^\n]*|/\*.*?\*/|\"(?:\\.|[^\"\\])*\"|'(?:\\.|[^'\\])'", re.S)
    return pattern.sub(lambda found: re.sub(r"[^\n]", " ", found.group()), text)


def closing(text, at):
    """Returns the offset after the bracket that closes the one at `at`."""
    pairs = {"{": "}", "(": ")", "[": "]"}
    opened, closed = text[at], pairs[text[at]]
    depth = 0
    for place in range(at, len(text)):
        depth += (text[place] == opened) - (text[place] == closed)
        if depth == 0:
            return place + 1
    raise ValueError(f"no closing {closed}")


CLAUSE = re.compile(r"\b(?:ensures|requires|ghost)\b[^{};]*\{")


def without_clauses(text):
    """Returns the text with clauses, ghost items and ghost imports replaced by spaces."""
    text = re.sub(r"\bghost use [^;]*;", lambda found: re.sub(r"[^\n]", " ", found.group()), text)
    at = 0
    while found := CLAUSE.search(text, at):
        end = closing(text, found.end() - 1)
        text = text[: found.start()] + re.sub(r"[^\n]", " ", text[found.start() : end]) + text[end:]
        at = end
    return text


def line_of(text, at):
    """Returns the number of the line that contains an offset, from 1 on."""
    return text.count("\n", 0, at) + 1
