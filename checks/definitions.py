#!/usr/bin/env python3
"""Checks that each definition of specs/ has a comment, that no word is defined in two crates, that each collision names its strings, and that the pages
of checking.py are up to date.

    definitions.py [--write]

It reads the specs/ of each crate that is not only for tests, and the contracts of its sources. It prints

- each file that does not begin with a comment that says what it is about,
- each definition without a comment,
- each word that two crates define,
- each definition or contract that says only that some two strings collide: for SHA-256 that is true by counting, so a law must say which two strings they
  are (`Collides`), or among which strings they are (`CollideAmong`),
- and each page that differs from the generated one.

If it prints anything, it ends with status 1. With --write it writes the pages.
"""
import re
import sys

import checking
from source import CRATES, crates, is_for_tests

# Two strings of which a definition says that they exist, and two of which it says that they have one digest.
EXIST = re.compile(r"\(([\w ]+) : List ℕ\) ×")
ONE_DIGEST = re.compile(r"\bCollides \S+ (\w+) (\w+)|\b(?:H|sha256) (\w+) ≡ (?:H|sha256) (\w+)")
# The one definition that may say it: it goes on to say that S has both strings.
AMONG = "CollideAmong"


def definitions(crate):
    """Returns the definitions of a crate's specs/."""
    return list({one.key: one for one in checking.words_of(crate).values()}.values())


def wordless(of_crates):
    """Yields each definition without a comment, and each file that does not say what it is about."""
    for crate in of_crates:
        for path in sorted((CRATES / crate / "specs").glob("*.antt")):
            if path.stem != "Lib" and not path.read_text().startswith("--"):
                yield f"{path.relative_to(CRATES.parent)} does not begin with a comment that says what it is about"
        for one in definitions(crate):
            if not one.text.lstrip().startswith("--"):
                yield f"{one.key[2]} (crates/{one.file}) has no comment"


def defined_twice(of_crates):
    """Yields each word that two crates define."""
    places = {}
    for crate in of_crates:
        for word in {one.key[2] for one in definitions(crate)}:
            places.setdefault(word, []).append(crate)
    for word, owners in sorted(places.items()):
        if len(owners) > 1:
            yield f"{word} is defined in {' and '.join(owners)}"


def some_collide(text):
    """Reports whether a definition or contract says that two strings with one digest exist, and does not say which they are."""
    found = {name for names in EXIST.findall(text) for name in names.split()}
    pairs = [{name for name in pair if name} for pair in ONE_DIGEST.findall(text)]
    return any(pair <= found for pair in pairs)


def statements(crate):
    """Yields each definition of a crate's specs/ and each contract of its sources: its file, its name, and its text."""
    for one in definitions(crate):
        yield CRATES / one.file, one.key[2], re.sub(r"--[^\n]*", "", one.text)
    for path in sorted((CRATES / crate / "src").rglob("*.rt")):
        for clause in path.read_text().split("ensures ")[1:]:
            yield path, "a contract", clause.split("ghost use ")[0]


def unnamed_collisions(of_crates):
    """Yields each statement that says only that some two strings collide."""
    for crate in of_crates:
        for path, name, text in statements(crate):
            if name != AMONG and some_collide(text):
                yield f"{name} ({path.relative_to(CRATES.parent)}) says that some two strings collide, and not which (write Collides or {AMONG})"


def main():
    of_crates = [crate for crate in crates() if not is_for_tests(crate)]
    found = [*wordless(of_crates), *defined_twice(of_crates), *unnamed_collisions(of_crates), *checking.check(sys.argv[1:] == ["--write"])]
    for fault in found:
        print(fault)
    sys.exit(1 if found else 0)


if __name__ == "__main__":
    main()
