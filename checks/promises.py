#!/usr/bin/env python3
"""Checks that each function that docs/PROMISES.md names in a table is public and has the clauses named. The column of files is generated.

    promises.py [--write]

A row of a table with the columns Contract and File names functions, each with the names of its clauses in brackets: a method as `Type::name`, a
free function as `name`, or as `module::name` or `crate::name` if several have that name. It must be a public function, with all these clauses, of the
crates that the section's heading names, or of any crate if the heading names none. The cell of files has the files of the row's functions, in their
order. The script prints each name that violates this, each crate that has contracts but no section, and each line whose files are out of date. It ends
with status 1 if it prints anything. With --write it writes the page.
"""
import re
import sys
import typing

from source import CRATES, ROOT, blanked, closing, crates, is_for_tests, sources

PAGE = ROOT / "docs" / "PROMISES.md"
FUNCTION = re.compile(r'^( *)pub (?:const |final |extern +(?:"C" +)?)*fn (\w+)', re.M)
IMPL = re.compile(r"^impl(?:<[^{]*?>)? (?:[\w:<>, ]+ for )?(\w+)", re.M)
CLAUSE = re.compile(r"\b(?:ensures|requires)\b\s*(\w*)\s*\{")
NAMED = re.compile(r"`(?:(\w+)::)?(\w+)`(?: \(((?:`\w+`(?:, )?)+)\))?")


class Function(typing.NamedTuple):
    """A public function: its crate, its file below the crate, its type (none for a free one), its name, and the names of its clauses."""

    crate: str
    file: str
    owner: typing.Optional[str]
    name: str
    clauses: set

    def is_named(self, owner, name):
        if self.name != name:
            return False
        if owner is None or self.owner:
            return self.owner == owner
        return owner in (self.crate, self.file.rpartition("/")[2].partition(".")[0])


def clauses(text, at):
    """Returns the names of the clauses of the function whose name ends at this offset."""
    found, part = set(), re.compile(r"\b(?:ensures|requires)\b\s*\w*\s*\{|\{|;")
    while (place := part.search(text, at)) and (clause := CLAUSE.match(text, place.start())):
        found.add(clause.group(1))
        at = closing(text, place.end() - 1)
    return found


def functions(crate):
    """Yields the public functions of a crate. (The `;` of an array's type does not end a signature.)"""
    for path in sources(crate):
        text = re.sub(r";(?= *[\w:]+\])", " ", blanked(path.read_text()))
        types = [(found.start(), found.group(1)) for found in IMPL.finditer(text)]
        for found in FUNCTION.finditer(text):
            owners = [name for start, name in types if start < found.start()] if found.group(1) else []
            file = path.relative_to(CRATES / crate).as_posix()
            yield Function(crate, file, owners[-1] if owners else None, found.group(2), clauses(text, found.end()))


class Row(typing.NamedTuple):
    """A row of a table of contracts: the crates of its section, the number of its line, its cell for contracts, and which cell has the files."""

    crates: list
    number: int
    contract: str
    column: int


def rows(page):
    """Yields the rows of the tables of contracts."""
    named, columns = [], []
    for number, line in enumerate(page.splitlines(), 1):
        cells = [cell.strip() for cell in line.strip("|").split("|")]
        if line.startswith("#"):
            named, columns = [word for word in re.findall(r"`(\w+)`", line) if word in crates()], []
        elif not line.startswith("|"):
            columns = []
        elif not columns:
            columns = cells
        elif "Contract" in columns and "File" in columns and not line.startswith("|---"):
            yield Row(named, number, cells[columns.index("Contract")], columns.index("File") + 1)


def found_in(row, there):
    """Yields each function that a row names, as it is named, with the public functions that it may be."""
    for owner, name, brackets in NAMED.findall(row.contract):
        wanted = set(re.findall(r"\w+", brackets))
        of_crates = [one for one in there if not row.crates or one.crate in row.crates]
        matching = [one for one in of_crates if one.is_named(owner or None, name) and wanted <= one.clauses]
        yield (f"{owner}::{name}" if owner else name) + f" ({', '.join(sorted(wanted))})" * bool(wanted), matching


def faults(page, there):
    """Yields a message for each name in the tables that does not exist, or exists more than once."""
    if not any(rows(page)):
        yield "there is no table with the columns Contract and File"
    for row in rows(page):
        named = list(found_in(row, there))
        if not named:
            yield f"line {row.number}: no function is named"
        for said, matching in named:
            files = sorted({f"{one.crate}/{one.file}" for one in matching})
            if not files:
                yield f"line {row.number}: {said} is no public function of {', '.join(row.crates) or 'any crate'} with these clauses"
            elif len(files) > 1:
                yield f"line {row.number}: {said} may be that of {' or '.join(files)}; name its module or its crate"


def files_of(row, there):
    """Returns the cell of files of a row."""
    paths = [(one.crate, one.file) for _, matching in found_in(row, there) for one in matching[:1]]
    return ", ".join(dict.fromkeys(f"`{file}`" if len(row.crates) == 1 else f"`{crate}/{file}`" for crate, file in paths))


def made(page, there):
    """Returns the page with its generated cells of files."""
    lines = page.split("\n")
    for row in rows(page):
        cells = lines[row.number - 1].split("|")
        cells[row.column] = f" {files_of(row, there)} "
        lines[row.number - 1] = "|".join(cells)
    return "\n".join(lines)


def unnamed(page):
    """Returns the crates that have contracts but that no heading names."""
    headings = set(re.findall(r"`(\w+)`", " ".join(re.findall(r"^#.*", page, re.M))))
    return [crate for crate in crates() if not is_for_tests(crate) and crate not in headings]


def main():
    page = PAGE.read_text()
    there = [one for crate in crates() for one in functions(crate)]
    wanted = made(page, there)
    if sys.argv[1:] == ["--write"]:
        PAGE.write_text(wanted)
        page = wanted
    found = list(faults(page, there)) + [f"no section is about the crate {crate}" for crate in unnamed(page)]
    differing = [number for number, lines in enumerate(zip(page.split("\n"), wanted.split("\n")), 1) if lines[0] != lines[1]]
    found += [f"line {number}: the files are out of date (checks/promises.py --write writes them)" for number in differing]
    for fault in found:
        print(f"docs/PROMISES.md: {fault}")
    sys.exit(1 if found else 0)


if __name__ == "__main__":
    main()
