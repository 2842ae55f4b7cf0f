#!/usr/bin/env python3
"""Makes the generated parts of the pages below docs/checking/, one page for each claim of the README, for a reader who checks the proof.

    checking.py [--write]

The text of a page is written by hand: the claim, its premises, and what each contract says. A pair of comments encloses a public contract as it is in the source, with the clauses that
the first comment names, or all of them. After the contracts, such a pair encloses the text of all definitions that these reach by their imports, leaves first. The script prints each
page that differs from the generated one, and then ends with status 1. With --write it writes them. checks/definitions.py runs it too.
"""
import functools
import re
import sys
import typing

from source import CRATES, ROOT, closing, crates, is_for_tests

PAGES = ROOT / "docs" / "checking"
# A generated part, with what it is: a contract, as the file below crates/, the function and the names of its clauses; or the definitions.
PART = re.compile(r"<!-- Made by checks/checking\.py --write: ([^\n]*)\. -->\n.*?<!-- Made until here\. -->", re.S)
CONTRACT = re.compile(r"crates/(\S+), ([\w:]+)(?: \(([\w, ]+)\))?")
DEFINITIONS = "the definitions"

# A recursion with a bound, which no reader must follow: the laws that are its equations.
BY_EQUATIONS = {
    "mth_within": "mth_of_leaves",
    "mth_small": "mth_of_leaves",
    "path_within": "path",
    "subproof_within": "subproof",
    "subproof_whole": "subproof",
    "path_length_within": "path",
    "subproof_length_within": "subproof",
    "subtree_subproof_within": "subtree_subproof",
    "subtree_length_within": "subtree_subproof",
}


class Text(typing.NamedTuple):
    """A definition, or a type of the code: its key, its file below crates/, its text with its comment, and the words that it may name."""

    key: tuple
    file: str
    text: str
    scope: dict


# A definition's first line. An indented one belongs to a module's block. There a line that starts with only `pub` is a field.
START = re.compile(r"(?:(?:unfoldable |abbrev )*pub|^ +(?:unfoldable |abbrev )+pub) (record |data )?(?!mod\b|use\b)(\S+)")
USE = re.compile(r"\buse Rattle\.(\w+)\.specs\.([\w.]+)\.\{([^}]*)\}")
WORD = re.compile(r"[A-Za-z_]\w*")


@functools.lru_cache(None)
def own_crates():
    return {crate for crate in crates() if not is_for_tests(crate)}


def scope_of(text, crate):
    """Returns the words that a file imports from specs/ of this repository's crates, each with its key."""
    scope = {}
    for owner, module, names in USE.findall(text):
        owner = crate if owner == "crate" else owner
        if owner not in own_crates():
            continue
        for name in (word.strip() for word in names.split(",")):
            if module.startswith("declared."):
                of = module.split(".")
                scope[name] = ("type", owner, of[-2] if of[-1] == "TheVariants" else name)
            else:
                scope[name] = ("word", owner, name, module.split(".")[0])
    return scope


def body_below(lines, at):
    """Returns the lines of the definition that starts at a line, including that line."""
    end = at + 1
    while end < len(lines) and lines[end].strip() and not re.match(r" *--", lines[end]):
        end += 1
    return lines[at:end]


def cases(kind, body):
    """Returns the names of a data type's cases."""
    return re.findall(r"^ +(\w+) :", "\n".join(body[1:]), re.M) if kind == "data" else []


@functools.lru_cache(None)
def words_of(crate):
    """Returns the definitions of a crate's specs/, by their names, and by their files and names. A case of a data type names that type."""
    found = {}
    for path in sorted((CRATES / crate / "specs").glob("*.antt")):
        text = path.read_text()
        lines, scope, here = text.splitlines(), scope_of(text, crate), {}
        for at, line in enumerate(lines):
            start = START.match(line)
            if not start:
                continue
            body, first = body_below(lines, at), at
            while first > 0 and re.match(r" *--", lines[first - 1]):
                first -= 1
            key = ("word", crate, start.group(2), path.stem)
            one = Text(key, f"{crate}/specs/{path.name}", "\n".join([*lines[first:at], *body]), scope)
            for name in [start.group(2), *cases((start.group(1) or "").strip(), body)]:
                here[name] = one
        for name, one in here.items():
            scope.setdefault(name, one.key)
            found[path.stem, name] = found[name] = one
    return found


@functools.lru_cache(None)
def types_of(crate):
    """Returns the structs and enums of a crate that contracts may name: the type of the model if there is one, otherwise the text without methods."""
    found = {}
    for path in sorted((CRATES / crate / "src").rglob("*.rt")):
        text = path.read_text()
        scope = scope_of(text, crate)
        file = str(path.relative_to(CRATES))
        for head in re.finditer(r"^pub (?:struct|enum) (\w+)", text, re.M):
            name, ends = head.group(1), [at for at in (text.find("{", head.end()), text.find(";", head.end())) if at >= 0]
            end = closing(text, min(ends)) if text[min(ends)] == "{" else min(ends) + 1
            code = re.sub(r"^ *(?:///|//|#\[).*\n", "", text[head.start() : end], flags=re.M)
            found[name] = Text(("type", crate, name), file, code, {})
        for head in re.finditer(r"^impl\b[^{]*?\bModel for (\w+)[^{]*", text, re.M):
            block = text[head.start() : closing(text, head.end())]
            value = re.search(r"ghost Value = \{([^}]*)\}", block)
            if value and head.group(1) in found:
                found[head.group(1)] = Text(("type", crate, head.group(1)), file, "", {**scope, **{name: scope.get(name) for name in WORD.findall(value.group(1)) if scope.get(name)}, "value": value.group(1)})
    return found


def text_of(key):
    """Returns the text of a key. A word that its file imports is looked up in the other files: no two crates define the same word (definitions.py)."""
    kind, crate, name, *file = key
    if kind == "type":
        return types_of(crate).get(name)
    if (*file, name) in words_of(crate):
        return words_of(crate)[(*file, name)]
    return next((words_of(owner)[name] for owner in (crate, *sorted(own_crates())) if name in words_of(owner)), None)


def named(one):
    """Returns the keys that a text names."""
    code = one.scope.get("value", "") if not one.text else re.sub(r"--[^\n]*", "", one.text)
    keys = [one.scope.get(word) for word in WORD.findall(code)]
    return [key for key in dict.fromkeys(keys) if isinstance(key, tuple) and key != one.key]


def reached(keys, seen):
    """Returns the texts that these keys reach, leaves first, without those that were seen."""
    found = []

    def visit(key):
        one = text_of(key)
        if not one or one.key in seen:
            return
        seen.add(one.key)
        for below in named(one):
            visit(below)
        found.append(one)

    for key in keys:
        visit(key)
    return [one for one in found if one.text]


def contract(file, function, clauses):
    """Returns a function's head with its clauses, without those that are not named, and the keys that it names."""
    text = (CRATES / file).read_text()
    crate = file.split("/")[0]
    owner, _, name = function.rpartition("::")
    begin = 0
    if owner:
        begin = re.search(rf"^impl\b[^{{;]*\b{owner}\b[^{{;]*\{{\n(?=.*?\bfn {name}\b)", text, re.M | re.S).start()
    head = re.search(rf"^ *pub (?:const |extern \"C\" )?fn {name}\b", text[begin:], re.M)
    if not head:
        sys.exit(f"checks/checking.py: {file} has no public function {function}")
    at = begin + head.start()
    first = text.index("(", at)
    place, parts, kept = closing(text, first), [], []
    start = at
    while True:
        clause = re.compile(r"\s*(?:ensures|requires)(?: (\w+))? *\{").search(text, place)
        body = re.compile(r"\s*\{").search(text, place)
        if not clause or body.start() < clause.start():
            parts.append((None, text[start:place] if start < place else ""))
            break
        if not kept and not parts:
            parts.append((None, text[start : clause.start()]))
        place = closing(text, clause.end() - 1)
        start = place
        kept.append((clause.group(1), text[clause.start() : place]))
    wanted = [part for of, part in kept if not clauses or of in clauses or part.lstrip().startswith("requires")]
    missing = set(clauses) - {of for of, _ in kept}
    if missing:
        sys.exit(f"checks/checking.py: {file} has no clauses {missing} of {function}")
    lines = (parts[0][1] + "".join(wanted)).splitlines()
    margin = min(len(line) - len(line.lstrip()) for line in lines if line.strip())
    shown = "\n".join(line[margin:] for line in lines if line.strip())
    if len(wanted) < len(kept):
        shown += "\n    .."
    scope = scope_of(text, crate)
    keys = [scope.get(word) for word in WORD.findall("".join(wanted))]
    types = [("type", owner_of, word) for word in WORD.findall(parts[0][1]) for owner_of in own_crates() if owner_of == crate and word in types_of(owner_of)]
    if owner and owner in types_of(crate):
        types.append(("type", crate, owner))
    return shown, [key for key in dict.fromkeys(keys) if key] + types


def block(kind, text):
    return [f"```{kind}", *text.splitlines(), "```", ""]


def definitions(texts):
    """Returns these texts as one block, with the file's name each time it changes."""
    lines, file = [], None
    for one in texts:
        if one.file != file:
            file = one.file
            lines += ["", f"-- crates/{file}:"] if lines else [f"-- crates/{file}:"]
        else:
            lines.append("")
        lines += one.text.splitlines()
    return block("", "\n".join(lines))


def listed(names):
    return ", ".join(f"`{name}`" for name in names)


def definitions_of(keys, page):
    """Returns the text after the contracts of a page: all definitions that they reach, leaves first."""
    texts = reached(keys, set())
    shown = [one for one in texts if one.key[2] not in BY_EQUATIONS]
    size = sum(one.text.count("\n") + 1 for one in shown)
    lines = [f"The contracts rest on these {len(shown)} definitions ({size} lines). Each one comes after those that it names.", ""]
    left_out = [one.key[2] for one in texts if one.key[2] in BY_EQUATIONS]
    if left_out:
        laws = dict.fromkeys(BY_EQUATIONS[name] for name in left_out)
        above = {named[2] for named in CONTRACT.finditer(page.read_text())}
        places = {"above": [law for law in laws if law in above], "on the page [verifiers.md](verifiers.md)": [law for law in laws if law not in above]}
        where = ", and ".join(f"{listed(found)} {place}" for place, found in places.items() if found)
        lines += [f"No reader must follow the recursions with a bound, {listed(left_out)}, so they are left out. The contracts {where} are their equations.", ""]
    return "\n".join([*lines, *definitions(shown), ""])


def made(page):
    """Returns the text of a page with its generated parts: each contract that it names, and then the definitions of all of them."""
    keys = []

    def part(found):
        if found[1] == DEFINITIONS:
            text = definitions_of(keys, page)
        else:
            named = CONTRACT.fullmatch(found[1])
            if not named:
                sys.exit(f"checks/checking.py: {page.relative_to(ROOT)}: {found[1]} is no contract (write crates/FILE, FUNCTION (CLAUSE, ..))")
            shown, reaches = contract(named[1], named[2], re.findall(r"\w+", named[3] or ""))
            keys.extend(reaches)
            text = "\n".join(block("rust", shown))
        return f"<!-- Made by checks/checking.py --write: {found[1]}. -->\n{text}<!-- Made until here. -->"

    return PART.sub(part, page.read_text())


def first_difference(page, stands, belongs):
    ours, theirs = stands.splitlines(), belongs.splitlines()
    for at in range(max(len(ours), len(theirs))):
        pair = [lines[at] if at < len(lines) else "nothing" for lines in (ours, theirs)]
        if pair[0] != pair[1]:
            return f"{page.relative_to(ROOT)}: {pair[0]}\n  must be: {pair[1]}\n  (checks/checking.py --write writes the page)"
    return f"{page.relative_to(ROOT)} differs in its empty lines (checks/checking.py --write writes the page)"


def check(write):
    """Returns what is wrong with the pages of the claims. With `write` their generated parts are written."""
    found = []
    for page in sorted(PAGES.glob("*")):
        stands, belongs = page.read_text(), made(page)
        if f": {DEFINITIONS}. -->" not in stands:
            found.append(f"{page.relative_to(ROOT)} has no place for its definitions (add a line <!-- Made by checks/checking.py --write: {DEFINITIONS}. --> and one that ends it)")
        elif write:
            page.write_text(belongs)
        elif stands != belongs:
            found.append(first_difference(page, stands, belongs))
    return found


def main():
    found = check(sys.argv[1:] == ["--write"])
    print("".join(f"{fault}\n" for fault in found), end="")
    sys.exit(1 if found else 0)


if __name__ == "__main__":
    main()
