#!/usr/bin/env python3
"""Checks the rooms (groups) of crates: no dependency between rooms goes back. The tables and the first picture of docs/ARCHITECTURE.md are generated from
crates.txt and from the first sentences of the crates' own pages.

    architecture.py [--write]

In crates.txt a line '# Room NAME over NAME, NAME' comes before the crates of a room. It lists the earlier rooms whose crates this room's crates may
depend on, besides those of their own room. The table of a room follows its line MADE. The script prints

- each crate that depends on a crate of a room that it may not depend on,
- each crate that is in no room,
- each crate whose lib.rt or main.rt does not begin with a page,
- and the first generated line that differs.

If it prints anything, it ends with status 1. With --write it writes the tables and the picture.
"""
import re
import sys

from source import CRATES, ROOT, crates

PAGE = ROOT / "docs" / "ARCHITECTURE.md"
ROOMS = ROOT / "docs" / "plots" / "rooms.dot"
MADE = "<!-- Made by checks/architecture.py --write: {}. -->\n\n"
TABLE = re.compile(MADE.format("([a-z ]+)") + r"((?:It may use .*\n\n)?(?:\|.*\n)*)")
ROOM = re.compile(r"# Room ([a-z ]+?)(?: over ([a-z ,]+))?")


def rooms(text):
    """Returns the rooms of such a text, in their order: each with the rooms that it may depend on, and its crates with their dependencies; and the faults."""
    found, faults, here = {}, [], None
    for line in text.splitlines():
        if room := ROOM.fullmatch(line):
            here = room.group(1)
            over = room.group(2).split(", ") if room.group(2) else []
            faults += [f"crates.txt: the room {here} is over {other}, which is not an earlier room (move one of them)" for other in over if other not in found]
            found[here] = (over, {})
        elif line and not line.startswith("#"):
            head, _, below = line.partition(":")
            if here is None:
                faults.append(f"crates.txt: {head.split()[0]} is in no room")
            else:
                found[here][1][head.split()[0]] = below.split()
    return found, faults


def arrows_back(found):
    """Yields a message for each crate that depends on a crate of a room that its own room may not depend on."""
    room_of = {crate: room for room, (_, listed) in found.items() for crate in listed}
    for room, (over, listed) in found.items():
        for crate, below in listed.items():
            for other in below:
                if room_of.get(other, room) not in (room, *over):
                    yield f"crates.txt: {crate} ({room}) depends on {other} ({room_of[other]}), which the room {room} may not"


def about(crate):
    """Returns the first sentence of a crate's page."""
    path = next(path for path in (CRATES / crate / "src" / name for name in ("lib.rt", "main.rt")) if path.exists())
    page = re.match(r"(?://! ?.*\n)*", path.read_text()).group()
    paragraph = " ".join(re.sub(r"^//! ?", "", page, flags=re.M).strip().split("\n\n")[0].split())
    return re.match(r"(?:.*?\.(?= [A-Z`]|$))?", paragraph).group().replace("|", "\\|")


def table(over, words):
    """Returns the generated text for a room: the other rooms that it may use, and its crates."""
    rows = (f"| `{crate}` | {said} |\n" for crate, said in words.items())
    return "".join([f"It may use {', '.join(over) or 'no other'}.\n\n", "| Crate | Is |\n", "|---|---|\n", *rows])


def picture(found):
    """Returns the text of the picture of the rooms (pictures.py), with an arrow from each room to those that it may use, unless a path over a third room leads there."""
    names = {room: room.replace(" ", "_") for room in found}
    boxes = "".join(f'    {name} [label="{room}"]\n' for room, name in names.items())
    through = {room: {other for third in over for other in found[third][0]} for room, (over, _) in found.items()}
    arrows = "".join(f"    {names[room]} -> {names[other]}\n" for room, (over, _) in found.items() for other in over if other not in through[room])
    return f"// The rooms of the crates. Made by checks/architecture.py --write.\ndigraph rooms {{\n{boxes}\n{arrows}}}\n"


def main():
    words = {crate: about(crate) for crate in crates()}
    found, faults = rooms((ROOT / "crates.txt").read_text())
    faults += [*arrows_back(found), *(f"crates/{crate} does not begin with a page that says what it is" for crate, said in words.items() if not said)]
    wanted = {room: table(over, {crate: words[crate] for crate in listed}) for room, (over, listed) in found.items()}
    page = PAGE.read_text()
    stands = dict(TABLE.findall(page))
    if set(stands) != set(wanted):
        sys.exit(f"docs/ARCHITECTURE.md has the tables {sorted(stands)}, but needs one after each line {MADE.strip()} for {sorted(wanted)}")
    if sys.argv[1:] == ["--write"]:
        ROOMS.write_text(picture(found))
        PAGE.write_text(TABLE.sub(lambda one: MADE.format(one.group(1)) + wanted[one.group(1)], page))
    for room in wanted if sys.argv[1:] != ["--write"] else ():
        if stands[room] != wanted[room]:
            line = next((one for one in wanted[room].splitlines() if one not in stands[room].splitlines()), "fewer or other rows")
            faults.append(f"docs/ARCHITECTURE.md: the table of the room {room} is out of date at: {line} (checks/architecture.py --write writes it)")
    if ROOMS.read_text() != picture(found):
        faults.append("docs/plots/rooms.dot is out of date (checks/architecture.py --write writes it)")
    for fault in faults:
        print(fault)
    sys.exit(1 if faults else 0)


if __name__ == "__main__":
    main()
