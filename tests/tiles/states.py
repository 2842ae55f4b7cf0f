"""The state of a tiled log as one line of text (docs/GROWTH.md), the content of a register."""
import re
from typing import NamedTuple

LINE = re.compile(r"growth [0-9a-f]{288}")


class State(NamedTuple):
    """A head without its signature, and the digests beside it."""

    tree_size: int
    # In milliseconds.
    timestamp: int
    root: bytes
    # SHA-256 of all the objects of the step that made this state.
    bundle: bytes
    # SHA-256 of the partial data tile.
    data_tile: bytes
    # SHA-256 of the line before.
    before: bytes


def written(state):
    """The line of a state, without an end of line."""
    numbers = state.tree_size.to_bytes(8, "big") + state.timestamp.to_bytes(8, "big")
    return "growth " + (numbers + b"".join(state[2:])).hex()


def state_of(line):
    """The state of which this is the line; None where it is no state's."""
    if not LINE.fullmatch(line):
        return None
    fields = bytes.fromhex(line.removeprefix("growth "))
    numbers = [int.from_bytes(fields[at : at + 8], "big") for at in (0, 8)]
    return State(*numbers, *(fields[at : at + 32] for at in range(16, 144, 32)))
