"""What a node of a log does next, the text of the log's lock, and the names of staged batches (docs/NODE.md)."""

from __future__ import annotations

import ctypes
import dataclasses
import enum
from collections.abc import Sequence

from ._errors import Code, Error, check
from ._guard import TreeHead, _Head
from ._library import load
from ._memory import hashes, number, output, text

NAME = 56


class _State(ctypes.Structure):
    _fields_ = [("timestamp", ctypes.c_uint64), ("previous_timestamp", ctypes.c_uint64), ("salt", ctypes.c_uint64)]


class _Command(ctypes.Structure):
    _fields_ = [("seen", _State), ("next", _State), ("objects", ctypes.c_uint64), ("command", ctypes.c_uint32)]


class _Outcome(ctypes.Structure):
    _fields_ = [("state", _State), ("objects", ctypes.c_uint64), ("outcome", ctypes.c_uint32)]


class _Found(ctypes.Structure):
    _fields_ = [
        ("seen", _Head),
        ("signed_head", _Head),
        ("published", _Head),
        ("listed", _Head),
        ("flags", ctypes.c_uint32),
    ]


@dataclasses.dataclass(frozen=True)
class NodeState:
    """A state of a log, as far as the order of a node's commands goes. Timestamps are in milliseconds since 1970."""

    timestamp: int = 0
    previous_timestamp: int = 0
    salt: int = 0

    def in_c(self) -> _State:
        return _State(number(self.timestamp), number(self.previous_timestamp), number(self.salt))


def _state(found: _State) -> NodeState:
    return NodeState(found.timestamp, found.previous_timestamp, found.salt)


class NodeDoes(enum.IntEnum):
    """The commands of a node, as include/wagtenib.h numbers them."""

    READ_LOCK = 0
    LOOK_FOR_HEAD = 1
    MAKE_STEP = 2
    STAGE_BATCH = 3
    SWAP_LOCK = 4
    DELETE_BATCH = 5
    PUT_OBJECTS = 6
    ADD_TO_INDEX = 7
    PUBLISH_HEAD = 8
    ANSWER_ALL = 9


class NodeTold(enum.IntEnum):
    """The outcomes of a command, as include/wagtenib.h numbers them."""

    DONE = 0
    LOST = 1
    LOCK_READ = 2
    PUBLISHED = 3
    BATCH_READ = 4
    STEP_MADE = 5
    BATCH_LISTED = 6


@dataclasses.dataclass(frozen=True)
class NodeCommand:
    """A command. Those states and numbers that it is not about are 0."""

    does: int = NodeDoes.READ_LOCK
    seen: NodeState = NodeState()
    next: NodeState = NodeState()
    objects: int = 0


@dataclasses.dataclass(frozen=True)
class NodeOutcome:
    """The outcome of a command."""

    told: int
    state: NodeState = NodeState()
    objects: int = 0


@dataclasses.dataclass(frozen=True)
class NodeFound:
    """What a node finds of a log when it starts, beside the lock's text.

    The root of a head is compared only if its size and its timestamp are those of the lock's head.
    """

    seen: TreeHead | None = None
    signed: TreeHead | None = None
    published: TreeHead | None = None
    listed: TreeHead | None = None
    guarded: bool = False
    has_object: bool = False
    creates: bool = False

    def in_c(self, has_lock: bool) -> _Found:
        known = (self.seen, self.signed, self.published, self.listed, self.guarded or None, self.has_object or None, self.creates or None, has_lock or None)
        none, flags = TreeHead(0, 0, bytes(32)), sum(1 << bit for bit, one in enumerate(known) if one is not None)
        return _Found(*((head or none).in_c() for head in (self.seen, self.signed, self.published, self.listed)), flags)


def node_next(command: NodeCommand, outcome: NodeOutcome) -> NodeCommand:
    """Returns the command that follows a command, by its outcome."""
    given = _Command(command.seen.in_c(), command.next.in_c(), number(command.objects), command.does)
    told = _Outcome(outcome.state.in_c(), number(outcome.objects), outcome.told)
    found = _Command()
    check(load().wagtenib_node_next(ctypes.byref(given), ctypes.byref(told), ctypes.byref(found)))
    return NodeCommand(NodeDoes(found.command), _state(found.seen), _state(found.next), found.objects)


def node_start(lock: bytes | None, found: NodeFound) -> bool:
    """Returns whether a node that starts must create the lock. If it returns False, the node continues from the lock's text. None means that there is no lock."""
    code = load().wagtenib_node_start(*text(lock or b""), ctypes.byref(found.in_c(lock is not None)))
    if code not in (0, Code.CREATES_LOCK):
        raise Error(code)
    return code != 0


def node_accept(accepted: TreeHead, head: TreeHead, proof: Sequence[bytes]) -> None:
    """Returns exactly if a node may go on from `head`, if `accepted` is the newest head that it accepted.

    The proof is the consistency proof between them (RFC 6962, section 2.1.2).
    """
    check(load().wagtenib_node_accept(ctypes.byref(accepted.in_c()), ctypes.byref(head.in_c()), *hashes(proof)))


def lock_text(line: bytes, node: bytes, previous_timestamp: int, salt: int) -> bytes:
    """Returns the lock's text of a step's state line."""
    words = (*text(line), *text(node), number(previous_timestamp), number(salt))
    code, made = output(len(line) + len(node) + 64, 1, lambda *out: load().wagtenib_lock_text(*words, *out))
    check(code)
    return made


def lock_state(lock: bytes) -> tuple[NodeState, int]:
    """Returns the state of a lock's text, and its number of entries."""
    state, size = _State(), ctypes.c_uint64()
    check(load().wagtenib_lock_state(*text(lock), ctypes.byref(state), ctypes.byref(size)))
    return _state(state), size.value


def batch_name(state: NodeState) -> bytes:
    """Returns the name of a state's staged batch."""
    name = ctypes.create_string_buffer(NAME)
    load().wagtenib_batch_name(ctypes.byref(state.in_c()), name)
    return name.raw


def batch_state(name: bytes) -> NodeState:
    """Returns the state whose staged batch has this name."""
    state = _State()
    check(load().wagtenib_batch_state(*text(name), ctypes.byref(state)))
    return _state(state)
