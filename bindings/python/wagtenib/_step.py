"""The step of a tiled log (C2SP static-ct-api). A state is the text of a line, which the log keeps in a register with compare-and-set."""

from __future__ import annotations

import dataclasses
from collections.abc import Callable, Sequence
from typing import TypeVar

from ._errors import check
from ._library import load
from ._memory import HASH, hash_of, hashes, number, output, text

SIGNED = 50
MAX_CHAIN = 2047
_Value = TypeVar("_Value")


def _vector(size: int, content: bytes) -> bytes:
    return len(content).to_bytes(size, "big") + content


def _certificate(content: bytes) -> bytes:
    if not 0 < len(content) < 1 << 24:
        raise ValueError(f"a certificate of a submission has 1 to 2^24 - 1 bytes, and not {len(content)}")
    return _vector(3, content)


@dataclasses.dataclass(frozen=True)
class Submission:
    """A submission to a log: a certificate in DER; or a precertificate, its TBSCertificate as `signed`, and the hash of its issuer's key. `chain` has the SHA-256
    fingerprints of the issuers."""

    signed: bytes
    issuer_key_hash: bytes | None = None
    precertificate: bytes = b""
    chain: Sequence[bytes] = ()

    def in_batch(self) -> bytes:
        """Returns the submission as it is in a batch: a TileLeaf with the timestamp 0 and no extensions."""
        if len(self.chain) > MAX_CHAIN:
            raise ValueError(f"a chain has at most {MAX_CHAIN} issuers, and not {len(self.chain)}")
        fingerprints = _vector(2, hashes(self.chain)[0])
        if self.issuer_key_hash is None:
            return bytes(8) + b"\0\0" + _certificate(self.signed) + b"\0\0" + fingerprints
        return bytes(8) + b"\0\1" + hash_of(self.issuer_key_hash) + _certificate(self.signed) + b"\0\0" + _certificate(self.precertificate) + fingerprints


@dataclasses.dataclass(frozen=True)
class Receipt:
    """The place of an entry of a batch in the log, and the bytes that are signed for its SCT, which are also its leaf. The timestamp is in milliseconds."""

    leaf_index: int
    timestamp: int
    signed: bytes


@dataclasses.dataclass(frozen=True)
class Object:
    """The place of an object in a bundle, and SHA-256 of its content."""

    name: str
    start: int
    length: int
    digest: bytes


@dataclasses.dataclass(frozen=True)
class Published:
    """The parts of a step that are published: the bytes that are signed for its head, the text of the checkpoint, and the objects of the bundle in order."""

    signed: bytes
    checkpoint: str
    objects: list[Object]


@dataclasses.dataclass(frozen=True)
class Step:
    """A step of a log. `receipts` has one for each submission, in the batch's order; of a repeat that of the first."""

    published: Published
    state: str
    bundle: bytes
    receipts: list[Receipt]


class _Fields:
    """A reply that is read from its front. The library's replies have each field whole."""

    def __init__(self, rest: bytes) -> None:
        self.rest = rest

    def take(self, count: int) -> bytes:
        part, self.rest = self.rest[:count], self.rest[count:]
        return part

    def number(self) -> int:
        return int.from_bytes(self.take(8), "big")

    def vector(self) -> bytes:
        return self.take(self.number())

    def all(self, read: Callable[[], _Value]) -> list[_Value]:
        found = []
        while self.rest:
            found.append(read())
        return found

    def published(self) -> Published:
        signed, checkpoint, objects = self.take(SIGNED), self.vector().decode(), _Fields(self.vector())
        return Published(signed, checkpoint, objects.all(lambda: Object(objects.vector().decode(), objects.number(), objects.number(), objects.take(HASH))))


def _replied(room: int, call: Callable[..., int]) -> _Fields:
    code, reply = output(room, 1, call)
    check(code)
    return _Fields(reply)


def step_begin(timestamp: int) -> str:
    """Returns the state of a log without leaves, at this timestamp in milliseconds."""
    return _replied(512, lambda *out: load().wagtenib_step_begin(number(timestamp), *out)).rest.decode()


def step_needs(state: str) -> list[str]:
    """Returns the names of the objects whose contents a step from this state needs, in order."""
    fields = _replied(512, lambda *out: load().wagtenib_step_needs(*text(state.encode()), *out))
    return fields.all(lambda: fields.vector().decode())


def step(origin: str, state: str, edge: Sequence[bytes], batch: Sequence[Submission], now: int, max_ahead: int) -> Step:
    """Returns the step of the log with this origin from a state, with the contents that step_needs names, at the timestamp `now` in milliseconds, which is at most
    max_ahead beyond the state's."""
    contents, entries = b"".join(_vector(8, one) for one in edge), b"".join(one.in_batch() for one in batch)
    words = (*text(origin.encode()), *text(state.encode()), *text(contents), *text(entries), number(now), number(max_ahead))
    fields = _replied(len(contents) + 3 * len(entries) + 32768, lambda *out: load().wagtenib_step(*words, *out))
    published, after, bundle = fields.published(), fields.vector().decode(), fields.vector()
    return Step(published, after, bundle, fields.all(lambda: Receipt(fields.number(), fields.number(), fields.vector())))


def step_claim(state: str, leaf_index: int, timestamp: int, path: Sequence[bytes], submission: Submission) -> bytes:
    """Returns the bytes to sign for the SCT of a submission, whose entry has this timestamp and is the leaf at leaf_index: the path leads from that leaf to the root of
    the state. The fingerprints of its chain are not compared."""
    entry = submission.in_batch()
    words = (*text(state.encode()), number(leaf_index), number(timestamp), *hashes(path), *text(entry))
    return _replied(len(entry) + 64, lambda *out: load().wagtenib_step_claim(*words, *out)).rest


def step_resume(origin: str, state: str, bundle: bytes) -> Published:
    """Returns the published parts of the step that made this state, by its bundle."""
    words = (*text(origin.encode()), *text(state.encode()), *text(bundle))
    return _replied(16384, lambda *out: load().wagtenib_step_resume(*words, *out)).published()
