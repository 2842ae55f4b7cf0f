"""What the comparisons of this folder share: the library by the Python package of bindings/python, whose calls are watched, and the count of what they came to.

A call may write only what include/wagtenib.h says. Of output with room these are the bytes of its length, or only the length if there is no room; everything else is
written exactly if the call succeeds, or with the codes of WRITTEN. Every fourth call with output is made again with just enough room, and with less.
"""
import argparse
import collections
import ctypes
import pathlib
import random
import re
import sys
import typing

import signatures

TESTS = pathlib.Path(__file__).resolve().parent.parent
ROOT = TESTS.parent
sys.path[:0] = [str(ROOT / "bindings" / "python"), str(TESTS)]
# (the folders above are on the path only now)
import wagtenib  # noqa: E402
from wagtenib import Code, _library  # noqa: E402

FILL, BEHIND, UNTOUCHED = b"\x5a", 8, 0x5A5A5A5A5A5A5A5A
OF_DER, OF_LEAVES = {*range(80, 91)}, {Code.TRUNCATED, Code.BAD_ENTRY_TYPE, Code.EMPTY_VECTOR, Code.PARTIAL_FINGERPRINT}
# The arguments that are written with other codes than 0, by their names.
WRITTEN = {"field": OF_DER, "faulty_index": OF_LEAVES, "index": {*OF_LEAVES, Code.OTHER_ENTRIES, Code.WRONG_INDEX}, "timestamp": {0, Code.LATER_ENTRY}}

# How the text of a checkpoint, or one that has it, is damaged.
DAMAGES = [
    lambda text: text[:-1],
    lambda text: text.replace(b"\n", b"\n0", 1),
    lambda text: text.replace(b"\n", b"\n+", 1),
    lambda text: text + b"an extension line\n",
    lambda text: b"\n" + text,
    lambda text: text.replace(b"l", b"\xff", 1),
    lambda text: text.replace(b"\n", b"\r\n"),
    lambda text: text.replace(b"=", b""),
    lambda text: re.sub(rb"\n(\d+)\n", rb"\n1\g<1>00000000000000000000\n", text),
    lambda text: re.sub(rb"(.)=\n", lambda found: bytes([found[1][0] + 1]) + b"=\n", text),
    lambda text: b"",
]


class Fault(typing.NamedTuple):
    """A refusal: the name of its code in the header, and where the fault is, if the call says so."""

    name: str
    where: typing.Any = None


def outcome(call):
    """Returns what a call returns, or its fault."""
    try:
        return call()
    except wagtenib.CertificateError as fault:
        return Fault(fault.name, (fault.field, fault.is_of_issuer))
    except wagtenib.TileError as fault:
        return Fault(fault.name, fault.entry)
    except wagtenib.Error as fault:
        return Fault(fault.name)


class Watched:
    """A function of the library, which the package calls. At the first call that breaks a rule it ends the program. `written` has the bytes of each argument
    that was written last."""

    def __init__(self, name, parameters, function):
        self.name, self.function, self.calls, self.room, self.written = name, function, 0, None, {}
        outputs = {at: one for at, one in enumerate(parameters) if one.kind == "o"}
        # (wagtenib_push changes the subtrees in place)
        for at, one in outputs.items() if name != "wagtenib_push" else ():
            if one.has_number:
                self.room, self.size = at, int(one.size)
        self.fixed = {at: one.name for at, one in outputs.items() if self.room is None or not self.room <= at <= self.room + 2} if name != "wagtenib_push" else {}

    def hold(self, right, what):
        if not right:
            sys.exit(f"{self.name} {what}")

    def __call__(self, *words):
        self.calls += 1
        if self.room is None:
            return self.once(words)
        code, length, content = self.with_room(words, words[self.room + 1])
        if code == 0 and length and self.calls % 4 == 0:
            self.hold(self.with_room(words, length) == (code, length, content), "has no room for its output in just as much memory")
            for less in {0, length - 1}:
                self.hold(self.with_room(words, less) == (Code.NO_ROOM, length, b""), f"does not say how much room it needs if it has {less}")
        ctypes.memmove(words[self.room], content, len(content))
        if length is not None:
            words[self.room + 2]._obj.value = length
        return code

    def with_room(self, words, room):
        """Makes a call with so much room. Returns its code, the length that it writes, and its output."""
        memory, length = ctypes.create_string_buffer(FILL * (room * self.size + BEHIND), room * self.size + BEHIND), ctypes.c_uint64(UNTOUCHED)
        given = [*words[: self.room], memory, room, ctypes.byref(length), *words[self.room + 3 :]]
        code, told = self.once(given), length.value
        self.hold((told == UNTOUCHED) == (code not in (0, Code.NO_ROOM)), f"writes the length {told} with {code}")
        self.hold((code == Code.NO_ROOM) == (told != UNTOUCHED and told > room), f"has room {room} for {told}, and returns {code}")
        used = told * self.size if code == 0 else 0
        self.hold(not memory.raw[used:].strip(FILL), f"writes more than its output with {code}")
        return code, None if told == UNTOUCHED else told, memory.raw[:used]

    def once(self, words):
        """Makes a call, and returns its code. What it may write and does not stays as it was."""
        memory = {at: getattr(words[at], "_obj", words[at]) for at in self.fixed}
        before = {at: bytes(one) for at, one in memory.items()}
        for one in memory.values():
            ctypes.memset(ctypes.addressof(one), FILL[0], ctypes.sizeof(one))
        code = self.function(*words)
        for at, one in memory.items():
            is_written = bytes(one).strip(FILL) != b""
            self.hold(is_written == ((code or 0) in WRITTEN.get(self.fixed[at], {0})), f"{'writes' if is_written else 'does not write'} {self.fixed[at]} with {code}")
            if is_written:
                self.written[self.fixed[at]] = bytes(one)
            else:
                ctypes.memmove(ctypes.addressof(one), before[at], len(before[at]))
        return code


class Comparison:
    """The count of what the calls of a script came to. At the first that differs from what is due, the script ends."""

    def __init__(self, script, seed):
        self.script, self.seed, self.chance, self.calls, self.came = script, seed, random.Random(seed), 0, collections.Counter()

    def fail(self, why):
        sys.exit(f"{self.script}: {why} (seed {self.seed})")

    def same(self, what, got, due):
        if got != due:
            self.fail(f"{what} gave {got!r}, and is to give {due!r}")

    def call(self, what, due, call):
        """Compares what a call comes to, and returns it."""
        got = outcome(call)
        self.calls += 1
        self.came[got.name if isinstance(got, Fault) else "OK"] += 1
        self.same(what, got, due)
        return got

    def ends(self, due, told=""):
        """Fails if no call came to one of these names. Prints what was compared."""
        if absent := sorted(set(due) - set(self.came)):
            self.fail(f"no call comes to {', '.join(absent)} (try more --calls)")
        print(f"{self.script}: {self.calls} calls are as the model has them, {self.came['OK']} of them without a fault{told}")


def begin(script, calls, **more):
    """Reads the options of a script, and watches the library. Returns the options and a comparison. Without gcc for this processor the script ends here."""
    said = argparse.ArgumentParser(description="Compares calls of libwagtenib, as gcc makes it of dist/, with a model.")
    for name, value in {"calls": calls, "seed": 1, **more}.items():
        said.add_argument(f"--{name}", type=int, default=value, help=f"[default: {value}]")
    options = said.parse_args()
    try:
        library = _library.load()
    except wagtenib.Unavailable as why:
        print(f"left out: {script} ({why})")
        sys.exit(0)
    for name, _, parameters in signatures.functions():
        setattr(library, name, Watched(name, parameters, getattr(library, name)))
    return options, Comparison(script, options.seed)
