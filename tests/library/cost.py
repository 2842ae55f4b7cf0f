#!/usr/bin/env python3
"""Compares the processor time of calls of libwagtenib, as gcc makes it of dist/, over an input and over one that is 32 times as large.

    cost.py

No contract says how long a call takes. A call reads its input a fixed number of times, so 32 times the input takes about 32 times as long. A call that reads all of its
input again for each part of it takes 1,024 times as long, and one that hashes each half of a tree's left half twice 243 times. Each call here may take 120 times as long. A
number, such as the size of a tree, must not make a call much slower than a small one does. Each time is the shortest of several, and counts only this thread. Without gcc
for this processor it says so.
"""
import ctypes
import pathlib
import platform
import shutil
import sys
import time

ROOT = pathlib.Path(__file__).resolve().parents[2]
sys.path[:0] = [str(ROOT / "bindings" / "python"), str(ROOT / "tests" / "tiles"), str(ROOT / "tests")]
# (the folders above are on the path only now)
import merkle  # noqa: E402
import promises  # noqa: E402
import wagtenib  # noqa: E402
from wagtenib import _library, _memory  # noqa: E402

TIMES, HOUR, SMALL, MOST = 32, 3_600_000, 100, (1 << 64) - 1
# How many times as long the larger input may take, and how many times as long a large number may take. A path has up to 63 hashes more.
LIMIT, LIMIT_OF_NUMBERS = 120, 300
# A time below this number of seconds is measured too coarsely to be compared.
SHORT = 2e-6


def room(count):
    """Memory for output, and where its length is written."""
    return ctypes.create_string_buffer(max(count, 1)), count, ctypes.byref(ctypes.c_uint64())


def field():
    return ctypes.byref(ctypes.c_uint32())


def certificate(subject, *extensions):
    """A certificate with this subject and these extensions."""
    written = promises.written
    fields = b"\2\1\7" + written(0x30, b"") * 3 + subject + written(0x30, b"") + written(0xA3, written(0x30, b"".join(extensions)))
    return written(0x30, written(0x30, fields) + written(0x30, b"") + written(3, b"\0"))


def extension(name, content):
    return promises.written(0x30, promises.written(6, name) + promises.written(4, content))


def named(count):
    """A certificate with so many names."""
    names = b"".join(promises.written(0x82, b"host-%d.example.org" % number) for number in range(count))
    return certificate(promises.written(0x30, b""), extension(b"\x55\x1d\x11", promises.written(0x30, names)))


def leaf(number):
    """A leaf of a certificate, without extensions."""
    return bytes(12) + promises.vector(3, b"%d" % number) + bytes(2)


def hashes(count):
    given = [number.to_bytes(32, "big") for number in range(count)]
    return lambda call: call.wagtenib_root(*_memory.hashes(given), ctypes.create_string_buffer(32))


def receipts(count):
    leaves = [leaf(number) for number in range(count)]
    head = wagtenib.TreeHead(count, 7, merkle.root(leaves))
    last = wagtenib.tree_head_signature(head)
    return lambda call: call.wagtenib_guard_receipts(*_memory.text(last), 0, *_memory.hashes([]), *_memory.pieces(leaves))


def tile(count):
    small = bytes(10) + promises.vector(3, b"x") + promises.vector(2, b"") + promises.vector(2, b"")
    return lambda call: call.wagtenib_data_tile_leaves(*_memory.text(small * 8 * count), *room(800 * count), ctypes.byref(ctypes.c_uint64()))


def names(count):
    given = named(8 * count)
    return lambda call: call.wagtenib_certificate_names(0, *_memory.text(given), *room(400 * count), field())


def watched(count):
    given, listed = named(8), wagtenib.watch_list(b"host-%d.example.org" % number for number in range(4 * count))
    return lambda call: call.wagtenib_watched_names(0, *_memory.text(given), *_memory.text(listed), *room(100 * count), field())


def watched_among(count):
    given, listed = named(4 * count), wagtenib.watch_list([b"host.example.org"] * 8)
    return lambda call: call.wagtenib_watched_names(0, *_memory.text(given), *_memory.text(listed), *room(1000), field())


def searched(count):
    """Bytes in which each name begins often, and is nowhere."""
    given, listed = b"host.exampl" * 20 * count, wagtenib.watch_list([b"host.example.org"] * 8)
    return lambda call: call.wagtenib_names_in_bytes(*_memory.text(given), *_memory.text(listed), *room(1000))


def searched_for(count):
    given, listed = b"host.exampl" * 20, wagtenib.watch_list(b"host-%d.example.org" % number for number in range(4 * count))
    return lambda call: call.wagtenib_names_in_bytes(*_memory.text(given), *_memory.text(listed), *room(100 * count))


def entry(count):
    """A precertificate with so many extensions before the poison."""
    fields = b"\2\1\7" + promises.written(0x30, b"") * 5
    listed = extension(b"\x2a\x03", b"") * 8 * count + promises.POISON
    tbs = promises.written(0x30, fields + promises.written(0xA3, promises.written(0x30, listed)))
    return lambda call: call.wagtenib_precertificate_entry(*_memory.text(tbs), *room(len(tbs)), field())


def promise(count):
    given = certificate(promises.written(0x30, b""), extension(b"\x2a\x03", b"") * 8 * count, extension(promises.LIST_NAME, bytes(40)))
    return lambda call: call.wagtenib_promised_leaf(*_memory.text(given), *_memory.text(given), 7, *_memory.text(b""), *room(len(given) + 100), field())


def entries(count):
    leaves = [leaf(number) for number in range(count)]
    state = wagtenib.monitor_head(wagtenib.monitor_begin(), wagtenib.TreeHead(count, 7, merkle.root(leaves))).state
    verdict, report = ctypes.create_string_buffer(400), ctypes.create_string_buffer(100)
    return lambda call: call.wagtenib_monitor_entries(*_memory.text(state), 0, *_memory.pieces(leaves), verdict, report, *room(5000))


def step(count):
    begin = wagtenib.step_begin(1000).encode()
    batch = b"".join(wagtenib.Submission(b"%d" % number).in_batch() for number in range(count))
    return lambda call: call.wagtenib_step(*_memory.text(b"log.example"), *_memory.text(begin), *_memory.text(b""), *_memory.text(batch), 1001, HOUR, *room(2000 * count))


def resumed(count):
    made = wagtenib.step("log.example", wagtenib.step_begin(1000), [], [wagtenib.Submission(b"%d" % number) for number in range(count)], 1001, HOUR)
    return lambda call: call.wagtenib_step_resume(*_memory.text(b"log.example"), *_memory.text(made.state.encode()), *_memory.text(made.bundle), *room(2000 * count))


def checkpoint(count):
    text = b"o" * 300 * count + b"\n0\n47DEQpj8HBSa+/TImW+5JCeuQeRkm5NMpJWZG3hSuFU=\n"
    return lambda call: call.wagtenib_read_checkpoint(*_memory.text(text), ctypes.create_string_buffer(100))


def cosigned(count):
    origin = b"o" * 300 * count
    text = origin + b"\n0\n47DEQpj8HBSa+/TImW+5JCeuQeRkm5NMpJWZG3hSuFU=\n"
    return lambda call: call.wagtenib_witness_first(*_memory.text(origin), *_memory.text(text), 0, *_memory.hashes([]), 7, *room(len(text) + 100))


# The inputs, each of so many parts or of so many times as many, and the answers of their calls.
INPUTS = [hashes, receipts, tile, names, watched, watched_among, searched, searched_for, entry, promise, entries, step, resumed, checkpoint, cosigned]

# Calls with a number, which has no other input that grows with it. Their answers may be refusals.
NUMBERS = {
    "verify_inclusion": lambda call, n: call.wagtenib_verify_inclusion(bytes(32), n - 1, n, bytes(32 * 63), 63, bytes(32)),
    "verify_consistency": lambda call, n: call.wagtenib_verify_consistency(n // 2 + 1, n, bytes(32), bytes(32), bytes(32 * 64), 64),
    "check_subtree": lambda call, n: call.wagtenib_check_subtree(0, n),
    "verify_subtree": lambda call, n: call.wagtenib_verify_subtree(0, n // 2 + 1, n, bytes(32), bytes(32), bytes(32 * 64), 64),
    "evaluate_subtree_path": lambda call, n: call.wagtenib_evaluate_subtree_path(bytes(32), n - 1, 0, n, bytes(32 * 63), 63, ctypes.create_string_buffer(32)),
    "cover_range": lambda call, n: call.wagtenib_cover_range(n // 3, n, ctypes.byref(ctypes.c_uint64()), ctypes.byref(ctypes.c_uint64())),
    "root_tiles": lambda call, n: call.wagtenib_root_tiles(n, *room(2000)),
    "path_tiles": lambda call, n: call.wagtenib_path_tiles(n // 3, n, *room(2000)),
    "proof_tiles": lambda call, n: call.wagtenib_proof_tiles(n // 3 + 1, n, *room(2000)),
    "step_begin": lambda call, n: call.wagtenib_step_begin(n, *room(2000)),
    "cosignature_message": lambda call, n: call.wagtenib_cosignature_message(n, *_memory.text(b"text"), *room(2000)),
    "checkpoint_text": lambda call, n: call.wagtenib_checkpoint_text(*_memory.text(b"origin"), n, bytes(32), *room(2000)),
}


def seconds(made):
    """The shortest time of several calls, and their answer."""
    best, answer, until = 1e9, None, time.monotonic() + 0.2
    for turn in range(200):
        before = time.thread_time()
        answer = made()
        best = min(best, time.thread_time() - before)
        if turn > 2 and time.monotonic() > until:
            break
    return best, answer


def prepared(make, count, call):
    """A call whose arguments are made once."""
    captured = []

    class Recorder:
        def __getattr__(self, name):
            return lambda *arguments: captured.append((getattr(call, name), arguments))

    make(count)(Recorder())
    function, arguments = captured[0]
    return lambda: function(*arguments)


def main():
    if not shutil.which("gcc") or platform.machine() not in _library.PROCESSORS:
        print("left out: tests/library/cost.py (there is no gcc for a processor of dist/)")
        return 0
    call, failed, largest = _library.load(), 0, (0, "")
    for make in INPUTS:
        one, answer = seconds(prepared(make, SMALL, call))
        many, answers = seconds(prepared(make, TIMES * SMALL, call))
        if (answer, answers) != (0, 0):
            sys.exit(f"tests/library/cost.py: {make.__name__} is refused with {answer} and {answers}")
        if one < SHORT:
            sys.exit(f"tests/library/cost.py: {make.__name__} takes {one:.7f} s, too little to be compared (give it more parts)")
        largest = max(largest, (many / one, make.__name__))
        if many > LIMIT * one:
            print(f"tests/library/cost.py: {make.__name__} takes {many:.4f} s over {TIMES} times the input of a call of {one:.4f} s, {many / one:.0f} times as long")
            failed += 1
    for name, ask in NUMBERS.items():
        one, many = seconds(lambda: ask(call, 2))[0], seconds(lambda: ask(call, MOST))[0]
        if many > LIMIT_OF_NUMBERS * max(one, 1e-6):
            print(f"tests/library/cost.py: {name} takes {many:.6f} s with a large number, and {one:.6f} s with a small one")
            failed += 1
    print(f"tests/library/cost.py: {len(INPUTS) + len(NUMBERS)} calls; {largest[1]} takes {largest[0]:.1f} times as long over {TIMES} times the input, the most")
    return 1 if failed else 0


if __name__ == "__main__":
    sys.exit(main())
