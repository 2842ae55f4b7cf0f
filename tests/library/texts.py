#!/usr/bin/env python3
"""Compares the texts that libwagtenib writes and reads, as gcc makes it of dist/, with hashlib, base64 and struct, and with examples of the formats' own pages.

    texts.py [--calls 2000] [--seed 1]

The examples are those of C2SP tlog-checkpoint, tlog-cosignature and golang.org/x/mod/sumdb/note. The version must be the same in the file VERSION, in
include/wagtenib.h and in the library. Each refusal must come at least once. Without gcc for this processor it says so.
"""
import base64
import hashlib
import re
import struct

from comparing import DAMAGES, ROOT, Fault, begin, wagtenib

# C2SP tlog-checkpoint, "Note text", and tlog-cosignature, "cosignature/v1".
EXAMPLE = b"example.com/behind-the-sofa\n20852163\nCsUYapGGPo4dkMgIAUqom/Xajj7h2fB2MPA3j2jxq2I=\n"
MESSAGE = b"cosignature/v1\ntime 1679315147\n" + EXAMPLE
# golang.org/x/mod/sumdb/note: the verifier key of its page, whose second part is the key's number.
KEY = "PeterNeumann+c74f20a3+ARpc2QcUPDhMQegwxbzhKqiBfsVkmqq/LDE4izWy10TW"
ORIGINS = [b"log.example/1", b"l", "l\u00f6g.example".encode(), b"a b+c", b""]
NO_ORIGINS = [b"", b"a\nb", b"\n", b"\xff", b"a\xc3"]
MOST = (1 << 64) - 1


def text_of(origin, size, root):
    """The text of a checkpoint (C2SP tlog-checkpoint)."""
    return b"%s\n%d\n%s\n" % (origin, size, base64.b64encode(root))


def read_by_model(text):
    """The checkpoint of a text, if the text is the one that is written for it."""
    found = re.fullmatch(rb"([^\n]+)\n([0-9]+)\n([A-Za-z0-9+/]{43}=)\n", text)
    try:
        text.decode()
    except UnicodeDecodeError:
        return Fault("NO_CHECKPOINT")
    if not found or int(found[2]) > MOST or text_of(found[1], int(found[2]), base64.b64decode(found[3])) != text:
        return Fault("NO_CHECKPOINT")
    return wagtenib.Checkpoint(found[1], int(found[2]), base64.b64decode(found[3]))


def examples(same):
    """The examples of the formats' pages."""
    root = base64.b64decode("CsUYapGGPo4dkMgIAUqom/Xajj7h2fB2MPA3j2jxq2I=")
    checkpoint = wagtenib.Checkpoint(b"example.com/behind-the-sofa", 20852163, root)
    same("the example of a checkpoint", wagtenib.read_checkpoint(EXAMPLE), checkpoint)
    same("the example's checkpoint", wagtenib.checkpoint_text(checkpoint), EXAMPLE)
    same("the example's message", wagtenib.cosignature_message(1679315147, EXAMPLE), MESSAGE)
    name, number, coded = KEY.split("+", 2)
    key = base64.b64decode(coded)
    same("the example of a key", wagtenib.note_key_id(name.encode(), key[0], key[1:]).hex(), number)


def versions(same):
    """The version, in three places."""
    first, second, third = map(int, (ROOT / "VERSION").read_text().strip().split("."))
    header = re.search(r"^#define WAGTENIB_VERSION (\d+)$", (ROOT / "include" / "wagtenib.h").read_text(), re.M)
    due = 1_000_000 * first + 1_000 * second + third
    same("include/wagtenib.h", int(header[1]), due)
    same("wagtenib_version", wagtenib.version(), due)


def compare(comparison):
    """Compares one call of each function."""
    source = comparison.chance
    origin, root = source.choice(ORIGINS), source.randbytes(32)
    size = source.choice([0, 1, MOST, source.randrange(1 << 64), source.randrange(100)])
    timestamp, time = source.randrange(1 << 64), source.choice([0, 1, MOST, source.randrange(1 << 64)])
    given = source.choice(NO_ORIGINS) if source.random() < 0.2 else origin
    text = text_of(origin, size, root)
    due = text if given and given not in NO_ORIGINS else Fault("BAD_ORIGIN")
    comparison.call(f"a checkpoint of {given!r}", due, lambda: wagtenib.checkpoint_text(wagtenib.Checkpoint(given, size, root)))
    read = source.choice(DAMAGES)(text) if source.random() < 0.5 else text
    comparison.call(f"reading {read!r}", read_by_model(read), lambda: wagtenib.read_checkpoint(read))
    try:
        read.decode()
        message = b"cosignature/v1\ntime %d\n%s" % (time, read)
    except UnicodeDecodeError:
        message = Fault("NOT_UTF8")
    comparison.call(f"a message over {read!r}", message, lambda: wagtenib.cosignature_message(time, read))
    head, key, algorithm = wagtenib.TreeHead(size, timestamp, root), source.randbytes(source.choice([0, 32, 91])), source.randrange(256)
    comparison.call("a TreeHeadSignature", struct.pack(">BBQQ32s", 0, 1, timestamp, size, root), lambda: wagtenib.tree_head_signature(head))
    number = hashlib.sha256(origin + b"\n" + bytes([algorithm]) + key).digest()[:4]
    comparison.call("a key's number", number, lambda: wagtenib.note_key_id(origin, algorithm, key))
    comparison.call("a LogID", hashlib.sha256(key).digest(), lambda: wagtenib.log_id(key))


def main():
    options, comparison = begin("tests/library/texts.py", 2000)
    examples(comparison.same)
    versions(comparison.same)
    for _ in range(options.calls):
        compare(comparison)
    comparison.ends({"BAD_ORIGIN", "NO_CHECKPOINT", "NOT_UTF8", "OK"})


if __name__ == "__main__":
    main()
