#!/usr/bin/env python3
"""Has libwagtenib check an audit path as long as a real log's, and forged ones, and compares its answers with those that are due.

    real_path.py LIBWAGTENIB.SO

The leaf is a real certificate's; the path's hashes are made up, and the root is what they lead to by the definition of PATH (RFC 6962, section
2.1.1): nobody has the other leaves. It prints what each path is, and the answer with its name in include/wagtenib.h.
"""
import base64
import ctypes
import json
import pathlib
import re
import sys

HERE = pathlib.Path(__file__).resolve().parent
sys.path.insert(0, str(HERE.parent.parent / "tests"))
from merkle import leaf_hash, path_length, root_by_path, sha256  # noqa: E402

# The size is one that logs of this field reach within a year.
SIZE, INDEX, TIMESTAMP = 1_234_567_890, 987_654_321, 1_767_225_600_000


def certificates():
    lines = (HERE.parent / "real-chains.jsonl").read_text().splitlines()
    requests = [json.loads(line) for line in lines if line.startswith("{")]
    return [base64.b64decode(request["chain"][0]) for request in requests if request["op"] == "add-chain" and request["chain"]]


def leaf(certificate):
    """The text of a certificate's leaf (RFC 6962, section 3.4)."""
    return b"\0\0" + TIMESTAMP.to_bytes(8, "big") + b"\0\0" + len(certificate).to_bytes(3, "big") + certificate + b"\0\0"


def main():
    if len(sys.argv) < 2:
        sys.exit(__doc__)
    verify = ctypes.CDLL(sys.argv[1]).wagtenib_verify_inclusion
    verify.argtypes = [ctypes.c_char_p, ctypes.c_uint64, ctypes.c_uint64, ctypes.c_char_p, ctypes.c_size_t, ctypes.c_char_p]
    verify.restype = ctypes.c_uint32
    header = (HERE.parent.parent / "include" / "wagtenib.h").read_text()
    names = {int(number): name for name, number in re.findall(r"WAGTENIB_(\w+) = (\d+)", header)}
    mine, other = (leaf_hash(leaf(certificate)) for certificate in certificates()[:2])
    path = [sha256(b"hash %d" % at) for at in range(path_length(INDEX, SIZE))]
    top = root_by_path(mine, INDEX, SIZE, path)
    bent = path[:8] + [bytes([path[8][0] ^ 1]) + path[8][1:]] + path[9:]
    cases = [
        ("the path, from the leaf to the root", "OK", mine, INDEX, path),
        ("the same for another certificate's leaf", "ROOT_MISMATCH", other, INDEX, path),
        ("the same for the place behind it", "ROOT_MISMATCH", mine, INDEX + 1, path),
        ("one bit of its ninth hash changed", "ROOT_MISMATCH", mine, INDEX, bent),
        ("its last hash left out", "PATH_TOO_SHORT", mine, INDEX, path[:-1]),
        ("one hash more", "PATH_TOO_LONG", mine, INDEX, path + [top]),
        ("a leaf behind the last one", "INDEX_OUT_OF_RANGE", mine, SIZE, path),
    ]
    print(f"Leaf {INDEX:,} of a log with {SIZE:,}, {len(path)} hashes on the way to the root:")
    wrong = 0
    for what, due, hashed, index, hashes in cases:
        answer = verify(hashed, index, SIZE, b"".join(hashes), len(hashes), top)
        wrong += names.get(answer) != due
        print(f"    {what + ' ':.<45} {answer} {names.get(answer)}")
    if wrong:
        sys.exit(f"real_path.py: {wrong} of {len(cases)} answers aren't those that are due")


if __name__ == "__main__":
    main()
