#!/usr/bin/env python3
"""Whether certspotter has verified a head of a log: verified.py ITS_STATE_DIRECTORY THE_LOGS_ADDRESS TREE_SIZE.

It keeps the roots of the tree's full subtrees, from the left; they have to give the root that the log answers. The status
says so.
"""
import base64
import glob
import json
import pathlib
import sys
import urllib.request

sys.path.insert(0, str(pathlib.Path(__file__).resolve().parent.parent))

import merkle  # noqa: E402


def main():
    if len(sys.argv) < 4:
        sys.exit(__doc__)
    folder, address, size = sys.argv[1], sys.argv[2], int(sys.argv[3])
    files = glob.glob(f"{folder}/logs/*/state.json")
    if len(files) != 1:
        sys.exit(1)
    kept = json.loads(pathlib.Path(files[0]).read_text())["verified_position"]
    if not kept or kept["size"] != size:
        sys.exit(1)
    *others, found = [base64.b64decode(node) for node in kept["nodes"]]
    for node in reversed(others):
        found = merkle.node_hash(node, found)
    with urllib.request.urlopen(address + "ct/v1/get-sth") as answer:
        head = json.load(answer)
    sys.exit(head["tree_size"] != size or base64.b64decode(head["sha256_root_hash"]) != found)


if __name__ == "__main__":
    main()
