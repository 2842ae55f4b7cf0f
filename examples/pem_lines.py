#!/usr/bin/env python3
"""Makes request lines of PEM files, with only Python's standard library.

    pem_lines.py [--front N] FILE..

Each file is a chain, the end entity first, in the form for web servers, which `openssl s_client -showcerts` prints too. Text between the certificates is
ignored. It gives one line, an add-chain by front N (0 where it isn't given). Nothing is printed where a file has no certificate, or one that isn't read, or a
precertificate: that is submitted by add-pre-chain, with its issuer's key hash and its TBSCertificate, for which a parser of X.509 is needed.

On standard error it says how large a ring `ctlog` needs for them: a front's lines are done before the operator's settle any of them, so that a
submission without a place is answered with `full`, and isn't in the log.
"""
import argparse
import base64
import json
import pathlib
import re
import sys

sys.path.append(str(pathlib.Path(__file__).resolve().parent.parent / "tests"))

from json_lines import LONGEST_LINE  # noqa: E402

CERTIFICATE = re.compile(r"-----BEGIN CERTIFICATE-----(.*?)-----END CERTIFICATE-----", re.S)
# The places of a front's ring that ctlog gives at most.
MOST_PLACES = 4096
# The poison extension's name, 1.3.6.1.4.1.11129.2.4.3 (RFC 6962, section 3.1), in DER.
POISON = bytes.fromhex("060a2b06010401d679020403")


def length_of(der):
    """How many bytes the DER value has that begins here; 0 where none does."""
    if len(der) < 2 or der[0] != 0x30:
        return 0
    if der[1] < 0x80:
        return 2 + der[1]
    many = der[1] - 0x80
    return 2 + many + int.from_bytes(der[2 : 2 + many], "big")


def certificates(text):
    """The certificates of a file, in DER."""
    found = [base64.b64decode("".join(body.split()), validate=True) for body in CERTIFICATE.findall(text)]
    if not found:
        raise ValueError("it has no certificate (-----BEGIN CERTIFICATE-----)")
    for place, der in enumerate(found, 1):
        if length_of(der) != len(der):
            raise ValueError(f"certificate {place} isn't one value of DER")
    if POISON in found[0]:
        raise ValueError("its first certificate is a precertificate, which add-pre-chain submits")
    return found


def line_of(front, chain):
    texts = [base64.b64encode(der).decode() for der in chain]
    line = json.dumps({"who": front, "op": "add-chain", "chain": texts}, separators=(",", ":"))
    if len(line) > LONGEST_LINE:
        raise ValueError(f"its line has {len(line)} bytes, and a line has at most {LONGEST_LINE}")
    return line


def main():
    parser = argparse.ArgumentParser(description="Makes request lines of PEM files, a chain in each, the end entity first.")
    parser.add_argument("--front", type=int, default=0, help="the number of the front that submits [default: 0]")
    parser.add_argument("files", nargs="+", metavar="FILE")
    words = parser.parse_args()
    lines = []
    for file in words.files:
        try:
            lines.append(line_of(words.front, certificates(pathlib.Path(file).read_text(errors="replace"))))
        except (OSError, ValueError) as error:
            sys.exit(f"pem_lines.py: {file}: {getattr(error, 'strerror', None) or error}")
    print("\n".join(lines))
    told = f"pem_lines.py: for these lines of front {words.front} ctlog needs --ring {len(lines)} or more"
    most = f", of at most {MOST_PLACES}: put a line of shift between every {MOST_PLACES}"
    print(told + most * (len(lines) > MOST_PLACES), file=sys.stderr)


if __name__ == "__main__":
    main()
