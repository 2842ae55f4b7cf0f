"""Certificates with many kinds of names, made by python's `cryptography`, and a log of them, for beside.py. internal/watch/namesearch has the place of each name in them."""
import base64
import dataclasses
import datetime
import http.server
import json
import pathlib
import sys
import threading
import time
import urllib.parse

HERE = pathlib.Path(__file__).resolve().parent
ROOT = HERE.parent.parent
sys.path += [str(HERE), str(HERE.parent), str(HERE.parent / "tiles")]

import merkle  # noqa: E402
import promises  # noqa: E402
from cryptography import x509  # noqa: E402
from cryptography.hazmat.primitives import hashes, serialization  # noqa: E402
from cryptography.hazmat.primitives.asymmetric import ec  # noqa: E402
from cryptography.x509.name import _ASN1Type as kinds  # noqa: E402
from cryptography.x509.oid import NameOID  # noqa: E402

KEY = ec.generate_private_key(ec.SECP256R1())


def make(subject=(), names=(), issuer="An authority", extensions=(), poison=False):
    """A certificate in DER for these attributes, each with its kind of string, and these names of subjectAltName; with the poison it is a precertificate."""
    attributes = [x509.NameAttribute(oid, text, kind, _validate=False) for oid, text, kind in subject]
    begin = datetime.datetime(2026, 1, 1)
    builder = x509.CertificateBuilder(x509.Name([x509.NameAttribute(NameOID.ORGANIZATION_NAME, issuer)]), x509.Name(attributes), KEY.public_key(), 7)
    builder = builder.not_valid_before(begin).not_valid_after(begin + datetime.timedelta(90))
    if names:
        builder = builder.add_extension(x509.SubjectAlternativeName(names), critical=False)
    for extension in extensions:
        builder = builder.add_extension(extension, critical=False)
    if poison:
        builder = builder.add_extension(x509.PrecertPoison(), critical=True)
    return builder.sign(KEY, hashes.SHA256()).public_bytes(serialization.Encoding.DER)


def common(text, kind=kinds.UTF8String):
    return [(NameOID.COMMON_NAME, text, kind)]


@dataclasses.dataclass
class Row:
    """A certificate, and what is in it."""

    what: str
    common: str = ""
    kind: str = "UTF8String"
    alt: tuple = ()
    subject: tuple = ()
    issuer: str = "An authority"
    lists: str = ""
    poison: bool = False
    made: bytes = b""  # the whole certificate in DER, if no library makes it


def host(name, **more):
    return Row(f"dNSName `{name}`" + (" of a precertificate" if more.get("poison") else ""), alt=(("DNS", name),), **more)


ROWS = [
    host("www.example.org"),
    host("example.org"),
    host("*.example.org"),
    Row("commonName `www.example.org`", common="www.example.org"),
    host("WWW.EXAMPLE.ORG"),
    host("example.org."),
    Row("mail `admin@example.org`", alt=(("email", "admin@example.org"),)),
    Row("URI `https://www.example.org/`", alt=(("URI", "https://www.example.org/"),)),
    Row("emailAddress `admin@example.org` of the subject", subject=(("emailAddress", "admin@example.org"),)),
    Row("500 names, the last `shop.example.org`", alt=(*(("DNS", f"host-{n}.other.net") for n in range(499)), ("DNS", "shop.example.org"))),
    host("pre.example.org", poison=True),
    host("*.example.org", poison=True),
    host("*.org"),
    host("xn--bcher-kva.example"),
    Row("commonName `bücher.example`", common="bücher.example"),
    host("XN--BCHER-KVA.EXAMPLE"),
    Row("commonName `www.example.org` as BMPString", common="www.example.org", kind="BMPString"),
    host("notexample.org"),
    host("example.org.evil.net"),
    host("www.example.organic.com"),
    Row("a list of revoked ones at `crl.example.org`", alt=(("DNS", "other.net"),), lists="http://crl.example.org/a.crl"),
    Row("issuer `Example.org TLS CA 1`", alt=(("DNS", "other.net"),), issuer="Example.org TLS CA 1"),
    Row("organisation `Friends of example.org`", alt=(("DNS", "other.net"),), subject=(("O", "Friends of example.org"),)),
    host("other.net"),
    host("sub.www.example.org"),
    *(Row(f"commonName `www.example.org` as {kind}", common="www.example.org", kind=kind) for kind in (
        "PrintableString", "IA5String", "T61String", "UniversalString")),
    host("*.sub.example.org"),
    host("*.www.example.org"),
    host("*.*.example.org"),
    host("www.*.org"),
    host("w*.example.org"),
    host("bücher.example"),
    host("*.bücher.example"),
]


def fail(why):
    sys.exit(f"table.py: {why}")


def text(data):
    """Bytes in base64 (RFC 4648, section 4)."""
    return base64.b64encode(data).decode()


def leaf_of(timestamp, certificate, key_hash):
    """A MerkleTreeLeaf (RFC 6962, section 3.4)."""
    kind = b"\0\1" + key_hash if key_hash else b"\0\0"
    return b"\0\0" + timestamp.to_bytes(8, "big") + kind + len(certificate).to_bytes(3, "big") + certificate + b"\0\0"


def by_library(row):
    """A row's certificate in DER, made by `cryptography`, or as the row has it."""
    if row.made:
        return row.made
    makers = {"DNS": x509.DNSName._init_without_validation, "email": x509.RFC822Name, "URI": x509.UniformResourceIdentifier}
    oids = {"O": NameOID.ORGANIZATION_NAME, "emailAddress": NameOID.EMAIL_ADDRESS}
    subject = common(row.common, getattr(kinds, row.kind)) if row.common else []
    subject += [(oids[name], text, kinds.UTF8String if name == "O" else kinds.IA5String) for name, text in row.subject]
    names = [makers[kind](text) for kind, text in row.alt]
    lists = [x509.DistributionPoint([x509.UniformResourceIdentifier(row.lists)], None, None, None)] if row.lists else []
    return make(subject, names, row.issuer, [x509.CRLDistributionPoints(lists)] if lists else [], row.poison)


class Log:
    """A log of these certificates: (DER, whether it is a precertificate), each with its leaf, which answers by RFC 6962's calls."""

    def __init__(self, certificates):
        self.key = ec.generate_private_key(ec.SECP256R1())
        self.public = self.key.public_key().public_bytes(serialization.Encoding.DER, serialization.PublicFormat.SubjectPublicKeyInfo)
        now, self.entries, self.leaves = int(time.time() * 1000), [], []
        three = lambda data: len(data).to_bytes(3, "big") + data  # noqa: E731
        for i, (data, poison) in enumerate(certificates):
            bare = promises.entry_of(promises.tbs_of(data)) if poison else data
            self.entries.append((bare, poison))
            leaf = leaf_of(now - len(certificates) + i, bare, merkle.sha256(b"an issuer's key") if poison else None)
            chain = three(three(data))
            self.leaves.append((leaf, three(data) + chain if poison else chain))
        self.root, self.moment = merkle.root([leaf for leaf, _ in self.leaves]), now

    def head(self):
        signed = b"\0\1" + self.moment.to_bytes(8, "big") + len(self.leaves).to_bytes(8, "big") + self.root
        signature = self.key.sign(signed, ec.ECDSA(hashes.SHA256()))
        return {"tree_size": len(self.leaves), "timestamp": self.moment, "sha256_root_hash": text(self.root),
                "tree_head_signature": text(b"\4\3" + len(signature).to_bytes(2, "big") + signature)}

    def answer(self, path):
        """The answer to a call; None if there is no such call."""
        call, _, query = path.partition("?")
        words = {name: int(values[0]) for name, values in urllib.parse.parse_qs(query).items()}
        if call == "/ct/v1/get-sth":
            return self.head()
        if call == "/ct/v1/get-entries":
            return {"entries": [{"leaf_input": text(leaf), "extra_data": text(extra)} for leaf, extra in self.leaves[words["start"] : words["end"] + 1]]}
        return None

    def serve(self):
        """Answers on 127.0.0.1 from now on, and says where."""
        log = self

        class Handler(http.server.BaseHTTPRequestHandler):
            def do_GET(self):
                value = log.answer(self.path)
                body = json.dumps(value).encode()
                self.send_response(404 if value is None else 200)
                self.send_header("Content-Length", str(len(body)))
                self.end_headers()
                self.wfile.write(body)

            def log_message(self, *words):
                """Writes nothing."""

        server = http.server.ThreadingHTTPServer(("127.0.0.1", 0), Handler)
        server.daemon_threads = True
        threading.Thread(target=server.serve_forever, daemon=True).start()
        return f"http://127.0.0.1:{server.server_port}/"

    def listed(self, url):
        """A log list (v3) with only this log."""
        log = {"key": text(self.public), "log_id": text(merkle.sha256(self.public)), "description": "a log", "mmd": 86400, "url": url,
               "state": {"usable": {"timestamp": "2026-01-01T00:00:00Z"}}}
        return {"version": "1.0.0", "log_list_timestamp": "2026-01-01T00:00:00Z", "operators": [{"name": "an operator", "email": [], "logs": [log]}]}
