"""Submissions to a tiled log, and the leaf of each as it is signed and as a data tile holds it: RFC 6962, section 3, and C2SP static-ct-api
("SCT Extension" and "Log Entries")."""
from typing import NamedTuple, Optional


class Submission(NamedTuple):
    """The bytes of a certificate, or of a precertificate, in the log."""

    # The certificate, or of a precertificate its TBSCertificate without the poison extension.
    signed: bytes
    # SHA-256 of the issuer's SubjectPublicKeyInfo, if it is a precertificate.
    issuer_key_hash: Optional[bytes] = None
    # The precertificate, if it is one.
    precertificate: bytes = b""
    # SHA-256 of the certificate of each issuer of the chain, in order.
    fingerprints: tuple = ()

    def identity(self):
        """The identity of an entry: the entry type and the signed entry."""
        return self.issuer_key_hash, self.signed


def vector(width, content):
    """Bytes after their number, which has that many bytes, the highest first."""
    return len(content).to_bytes(width, "big") + content


def timestamped_entry(submission, moment, index):
    """TimestampedEntry (RFC 6962, section 3.4) at a moment in milliseconds; its one extension, leaf_index, has the index."""
    entry = b"\0\0" if submission.issuer_key_hash is None else b"\0\1" + submission.issuer_key_hash
    extension = b"\0" + vector(2, index.to_bytes(5, "big"))
    return moment.to_bytes(8, "big") + entry + vector(3, submission.signed) + vector(2, extension)


def signed_bytes(submission, moment, index):
    """The bytes under a timestamp's signature (RFC 6962, section 3.2). It is the tree's leaf, too (section 3.4)."""
    return b"\0\0" + timestamped_entry(submission, moment, index)


def tile_leaf(submission, moment, index):
    """TileLeaf of static-ct-api, as a data tile holds it."""
    beside = b"" if submission.issuer_key_hash is None else vector(3, submission.precertificate)
    return timestamped_entry(submission, moment, index) + beside + vector(2, b"".join(submission.fingerprints))
