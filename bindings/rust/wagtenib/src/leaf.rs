//! The fields of a leaf.

use crate::error::result;
use crate::{Error, Hash};
use wagtenib_sys as sys;

/// An entry of a log (RFC 6962, section 3.1).
#[derive(Clone, Copy, Debug, PartialEq, Eq)]
pub enum Entry<'a> {
    /// A certificate in DER.
    Certificate(&'a [u8]),
    /// A precertificate.
    Precertificate {
        /// The SHA-256 hash of the issuer's key.
        issuer_key_hash: &'a Hash,
        /// The TBSCertificate in DER, without the poison extension.
        tbs_certificate: &'a [u8],
    },
}

/// The fields of a MerkleTreeLeaf (RFC 6962, section 3.4). They are parts of the bytes that were decoded.
#[derive(Clone, Copy, Debug, PartialEq, Eq)]
pub struct Leaf<'a> {
    /// Milliseconds since 1970.
    pub timestamp: u64,
    /// What was logged.
    pub entry: Entry<'a>,
    /// The CtExtensions, without their length.
    pub extensions: &'a [u8],
}

// The lengths of a leaf's fields (RFC 6962, section 3.4): the version, the type of the leaf, the timestamp and the type of the entry; and the length of a certificate.
const HEADER_BYTES: usize = 12;
const LENGTH_BYTES: usize = 3;

/// Reads a MerkleTreeLeaf (RFC 6962, section 3.4). It is `Ok` exactly if the bytes are one, all of them.
///
/// # Errors
///
/// The first fault from the left: [`Error::Truncated`], [`Error::BadVersion`], [`Error::BadLeafType`], [`Error::BadEntryType`], [`Error::EmptyVector`] or
/// [`Error::Trailing`].
pub fn decode(leaf: &[u8]) -> Result<Leaf<'_>, Error> {
    let mut info = sys::wagtenib_leaf_info::default();
    // SAFETY: the pointers are those of references that live through the call.
    result(unsafe { sys::wagtenib_decode_leaf(leaf.as_ptr(), leaf.len(), &mut info) })?;
    // A length of a decoded leaf is at most that of `leaf`.
    let (certificate_length, extensions_length) = (info.certificate_length as usize, info.extensions_length as usize);
    let after_header = &leaf[HEADER_BYTES..];
    let entry = if info.entry_type == 0 {
        Entry::Certificate(&after_header[LENGTH_BYTES..LENGTH_BYTES + certificate_length])
    } else {
        let (issuer_key_hash, rest) = after_header.split_at(32);
        Entry::Precertificate {
            issuer_key_hash: issuer_key_hash.try_into().expect("32 bytes were split off"),
            tbs_certificate: &rest[LENGTH_BYTES..LENGTH_BYTES + certificate_length],
        }
    };
    Ok(Leaf { timestamp: info.timestamp, entry, extensions: &leaf[leaf.len() - extensions_length..] })
}
