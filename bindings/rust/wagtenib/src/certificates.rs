//! Entries of precertificates, and the leaves that timestamps in certificates promise (RFC 6962, sections 3.1 to 3.4).

use std::fmt;

use crate::error::result;
use crate::memory::output;
use crate::tree::first_of;
use crate::{Error, Hash};
use wagtenib_sys as sys;

/// What is added to the number of a field of the issuer's certificate.
const OF_ISSUER: u32 = 16;

/// The fields of a certificate (RFC 5280, section 4.1), by their numbers in `wagtenib.h`.
const FIELDS: [&str; 16] = [
    "", "certificate", "tbsCertificate", "signatureAlgorithm", "signatureValue", "version", "serialNumber", "signature", "issuer", "validity", "subject",
    "subjectPublicKeyInfo", "issuerUniqueID", "subjectUniqueID", "extensions", "subjectAltName",
];

/// A field of a certificate.
#[derive(Clone, Copy, Debug, PartialEq, Eq)]
pub struct Field {
    /// Its name in RFC 5280, section 4.1.
    pub name: &'static str,
    /// Whether it is a field of the issuer's certificate.
    pub is_of_issuer: bool,
}

/// Why certificates give nothing: the first reason that reading meets, and the field in which it is if a certificate is the reason.
#[derive(Clone, Copy, Debug, PartialEq, Eq)]
pub struct CertificateError {
    /// The reason.
    pub error: Error,
    /// The field in which it is.
    pub field: Option<Field>,
}

impl fmt::Display for CertificateError {
    fn fmt(&self, f: &mut fmt::Formatter<'_>) -> fmt::Result {
        write!(f, "{}", self.error)?;
        match self.field {
            Some(Field { name, is_of_issuer: false }) => write!(f, " (in {name} of the certificate)"),
            Some(Field { name, is_of_issuer: true }) => write!(f, " (in {name} of the issuer's certificate)"),
            None => Ok(()),
        }
    }
}

impl std::error::Error for CertificateError {
    fn source(&self) -> Option<&(dyn std::error::Error + 'static)> {
        Some(&self.error)
    }
}

/// Returns what an answer means, with the number of the field, which is 0 if the library did not write it.
pub(crate) fn of_answer(answer: u32, field: u32) -> Result<(), CertificateError> {
    result(answer).map_err(|error| CertificateError {
        error,
        field: (field > 0).then(|| Field { name: FIELDS[(field % OF_ISSUER) as usize], is_of_issuer: field > OF_ISSUER }),
    })
}

/// Returns the entry of the precertificate with this TBSCertificate (DER): the same without the poison extension (RFC 6962, section 3.2).
///
/// If a precertificate signing certificate issued it, the caller must replace the issuer and its key identifier first.
///
/// # Errors
///
/// A fault of DER ([`Error::DerTruncated`] to [`Error::DerTrailing`]), [`Error::NoExtension`], [`Error::SecondExtension`] or [`Error::BadPoison`], with its field; or
/// [`Error::OutOfMemory`].
pub fn precertificate_entry(tbs_certificate: &[u8]) -> Result<Vec<u8>, CertificateError> {
    let mut field = 0;
    let (answer, entry) = output(tbs_certificate.len(), |out, room, length| {
        // SAFETY: the pointers are those of slices and variables that live through the call.
        unsafe { sys::wagtenib_precertificate_entry(tbs_certificate.as_ptr(), tbs_certificate.len(), out, room, length, &mut field) }
    });
    of_answer(answer, field).map(|()| entry)
}

/// A timestamp in a certificate: what a log promised (RFC 6962, section 3).
#[derive(Clone, Copy, Debug)]
pub struct Promise<'a> {
    /// The certificate, in DER.
    pub certificate: &'a [u8],
    /// The certificate of its issuer, in DER.
    pub issuer: &'a [u8],
    /// Milliseconds since 1970.
    pub timestamp: u64,
    /// The CtExtensions, without their length.
    pub extensions: &'a [u8],
}

/// Returns the leaf (MerkleTreeLeaf, RFC 6962, section 3.4) that a timestamp promises: of the certificate without its list of timestamps, and of SHA-256 of its
/// issuer's key. The log signs these bytes (section 3.2).
///
/// # Errors
///
/// A fault of DER, [`Error::NoExtension`], [`Error::SecondExtension`] or [`Error::TbsTooLong`], with its field; [`Error::ExtensionsTooLong`]; or
/// [`Error::OutOfMemory`].
pub fn promised_leaf(promise: &Promise<'_>) -> Result<Vec<u8>, CertificateError> {
    let Promise { certificate, issuer, timestamp, extensions } = *promise;
    let mut field = 0;
    let (answer, leaf) = output(certificate.len() + extensions.len() + 64, |out, room, length| {
        let (of, by) = ((certificate.as_ptr(), certificate.len()), (issuer.as_ptr(), issuer.len()));
        // SAFETY: as in precertificate_entry.
        unsafe { sys::wagtenib_promised_leaf(of.0, of.1, by.0, by.1, timestamp, extensions.as_ptr(), extensions.len(), out, room, length, &mut field) }
    });
    of_answer(answer, field).map(|()| leaf)
}

/// Checks that the leaf that a timestamp promises is in a tree. It is `Ok` exactly if the audit path leads from that leaf at `leaf_index` to the root of a tree of
/// `tree_size` leaves.
///
/// # Errors
///
/// Those of [`promised_leaf`], and those of [`verify_inclusion`](crate::tree::verify_inclusion).
pub fn check_promise(promise: &Promise<'_>, leaf_index: u64, tree_size: u64, path: &[Hash], root: &Hash) -> Result<(), CertificateError> {
    let Promise { certificate, issuer, timestamp, extensions } = *promise;
    let (of, by, with) = ((certificate.as_ptr(), certificate.len()), (issuer.as_ptr(), issuer.len()), (extensions.as_ptr(), extensions.len()));
    let mut field = 0;
    // SAFETY: as in precertificate_entry.
    let answer = unsafe {
        sys::wagtenib_check_promise(of.0, of.1, by.0, by.1, timestamp, with.0, with.1, leaf_index, tree_size, first_of(path), path.len(), root.as_ptr(), &mut field)
    };
    of_answer(answer, field)
}
