//! The names of certificates (RFC 5280, section 4), and which watched names are found in them.

use crate::certificates::{of_answer, CertificateError};
use crate::memory::{output, written};
use crate::Error;
use wagtenib_sys as sys;

/// What bytes are: the certificate of an entry, or its TBSCertificate.
#[derive(Clone, Copy, Debug, PartialEq, Eq)]
pub enum EntryType {
    /// A certificate.
    X509 = 0,
    /// The TBSCertificate of a precertificate.
    Precert = 1,
}

/// The kind of a name, by its number in `wagtenib.h`.
#[derive(Clone, Copy, Debug, PartialEq, Eq)]
pub enum NameKind {
    /// A common name of the subject, in a string of bytes.
    Common = 1,
    /// A common name in a BMPString, two bytes a character.
    BmpCommon = 2,
    /// A common name in a UniversalString, four bytes a character.
    UniversalCommon = 3,
    /// A dNSName of subjectAltName.
    Dns = 4,
    /// An rfc822Name of subjectAltName.
    MailAddress = 5,
    /// A uniformResourceIdentifier of subjectAltName.
    Uri = 6,
    /// An iPAddress of subjectAltName.
    IpAddress = 7,
}

const KINDS: [NameKind; 7] =
    [NameKind::Common, NameKind::BmpCommon, NameKind::UniversalCommon, NameKind::Dns, NameKind::MailAddress, NameKind::Uri, NameKind::IpAddress];

/// A name of a certificate.
#[derive(Clone, Debug, PartialEq, Eq)]
pub struct Name {
    /// Its kind.
    pub kind: NameKind,
    /// Its bytes, as they are in the certificate.
    pub bytes: Vec<u8>,
}

/// The place of a watched name that is found.
#[derive(Clone, Copy, Debug, PartialEq, Eq)]
pub enum Place {
    /// It is a name of subjectAltName.
    AltName,
    /// It is a common name, and no name of subjectAltName.
    CommonName,
    /// Its text is somewhere in the bytes: the place of [`in_bytes`].
    InBytes,
}

/// A watched name that is found.
#[derive(Clone, Copy, Debug, PartialEq, Eq)]
pub struct Found {
    /// Its position in the list of watched names, counted from 0.
    pub position: u64,
    /// Its place.
    pub place: Place,
}

/// Returns the number that the bytes begin with, and the rest of them.
fn number(bytes: &[u8]) -> (u64, &[u8]) {
    let (number, rest) = bytes.split_at(8);
    (u64::from_be_bytes(number.try_into().expect("8 bytes were split off")), rest)
}

/// Returns the names of a certificate, or of the TBSCertificate of a precertificate, both in DER: the common names of its subject, and after them the names of its
/// subjectAltName, in order.
///
/// # Errors
///
/// A fault of DER ([`Error::DerTruncated`](crate::Error::DerTruncated) to [`Error::DerTrailing`](crate::Error::DerTrailing)), with its field; or
/// [`Error::OutOfMemory`](crate::Error::OutOfMemory).
pub fn of_certificate(entry_type: EntryType, certificate: &[u8]) -> Result<Vec<Name>, CertificateError> {
    let mut field = 0;
    let (answer, text) = output(certificate.len(), |out, room, length| {
        // SAFETY: the pointers are those of slices and variables that live through the call.
        unsafe { sys::wagtenib_certificate_names(entry_type as u32, certificate.as_ptr(), certificate.len(), out, room, length, &mut field) }
    });
    of_answer(answer, field)?;
    let (mut rest, mut names) = (text.as_slice(), Vec::new());
    while let Some((kind, after)) = rest.split_first() {
        let (length, after) = number(after);
        let (bytes, after) = after.split_at(length as usize);
        names.push(Name { kind: KINDS[usize::from(*kind) - 1], bytes: bytes.to_vec() });
        rest = after;
    }
    Ok(names)
}

/// A list of watched names, which is encoded once for many calls of [`watched`] and [`in_bytes`].
#[derive(Clone, Debug, Default)]
pub struct WatchList(Vec<u8>);

impl WatchList {
    /// Returns the list of these names. A name that begins with a dot is watched with all names below it.
    pub fn new<T: AsRef<[u8]>>(names: impl IntoIterator<Item = T>) -> WatchList {
        let mut list = Vec::new();
        for name in names {
            list.extend((name.as_ref().len() as u64).to_be_bytes());
            list.extend(name.as_ref());
        }
        WatchList(list)
    }
}

/// Returns which of the watched names are found in a certificate, or in the TBSCertificate of a precertificate, in the order of the list. A watched name is found by
/// its labels (RFC 9525, section 6.3).
///
/// # Errors
///
/// Those of [`of_certificate`].
pub fn watched(entry_type: EntryType, certificate: &[u8], list: &WatchList) -> Result<Vec<Found>, CertificateError> {
    let (kind, of, listed, mut field) = (entry_type as u32, (certificate.as_ptr(), certificate.len()), (list.0.as_ptr(), list.0.len()), 0);
    let (answer, text) = output(0, |out, room, length| {
        // SAFETY: as in of_certificate.
        unsafe { sys::wagtenib_watched_names(kind, of.0, of.1, listed.0, listed.1, out, room, length, &mut field) }
    });
    of_answer(answer, field)?;
    Ok(found_names(&text))
}

/// Returns which of the watched names are somewhere in the bytes, in the order of the list, each with the place [`Place::InBytes`]. The bytes may be any bytes: for
/// example a certificate that cannot be read, or that has the name in a field that [`watched`] does not read. A watched name is in the bytes if its text is, without
/// regard to the case of ASCII letters. Its text is the name without one dot at its end, and without the `*.` or the dot in front. An empty text is in all bytes.
///
/// # Errors
///
/// [`Error::OutOfMemory`].
pub fn in_bytes(bytes: &[u8], list: &WatchList) -> Result<Vec<Found>, Error> {
    let text = written(0, |out, room, length| {
        // SAFETY: as in of_certificate.
        unsafe { sys::wagtenib_names_in_bytes(bytes.as_ptr(), bytes.len(), list.0.as_ptr(), list.0.len(), out, room, length) }
    })?;
    Ok(found_names(&text))
}

/// Reads the watched names that the library found.
fn found_names(text: &[u8]) -> Vec<Found> {
    let place = |number| match number {
        1 => Place::AltName,
        2 => Place::CommonName,
        _ => Place::InBytes,
    };
    text.chunks_exact(9).map(|one| Found { position: number(one).0, place: place(one[8]) }).collect()
}
