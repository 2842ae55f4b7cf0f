//! The step of a tiled log (C2SP static-ct-api).
//!
//! The log's state is the text of a line. The caller must keep it in a register with compare-and-set. To add entries:
//!
//! 1. read the state, and the contents of the objects that [`needs`] names;
//! 2. call [`step`] with them, and store the bundle;
//! 3. after that, store the new state, only if the old state is still there;
//! 4. after that, put the objects of the bundle, and sign the head and the receipts.

use crate::guard::SignedBytes;
use crate::memory::{text, written};
use crate::tree::first_of;
use crate::{Error, Hash};
use wagtenib_sys as sys;

/// What is submitted to a log.
#[derive(Clone, Copy, Debug, PartialEq, Eq)]
pub enum Submitted<'a> {
    /// A certificate in DER.
    Certificate(&'a [u8]),
    /// A precertificate.
    Precertificate {
        /// The SHA-256 hash of the issuer's key.
        issuer_key_hash: &'a Hash,
        /// The TBSCertificate in DER, without the poison extension (RFC 6962, section 3.2).
        tbs_certificate: &'a [u8],
        /// The precertificate in DER.
        precertificate: &'a [u8],
    },
}

/// The error of a submission that has no encoding: a certificate has no bytes or more than 2^24 - 1, or the chain has more than 2,047 issuers.
#[derive(Clone, Copy, Debug, PartialEq, Eq)]
pub struct SubmissionError;

impl std::fmt::Display for SubmissionError {
    fn fmt(&self, f: &mut std::fmt::Formatter<'_>) -> std::fmt::Result {
        f.write_str("wagtenib: a submission has a length that is not in range")
    }
}

impl std::error::Error for SubmissionError {}

/// The largest number of issuers of a submission's chain.
const MAX_CHAIN: usize = 2047;

fn append_certificate(batch: &mut Vec<u8>, certificate: &[u8]) -> Result<(), SubmissionError> {
    if certificate.is_empty() || certificate.len() >= 1 << 24 {
        return Err(SubmissionError);
    }
    batch.extend_from_slice(&(certificate.len() as u32).to_be_bytes()[1..]);
    batch.extend_from_slice(certificate);
    Ok(())
}

/// Appends a submission to a batch, with the SHA-256 fingerprints of its issuers: a TileLeaf (C2SP static-ct-api) with the timestamp 0 and no extensions.
///
/// # Errors
///
/// [`SubmissionError`] if a length is not in range. The batch is as before then.
pub fn append_submission(batch: &mut Vec<u8>, submitted: &Submitted<'_>, chain: &[Hash]) -> Result<(), SubmissionError> {
    let mut leaf = vec![0; 8];
    match *submitted {
        Submitted::Certificate(certificate) => {
            leaf.extend_from_slice(&[0, 0]);
            append_certificate(&mut leaf, certificate)?;
            leaf.extend_from_slice(&[0, 0]);
        }
        Submitted::Precertificate { issuer_key_hash, tbs_certificate, precertificate } => {
            leaf.extend_from_slice(&[0, 1]);
            leaf.extend_from_slice(issuer_key_hash);
            append_certificate(&mut leaf, tbs_certificate)?;
            leaf.extend_from_slice(&[0, 0]);
            append_certificate(&mut leaf, precertificate)?;
        }
    }
    if chain.len() > MAX_CHAIN {
        return Err(SubmissionError);
    }
    leaf.extend_from_slice(&(32 * chain.len() as u16).to_be_bytes());
    leaf.extend_from_slice(&chain.concat());
    batch.extend_from_slice(&leaf);
    Ok(())
}

/// Appends the content of an object to an edge.
pub fn append_content(edge: &mut Vec<u8>, content: &[u8]) {
    edge.extend_from_slice(&(content.len() as u64).to_be_bytes());
    edge.extend_from_slice(content);
}

/// Where an entry of a batch is in the log.
#[derive(Clone, Debug, PartialEq, Eq)]
pub struct Receipt {
    /// The index of its leaf.
    pub leaf_index: u64,
    /// Milliseconds since 1970.
    pub timestamp: u64,
    /// What is signed for the SCT (RFC 6962, section 3.2), which is also the leaf.
    pub signed: Vec<u8>,
}

/// Where an object is in a bundle.
#[derive(Clone, Debug, PartialEq, Eq)]
pub struct Object {
    /// Its name, as in "tile/0/000".
    pub name: String,
    /// Where its content begins in the bundle.
    pub start: u64,
    /// The number of bytes of its content.
    pub length: u64,
    /// SHA-256 of its content.
    pub digest: Hash,
}

/// What is published of a step.
#[derive(Clone, Debug, PartialEq, Eq)]
pub struct Published {
    /// What is signed for the head (RFC 6962, section 3.5).
    pub signed: SignedBytes,
    /// The text of the checkpoint, without a signature (C2SP tlog-checkpoint).
    pub checkpoint: String,
    /// The objects of the bundle, in order.
    pub objects: Vec<Object>,
}

/// A step of a log.
#[derive(Clone, Debug, PartialEq, Eq)]
pub struct Step {
    /// What is published of it.
    pub published: Published,
    /// The new state.
    pub state: String,
    /// The contents of all objects.
    pub bundle: Vec<u8>,
    /// One for each submission, in the batch's order; of a repeat that of the first.
    pub receipts: Vec<Receipt>,
}

/// A reply, read from its front. The library's replies have each field whole.
struct Fields<'a>(&'a [u8]);

impl<'a> Fields<'a> {
    fn bytes(&mut self, length: u64) -> &'a [u8] {
        let (part, rest) = self.0.split_at(length as usize);
        self.0 = rest;
        part
    }

    fn number(&mut self) -> u64 {
        u64::from_be_bytes(self.bytes(8).try_into().expect("8 bytes were read"))
    }

    fn vector(&mut self) -> &'a [u8] {
        let length = self.number();
        self.bytes(length)
    }

    fn text(&mut self) -> String {
        text(self.vector().to_vec())
    }

    /// Reads fields until no byte is left.
    fn all<T>(&mut self, read: impl Fn(&mut Fields<'a>) -> T) -> Vec<T> {
        let mut found = Vec::new();
        while !self.0.is_empty() {
            found.push(read(self));
        }
        found
    }

    fn published(&mut self) -> Published {
        let signed = self.bytes(50).try_into().expect("50 bytes were read");
        let checkpoint = self.text();
        let objects = Fields(self.vector()).all(|object| Object {
            name: object.text(),
            start: object.number(),
            length: object.number(),
            digest: object.bytes(32).try_into().expect("32 bytes were read"),
        });
        Published { signed, checkpoint, objects }
    }
}

/// Returns the state of a log without leaves, at this timestamp in milliseconds.
///
/// # Errors
///
/// [`Error::OutOfMemory`].
pub fn begin(timestamp: u64) -> Result<String, Error> {
    // SAFETY: the pointers are those of memory that lives through the call.
    written(512, |out, room, length| unsafe { sys::wagtenib_step_begin(timestamp, out, room, length) }).map(text)
}

/// Returns the names of the objects whose contents a step from this state needs, in order.
///
/// # Errors
///
/// [`Error::BadState`], or [`Error::OutOfMemory`].
pub fn needs(state: &str) -> Result<Vec<String>, Error> {
    // SAFETY: as in begin.
    let reply = written(512, |out, room, length| unsafe { sys::wagtenib_step_needs(state.as_ptr(), state.len(), out, room, length) })?;
    Ok(Fields(&reply).all(Fields::text))
}

/// Makes a step of the log with this origin from a state, at the timestamp `now` in milliseconds.
///
/// The edge has the contents that the step needs, appended by [`append_content`] in the order of [`needs`], and the batch has the submissions, appended by
/// [`append_submission`].
///
/// # Errors
///
/// The first reason of [`Error::BadOrigin`], [`Error::BadBatch`], [`Error::TooMany`], [`Error::BadState`],
/// [`Error::TimestampTooFar`] (`now` is more than `max_ahead` beyond the state's timestamp), [`Error::Edge`], [`Error::Entries`], [`Error::ClockBack`],
/// [`Error::LogFull`] and [`Error::DataTileTooLong`]; or [`Error::OutOfMemory`].
pub fn step(origin: &str, state: &str, edge: &[u8], batch: &[u8], now: u64, max_ahead: u64) -> Result<Step, Error> {
    let reply = written(edge.len() + 2 * batch.len() + batch.len() / 4 + 32_768, |out, room, length| {
        let (log, old) = ((origin.as_ptr(), origin.len()), (state.as_ptr(), state.len()));
        // SAFETY: as in begin.
        unsafe { sys::wagtenib_step(log.0, log.1, old.0, old.1, edge.as_ptr(), edge.len(), batch.as_ptr(), batch.len(), now, max_ahead, out, room, length) }
    })?;
    let mut fields = Fields(&reply);
    let (published, state, bundle) = (fields.published(), fields.text(), fields.vector().to_vec());
    let receipts = fields.all(|receipt| Receipt { leaf_index: receipt.number(), timestamp: receipt.number(), signed: receipt.vector().to_vec() });
    Ok(Step { published, state, bundle, receipts })
}

/// Returns the bytes to sign in the SCT of a submission, a batch of one, whose entry has this timestamp and is the leaf at `leaf_index`: the path leads from that leaf
/// to the root of the state. The fingerprints of the submission's chain are not compared.
///
/// # Errors
///
/// The first reason of [`Error::BadBatch`], [`Error::BadState`] and [`Error::Claim`]; or [`Error::OutOfMemory`].
pub fn claim(state: &str, leaf_index: u64, timestamp: u64, path: &[Hash], submission: &[u8]) -> Result<Vec<u8>, Error> {
    written(submission.len() + 64, |out, room, length| {
        let (old, of) = ((state.as_ptr(), state.len()), (submission.as_ptr(), submission.len()));
        // SAFETY: as in begin.
        unsafe { sys::wagtenib_step_claim(old.0, old.1, leaf_index, timestamp, first_of(path), path.len(), of.0, of.1, out, room, length) }
    })
}

/// Returns what is published of the step that made this state, by its bundle.
///
/// # Errors
///
/// The first reason of [`Error::BadOrigin`], [`Error::BadState`] and [`Error::Bundle`]; or [`Error::OutOfMemory`].
pub fn resume(origin: &str, state: &str, bundle: &[u8]) -> Result<Published, Error> {
    let reply = written(16_384, |out, room, length| {
        let (log, old) = ((origin.as_ptr(), origin.len()), (state.as_ptr(), state.len()));
        // SAFETY: as in begin.
        unsafe { sys::wagtenib_step_resume(log.0, log.1, old.0, old.1, bundle.as_ptr(), bundle.len(), out, room, length) }
    })?;
    Ok(Fields(&reply).published())
}
