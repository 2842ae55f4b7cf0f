//! Texts and bytes that are signed, and the numbers by which keys are named. A reader needs them to check the signatures of logs and witnesses. No function here checks a
//! signature, and none decides what may be signed.

use crate::error::result;
use crate::guard::{SignedBytes, TreeHead};
use crate::memory::{text, written};
use crate::{Error, Hash};
use wagtenib_sys as sys;

/// The most bytes of a checkpoint beside its origin: a size of at most 20 digits, a root of 44 characters, and three line ends.
const BESIDE_ORIGIN: usize = 67;

/// The most bytes of a cosignature's message before the text: the version, "time ", a time of at most 20 digits, and two line ends.
const BEFORE_TEXT: usize = 41;

/// The content of a checkpoint.
#[derive(Clone, Copy, Debug, PartialEq, Eq)]
pub struct Checkpoint<'a> {
    /// The name of the log.
    pub origin: &'a str,
    /// The number of leaves.
    pub tree_size: u64,
    /// The Merkle Tree Hash of the leaves.
    pub root: Hash,
}

/// Returns the text of a checkpoint without signatures and extension lines (C2SP tlog-checkpoint).
///
/// # Errors
///
/// [`Error::BadOrigin`], or [`Error::OutOfMemory`].
pub fn checkpoint_text(checkpoint: &Checkpoint<'_>) -> Result<String, Error> {
    let Checkpoint { origin, tree_size, root } = *checkpoint;
    Ok(text(written(origin.len() + BESIDE_ORIGIN, |out, room, length| {
        // SAFETY: the pointers are those of slices and variables that live through the call.
        unsafe { sys::wagtenib_checkpoint_text(origin.as_ptr(), origin.len(), tree_size, root.as_ptr(), out, room, length) }
    })?))
}

/// Reads the text of a checkpoint, with its last line end and without the empty line and the signatures after it. It is `Ok` exactly if the text is one without extension
/// lines.
///
/// # Errors
///
/// [`Error::NoCheckpoint`], or [`Error::OutOfMemory`].
pub fn read_checkpoint(checkpoint: &str) -> Result<Checkpoint<'_>, Error> {
    let mut found = sys::wagtenib_checkpoint::default();
    // SAFETY: as in checkpoint_text.
    result(unsafe { sys::wagtenib_read_checkpoint(checkpoint.as_ptr(), checkpoint.len(), &mut found) })?;
    Ok(Checkpoint { origin: &checkpoint[..found.origin_length as usize], tree_size: found.tree_size, root: found.root })
}

/// Returns the TreeHeadSignature of a head: the bytes under the log's signature (RFC 6962, section 3.5), also in a checkpoint (C2SP static-ct-api, "Checkpoints").
#[must_use]
pub fn tree_head_signature(head: &TreeHead) -> SignedBytes {
    let mut signed = [0; 50];
    // SAFETY: as in checkpoint_text; `signed` has 50 bytes.
    unsafe { sys::wagtenib_tree_head_signature(&head.in_c(), signed.as_mut_ptr()) }
    signed
}

/// Returns the bytes under a cosignature of this time, in seconds since 1970, over the text of a note (C2SP tlog-cosignature). A witness calls
/// [`cosign`](crate::witness::cosign) instead, which decides whether it may sign them.
///
/// # Errors
///
/// [`Error::OutOfMemory`].
pub fn cosignature_message(time: u64, note: &str) -> Result<Vec<u8>, Error> {
    written(BEFORE_TEXT + note.len(), |out, room, length| {
        // SAFETY: as in checkpoint_text.
        unsafe { sys::wagtenib_cosignature_message(time, note.as_ptr(), note.len(), out, room, length) }
    })
}

/// Returns the number by which a signature of a note names its key (C2SP signed-note). The algorithm 1 is Ed25519, and 4 is cosignature/v1. For the algorithm 5,
/// RFC6962NoteSignature, the LogID is in place of the key.
#[must_use]
pub fn note_key_id(name: &str, algorithm: u8, public_key: &[u8]) -> [u8; 4] {
    let mut key_id = [0; 4];
    // SAFETY: as in checkpoint_text; `key_id` has 4 bytes.
    unsafe { sys::wagtenib_note_key_id(name.as_ptr(), name.len(), algorithm, public_key.as_ptr(), public_key.len(), key_id.as_mut_ptr()) }
    key_id
}

/// Returns the LogID: SHA-256 of the log's public key, a SubjectPublicKeyInfo in DER (RFC 6962, section 3.2).
#[must_use]
pub fn log_id(public_key: &[u8]) -> Hash {
    let mut id = Hash::default();
    // SAFETY: as in checkpoint_text; `id` has 32 bytes.
    unsafe { sys::wagtenib_log_id(public_key.as_ptr(), public_key.len(), id.as_mut_ptr()) }
    id
}

/// Returns the version of the library: 1,000,000 times the first number, 1,000 times the second, and the third.
#[must_use]
pub fn version() -> u32 {
    // SAFETY: the call has no arguments.
    unsafe { sys::wagtenib_version() }
}

/// Reports whether SHA-256 runs by the processor's SHA instructions in place of the proved code.
///
/// That needs the feature `sha-instructions` and a processor that has them. The proof does not speak of these instructions.
#[must_use]
pub fn has_sha_instructions() -> bool {
    #[cfg(feature = "sha-instructions")]
    // SAFETY: the call has no arguments.
    return unsafe { sys::wagtenib_has_sha_instructions() };
    #[cfg(not(feature = "sha-instructions"))]
    false
}
