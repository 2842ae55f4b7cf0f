//! Which checkpoints a witness cosigns (C2SP tlog-witness).
//!
//! The witness's state is, for each log, the message that it cosigned last (C2SP tlog-cosignature). The caller must keep it in a place that one process at a time can
//! change. To cosign a checkpoint:
//!
//! 1. check the log's signature, read the state, and call [`cosign`] with it ([`first`] if the log was never cosigned);
//! 2. store the message that it returns as the new state, only if the old state is still there;
//! 3. after that, sign the message.
//!
//! Then all trees that were cosigned are those of beginnings of one list, however many processes call the witness and wherever they are killed.

use crate::error::result;
use crate::memory::written;
use crate::tree::first_of;
use crate::{Error, Hash};
use wagtenib_sys as sys;

/// The most bytes of a message before the checkpoint's text: the version, "time ", a time of at most 20 digits, and two line ends.
const BEFORE_TEXT: usize = 41;

/// What a witness cosigned last of a log.
#[derive(Clone, Copy, Debug, PartialEq, Eq)]
pub struct WitnessedTree {
    /// The number of leaves.
    pub tree_size: u64,
    /// Seconds since 1970.
    pub time: u64,
    /// The Merkle Tree Hash of the leaves.
    pub root: Hash,
}

/// What a witness is asked: a checkpoint, and the proof that its tree contains the one that was cosigned last.
#[derive(Clone, Copy, Debug)]
pub struct Request<'a> {
    /// The text of the checkpoint, with its last line end.
    pub checkpoint: &'a str,
    /// The size that the consistency proof is from.
    pub old: u64,
    /// The consistency proof. It is empty if both trees are the same, or the last one has no leaves.
    pub proof: &'a [Hash],
    /// The time of the cosignature, in seconds since 1970.
    pub time: u64,
}

/// Decides whether a checkpoint may be the first that is cosigned of the log with this origin, and returns the message to cosign.
///
/// Call it only if the operator added the log, and never because a state is missing. It decides as [`cosign`] does after the tree without leaves, at the time 0.
///
/// # Errors
///
/// Those of [`cosign`].
pub fn first(origin: &str, request: &Request<'_>) -> Result<Vec<u8>, Error> {
    let Request { checkpoint, old, proof, time } = *request;
    written(BEFORE_TEXT + checkpoint.len(), |out, room, length| {
        // SAFETY: the pointers are those of slices and variables that live through the call.
        unsafe {
            sys::wagtenib_witness_first(origin.as_ptr(), origin.len(), checkpoint.as_ptr(), checkpoint.len(), old, first_of(proof), proof.len(), time, out, room, length)
        }
    })
}

/// Decides whether a checkpoint may be cosigned after the message `state`, and returns the message to cosign.
///
/// It is `Ok` exactly if the checkpoint has the origin of the state, `old` is the size of the state's tree, the proof leads from that tree to the checkpoint's, and
/// the time is neither 0 nor earlier than the state's.
///
/// # Errors
///
/// The first reason of [`Error::BadState`], [`Error::NoCheckpoint`], [`Error::OtherOrigin`], [`Error::OldAbove`], [`Error::NotLast`], [`Error::Fork`],
/// [`Error::ProofNotEmpty`], those of [`verify_consistency`](crate::tree::verify_consistency), and [`Error::TimeFalls`]; or [`Error::OutOfMemory`].
pub fn cosign(state: &[u8], request: &Request<'_>) -> Result<Vec<u8>, Error> {
    let Request { checkpoint, old, proof, time } = *request;
    written(BEFORE_TEXT + checkpoint.len(), |out, room, length| {
        // SAFETY: as in first.
        unsafe {
            sys::wagtenib_witness_cosign(state.as_ptr(), state.len(), checkpoint.as_ptr(), checkpoint.len(), old, first_of(proof), proof.len(), time, out, room, length)
        }
    })
}

/// Reads a state. It returns its tree and time exactly if it is the state `seen`, or that of a later cosignature of the same log: its time is not earlier, and its
/// tree is the same or has more leaves. To read a state without another, pass it twice.
///
/// # Errors
///
/// [`Error::BadState`], [`Error::StateRolledBack`], or [`Error::OutOfMemory`].
pub fn state(seen: &[u8], state: &[u8]) -> Result<WitnessedTree, Error> {
    let mut last = sys::wagtenib_witnessed_tree::default();
    // SAFETY: as in first.
    result(unsafe { sys::wagtenib_witness_state(seen.as_ptr(), seen.len(), state.as_ptr(), state.len(), &mut last) })?;
    Ok(WitnessedTree { tree_size: last.tree_size, time: last.time, root: last.root })
}
