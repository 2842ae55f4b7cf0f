//! What a log's key may sign.
//!
//! The guard's state is the [`SignedBytes`] that were signed last. The caller must keep them in a place that one process at a time can change. To sign a head:
//!
//! 1. read the state, and call [`head`] with it ([`first_head`] if no state is kept);
//! 2. store the bytes that it returns as the new state, only if the old state is still there;
//! 3. after that, sign these bytes.
//!
//! Then the log signs no fork, however many processes call the guard and wherever they are killed.

use crate::error::result;
use crate::memory::joined;
use crate::tree::first_of;
use crate::{Error, Hash};
use wagtenib_sys as sys;

/// A tree head without its signature (RFC 6962, section 3.5).
#[derive(Clone, Copy, Debug, PartialEq, Eq)]
pub struct TreeHead {
    /// The number of leaves.
    pub tree_size: u64,
    /// Milliseconds since 1970.
    pub timestamp: u64,
    /// The Merkle Tree Hash of the leaves.
    pub root: Hash,
}

impl TreeHead {
    pub(crate) fn in_c(&self) -> sys::wagtenib_head {
        sys::wagtenib_head { tree_size: self.tree_size, timestamp: self.timestamp, root: self.root }
    }
}

/// The bytes that a log signs for a tree head, its TreeHeadSignature (RFC 6962, section 3.5). After they are signed, they are the guard's state.
pub type SignedBytes = [u8; 50];

/// Decides whether a head may be the first that a log signs, and returns the bytes to sign.
///
/// It is `Ok` exactly if `head` is that of the empty tree, at any timestamp, or has leaves and is equal to `named`, which the operator names. Call it when the log is
/// created, or when the operator asks for it, and never only because a state is missing.
///
/// # Errors
///
/// [`Error::NotFirst`].
pub fn first_head(head: &TreeHead, named: Option<&TreeHead>) -> Result<SignedBytes, Error> {
    let none = sys::wagtenib_head::default();
    let (head, named) = (head.in_c(), named.map_or(none, TreeHead::in_c));
    let mut signed = [0; 50];
    // SAFETY: the pointers are those of variables that live through the call, and `signed` has 50 bytes.
    result(unsafe { sys::wagtenib_guard_first_head(&head, &named, signed.as_mut_ptr()) })?;
    Ok(signed)
}

/// Decides whether a head may be signed after the head whose signed bytes are `last`, and returns the bytes to sign.
///
/// `proof` is the consistency proof from the last head to this one (RFC 6962, section 2.1.2). It is not read if their sizes are equal or the last size is 0. It is `Ok`
/// exactly if `head` is the last head again, or its timestamp is later, by at most `max_ahead` milliseconds, and its tree contains the last one's by the proof.
///
/// # Errors
///
/// The first reason of [`Error::BadState`], [`Error::TimestampTooFar`], [`Error::SizeFalls`], [`Error::TimestampNotLater`], [`Error::Fork`] and those of
/// [`verify_consistency`](crate::tree::verify_consistency).
pub fn head(last: &[u8], head: &TreeHead, proof: &[Hash], max_ahead: u64) -> Result<SignedBytes, Error> {
    let head = head.in_c();
    let mut signed = [0; 50];
    // SAFETY: as in first_head.
    result(unsafe { sys::wagtenib_guard_head(last.as_ptr(), last.len(), &head, first_of(proof), proof.len(), max_ahead, signed.as_mut_ptr()) })?;
    Ok(signed)
}

/// Decides whether an SCT of a leaf (MerkleTreeLeaf) may be signed after the head whose signed bytes are `last`. The bytes that the SCT signs are the leaf's
/// (RFC 6962, section 3.2).
///
/// It is `Ok` exactly if the path leads from the leaf at `leaf_index` to the root of that head, the leaf's timestamp is not later than the head's, and its extensions
/// are empty or contain only the index.
///
/// # Errors
///
/// The first reason of [`Error::BadState`], those of [`decode`](crate::leaf::decode), those of [`verify_inclusion`](crate::tree::verify_inclusion),
/// [`Error::LaterLeaf`] and [`Error::OtherIndex`].
pub fn receipt(last: &[u8], leaf: &[u8], leaf_index: u64, path: &[Hash]) -> Result<(), Error> {
    // SAFETY: as in first_head.
    result(unsafe { sys::wagtenib_guard_receipt(last.as_ptr(), last.len(), leaf.as_ptr(), leaf.len(), leaf_index, first_of(path), path.len()) })
}

/// Decides whether SCTs of all leaves of a step may be signed after the head whose signed bytes are `last`. The leaves have the indexes from `first_index` on, and
/// `subtrees` are the roots of the perfect subtrees of the leaves before them, largest first.
///
/// It is `Ok` exactly if the leaves end where the tree of that head ends, they and the subtrees give its root, and each leaf's timestamp is not later than the
/// head's, and its extensions are empty or contain only its index.
///
/// # Errors
///
/// The first reason of [`Error::BadState`], [`Error::OutOfMemory`], [`Error::IndexOutOfRange`] (there are no leaves, or they end elsewhere), [`Error::RootMismatch`],
/// and those of [`decode`](crate::leaf::decode), [`Error::LaterLeaf`] and [`Error::OtherIndex`] of the first leaf that may have no SCT.
pub fn receipts<T: AsRef<[u8]>>(last: &[u8], first_index: u64, subtrees: &[Hash], leaves: &[T]) -> Result<(), Error> {
    let (contents, lengths) = joined(leaves);
    let (leaves, leaf_count) = ((contents.as_ptr(), contents.len()), lengths.len());
    // SAFETY: as in first_head; `lengths` has so many numbers.
    result(unsafe {
        sys::wagtenib_guard_receipts(last.as_ptr(), last.len(), first_index, first_of(subtrees), subtrees.len(), leaves.0, leaves.1, lengths.as_ptr(), leaf_count)
    })
}

/// Reads a state, the signed bytes of a head. It returns the head exactly if it is that of the state `seen`, or has a later timestamp and no fewer leaves.
///
/// # Errors
///
/// [`Error::BadState`], or [`Error::StateRolledBack`] if the state's head is before that of `seen`.
pub fn state(seen: &[u8], state: &[u8]) -> Result<TreeHead, Error> {
    let mut head = sys::wagtenib_head::default();
    // SAFETY: as in first_head.
    result(unsafe { sys::wagtenib_guard_state(seen.as_ptr(), seen.len(), state.as_ptr(), state.len(), &mut head) })?;
    Ok(TreeHead { tree_size: head.tree_size, timestamp: head.timestamp, root: head.root })
}
