//! Subtrees of a tree, whose hashes Merkle Tree Certificates sign (RFC 6962, section 2.1; draft-ietf-plants-merkle-tree-certs).

use crate::error::result;
use crate::tree::first_of;
use crate::{Error, Hash};
use wagtenib_sys as sys;

/// A range of leaves of one list, from index `start`, counted from 0, to `end - 1`.
///
/// It is a subtree if it has leaves, and `start` is a multiple of the smallest power of two that is not below their number. The hash of a subtree is the Merkle Tree
/// Hash of its leaves (RFC 6962, section 2.1).
#[derive(Clone, Copy, Debug, PartialEq, Eq)]
pub struct Range {
    /// The index of the first leaf.
    pub start: u64,
    /// The index after the last leaf.
    pub end: u64,
}

/// Checks a range: it is `Ok` exactly if the range is a subtree.
///
/// # Errors
///
/// [`Error::NotASubtree`].
pub fn check(range: Range) -> Result<(), Error> {
    // SAFETY: the call takes only numbers.
    result(unsafe { sys::wagtenib_check_subtree(range.start, range.end) })
}

/// Checks the consistency proof of a subtree.
///
/// It is `Ok` exactly if the proof leads from the hash of the subtree to the root of a tree of `tree_size` leaves. The first hash of the proof is nearest the leaves. If
/// the subtree is the whole tree, the proof has no hashes.
///
/// # Errors
///
/// The first fault of [`Error::NotASubtree`], [`Error::BeyondTree`], [`Error::PathTooLong`], [`Error::PathTooShort`], [`Error::FirstMismatch`] (the proof leads to
/// another hash of the subtree) and [`Error::RootMismatch`].
pub fn verify(range: Range, tree_size: u64, subtree_hash: &Hash, root: &Hash, proof: &[Hash]) -> Result<(), Error> {
    // SAFETY: the pointers are those of references that live through the call, and a hash has 32 bytes.
    result(unsafe {
        sys::wagtenib_verify_subtree(range.start, range.end, tree_size, subtree_hash.as_ptr(), root.as_ptr(), first_of(proof), proof.len())
    })
}

/// Returns the hash of the subtree to which the path of the leaf at `leaf_index` leads: the audit path of `leaf_index - start` in the tree of the subtree's leaves (RFC
/// 9162, section 2.1.3.2).
///
/// The caller must compare the hash with one that it trusts for the same range, because the path does not show to which subtree it belongs.
///
/// # Errors
///
/// The first fault of [`Error::NotASubtree`], [`Error::IndexOutOfRange`] (the leaf is not in the subtree), [`Error::PathTooLong`] and [`Error::PathTooShort`].
pub fn evaluate_path(leaf_hash: &Hash, leaf_index: u64, range: Range, path: &[Hash]) -> Result<Hash, Error> {
    let mut hash = Hash::default();
    // SAFETY: as in verify.
    result(unsafe {
        sys::wagtenib_evaluate_subtree_path(leaf_hash.as_ptr(), leaf_index, range.start, range.end, first_of(path), path.len(), hash.as_mut_ptr())
    })?;
    Ok(hash)
}

/// Returns the subtrees that cover the leaves of a range: one if it is one leaf, and otherwise two, side by side.
///
/// The first one has a power of two of leaves, and may begin before the range. The second one ends with the range. Together they have fewer than twice as many leaves as
/// the range.
///
/// # Errors
///
/// [`Error::EmptyRange`].
pub fn cover(range: Range) -> Result<Vec<Range>, Error> {
    let (mut first, mut middle) = (0, 0);
    // SAFETY: the pointers are those of variables that live through the call.
    result(unsafe { sys::wagtenib_cover_range(range.start, range.end, &mut first, &mut middle) })?;
    let right = Range { start: middle, end: range.end };
    Ok(if first == middle { vec![right] } else { vec![Range { start: first, end: middle }, right] })
}
