//! Hashes of leaves, roots, audit paths and consistency proofs.

use crate::error::result;
use crate::{Error, Hash};
use wagtenib_sys as sys;

/// Returns the first byte of hashes that follow each other.
pub(crate) fn first_of(hashes: &[Hash]) -> *const u8 {
    hashes.as_ptr().cast()
}

/// Returns the hash of a leaf, SHA-256(00 || leaf) (RFC 6962, section 2.1).
#[must_use]
pub fn leaf_hash(leaf: &[u8]) -> Hash {
    let mut hash = Hash::default();
    // SAFETY: the pointers are those of slices that live through the call, and `hash` has 32 bytes.
    unsafe { sys::wagtenib_leaf_hash(leaf.as_ptr(), leaf.len(), hash.as_mut_ptr()) };
    hash
}

/// Checks an audit path (RFC 9162, section 2.1.3.2).
///
/// It is `Ok` exactly if the path leads from `leaf_hash` at `leaf_index`, counted from 0, to the root of a tree of `tree_size` leaves.
///
/// # Errors
///
/// The first fault of [`Error::IndexOutOfRange`], [`Error::PathTooLong`], [`Error::PathTooShort`] and [`Error::RootMismatch`].
pub fn verify_inclusion(leaf_hash: &Hash, leaf_index: u64, tree_size: u64, path: &[Hash], root: &Hash) -> Result<(), Error> {
    // SAFETY: the pointers are those of references that live through the call, and a hash has 32 bytes.
    result(unsafe { sys::wagtenib_verify_inclusion(leaf_hash.as_ptr(), leaf_index, tree_size, first_of(path), path.len(), root.as_ptr()) })
}

/// Checks a consistency proof (RFC 9162, section 2.1.4.2).
///
/// It is `Ok` exactly if the path leads to the root of the first `first` leaves and to that of all `second` leaves.
///
/// # Errors
///
/// The first fault of [`Error::SizesOutOfRange`], [`Error::EmptyPath`], [`Error::PathTooLong`], [`Error::PathTooShort`], [`Error::FirstMismatch`] and
/// [`Error::RootMismatch`].
pub fn verify_consistency(first: u64, second: u64, first_root: &Hash, second_root: &Hash, path: &[Hash]) -> Result<(), Error> {
    // SAFETY: as in verify_inclusion.
    result(unsafe { sys::wagtenib_verify_consistency(first, second, first_root.as_ptr(), second_root.as_ptr(), first_of(path), path.len()) })
}

/// Returns the Merkle Tree Hash of leaves with these leaf hashes, in their order (RFC 6962, section 2.1).
///
/// # Errors
///
/// [`Error::OutOfMemory`] if malloc refuses 4 KB.
pub fn root(leaf_hashes: &[Hash]) -> Result<Hash, Error> {
    let mut hash = Hash::default();
    // SAFETY: as in leaf_hash.
    result(unsafe { sys::wagtenib_root(first_of(leaf_hashes), leaf_hashes.len(), hash.as_mut_ptr()) })?;
    Ok(hash)
}

/// The maximum number of perfect subtrees of a tree.
const MAX_SUBTREES: usize = 64;

/// The roots of a tree's perfect subtrees: all that is needed of a tree to append leaves and to know its root. It has 2 KB.
#[derive(Clone, Debug)]
pub struct Subtrees {
    size: u64,
    count: usize,
    roots: [Hash; MAX_SUBTREES],
}

impl Default for Subtrees {
    /// Returns the tree of no leaves.
    fn default() -> Self {
        Subtrees { size: 0, count: 0, roots: [Hash::default(); MAX_SUBTREES] }
    }
}

impl Subtrees {
    /// Appends a leaf.
    ///
    /// # Panics
    ///
    /// If the tree has 2^64 - 1 leaves.
    pub fn push(&mut self, leaf_hash: &Hash) {
        let size = self.size.checked_add(1).expect("a tree has at most 2^64 - 1 leaves");
        let mut count = self.count;
        // SAFETY: the pointers are those of fields and references that live through the call, and `roots` has room for 64 hashes.
        let answer = unsafe { sys::wagtenib_push(self.size, self.count, self.roots.as_mut_ptr().cast(), MAX_SUBTREES, leaf_hash.as_ptr(), &mut count) };
        result(answer).expect("64 subtrees are enough for every size");
        (self.size, self.count) = (size, count);
    }

    /// Returns the number of leaves.
    #[must_use]
    pub fn size(&self) -> u64 {
        self.size
    }

    /// Returns the Merkle Tree Hash of all leaves (RFC 6962, section 2.1).
    #[must_use]
    pub fn root(&self) -> Hash {
        let mut hash = Hash::default();
        // SAFETY: as in push; the first `count` of the hashes are read.
        unsafe { sys::wagtenib_subtrees_root(first_of(&self.roots), self.count, hash.as_mut_ptr()) };
        hash
    }
}
