//! Roots, audit paths and consistency proofs out of tiles (C2SP tlog-tiles).
//!
//! A reader asks for the names of the tiles that a result is made of, fetches these tiles, and hands them in, in the order of the names. If the tiles are those of a
//! list of leaves, the result is the list's. Whatever they are, [`verify_inclusion`](crate::tree::verify_inclusion) and
//! [`verify_consistency`](crate::tree::verify_consistency) check it.

use crate::error::result;
use crate::memory::{joined, text, written};
use crate::{Error, Hash};
use wagtenib_sys as sys;

// All names have room in so many bytes, and all proofs in so many hashes.
const NAMES: usize = 16 * 48;
const HASHES: usize = 65;

/// Returns the names that a call writes, each ended by a line feed.
fn names(call: impl FnMut(*mut u8, usize, *mut u64) -> u32) -> Result<Vec<String>, Error> {
    Ok(text(written(NAMES, call)?).lines().map(String::from).collect())
}

/// Returns the names of the tiles that the root of the first `tree_size` leaves is made of, the lowest level first.
///
/// # Errors
///
/// [`Error::EmptyTree`], or [`Error::OutOfMemory`].
pub fn root_tiles(tree_size: u64) -> Result<Vec<String>, Error> {
    // SAFETY: the pointers are those of memory that lives through the call.
    names(|out, room, length| unsafe { sys::wagtenib_root_tiles(tree_size, out, room, length) })
}

/// Returns the names of the tiles that the audit path of the leaf at `leaf_index` is made of.
///
/// # Errors
///
/// [`Error::IndexOutOfRange`], or [`Error::OutOfMemory`].
pub fn path_tiles(leaf_index: u64, tree_size: u64) -> Result<Vec<String>, Error> {
    // SAFETY: as in root_tiles.
    names(|out, room, length| unsafe { sys::wagtenib_path_tiles(leaf_index, tree_size, out, room, length) })
}

/// Returns the names of the tiles that the consistency proof from the first leaves to `second` is made of.
///
/// # Errors
///
/// [`Error::SizesOutOfRange`], or [`Error::OutOfMemory`].
pub fn proof_tiles(first: u64, second: u64) -> Result<Vec<String>, Error> {
    // SAFETY: as in root_tiles.
    names(|out, room, length| unsafe { sys::wagtenib_proof_tiles(first, second, out, room, length) })
}

/// Returns the Merkle Tree Hash of the first `tree_size` leaves (RFC 6962, section 2.1), from the tiles that [`root_tiles`] names, in this order.
///
/// # Errors
///
/// The first reason of [`Error::EmptyTree`], [`Error::TooManyTiles`], [`Error::MissingTile`] and [`Error::BadTile`]; or [`Error::OutOfMemory`].
pub fn root_of_tiles<T: AsRef<[u8]>>(tree_size: u64, tiles: &[T]) -> Result<Hash, Error> {
    let (contents, lengths) = joined(tiles);
    let mut root = Hash::default();
    // SAFETY: the pointers are those of memory that lives through the call, and `root` has 32 bytes.
    result(unsafe { sys::wagtenib_root_of_tiles(tree_size, contents.as_ptr(), contents.len(), lengths.as_ptr(), lengths.len(), root.as_mut_ptr()) })?;
    Ok(root)
}

/// Returns the audit path of the leaf at `leaf_index` (section 2.1.1), from the tiles that [`path_tiles`] names, in this order.
///
/// # Errors
///
/// Those of [`root_of_tiles`], with [`Error::IndexOutOfRange`] in place of [`Error::EmptyTree`].
pub fn path_of_tiles<T: AsRef<[u8]>>(leaf_index: u64, tree_size: u64, tiles: &[T]) -> Result<Vec<Hash>, Error> {
    let (contents, lengths) = joined(tiles);
    written(HASHES, |out: *mut Hash, room, count| {
        // SAFETY: as in root_of_tiles; `out` has room for so many hashes.
        unsafe { sys::wagtenib_path_of_tiles(leaf_index, tree_size, contents.as_ptr(), contents.len(), lengths.as_ptr(), lengths.len(), out.cast(), room, count) }
    })
}

/// Returns the consistency proof from the first leaves to `second` (section 2.1.2), from the tiles that [`proof_tiles`] names, in this order.
///
/// # Errors
///
/// Those of [`root_of_tiles`], with [`Error::SizesOutOfRange`] in place of [`Error::EmptyTree`].
pub fn proof_of_tiles<T: AsRef<[u8]>>(first: u64, second: u64, tiles: &[T]) -> Result<Vec<Hash>, Error> {
    let (contents, lengths) = joined(tiles);
    written(HASHES, |out: *mut Hash, room, count| {
        // SAFETY: as in path_of_tiles.
        unsafe { sys::wagtenib_proof_of_tiles(first, second, contents.as_ptr(), contents.len(), lengths.as_ptr(), lengths.len(), out.cast(), room, count) }
    })
}
