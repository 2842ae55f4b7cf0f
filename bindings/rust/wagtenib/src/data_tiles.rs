//! The entries of data tiles (C2SP static-ct-api, "Log Entries").

use std::fmt;

use crate::error::result;
use crate::memory::output;
use crate::{Error, Hash};
use wagtenib_sys as sys;

/// The entries of a full data tile, and the numbers that the library writes of an entry beside its leaf, in bytes.
const ENTRIES: usize = 256;
const NUMBERS: usize = 40;

/// An entry of a data tile.
#[derive(Clone, Debug, PartialEq, Eq)]
pub struct TileEntry<'a> {
    /// The MerkleTreeLeaf (RFC 6962, section 3.4): the bytes that are hashed. [`decode`](crate::leaf::decode) reads it.
    pub leaf: Vec<u8>,
    /// What was submitted: the certificate, or the precertificate.
    pub submitted: &'a [u8],
    /// The SHA-256 fingerprints of the issuers, in the order of the chain.
    pub issuers: Vec<Hash>,
}

/// Why bytes are no data tile: the first fault, and the index in the tile of the entry that has it.
#[derive(Clone, Copy, Debug, PartialEq, Eq)]
pub struct TileError {
    /// The fault.
    pub error: Error,
    /// The index of the entry, counted from 0. `None` if the fault is that of no entry.
    pub entry: Option<u64>,
}

impl fmt::Display for TileError {
    fn fmt(&self, f: &mut fmt::Formatter<'_>) -> fmt::Result {
        write!(f, "{}", self.error)?;
        match self.entry {
            Some(entry) => write!(f, " (entry {entry} of the data tile, counted from 0)"),
            None => Ok(()),
        }
    }
}

impl std::error::Error for TileError {
    fn source(&self) -> Option<&(dyn std::error::Error + 'static)> {
        Some(&self.error)
    }
}

/// Returns the number that the bytes begin with.
fn number(bytes: &[u8]) -> usize {
    let (number, _) = bytes.split_at(8);
    // The numbers are places in memory, or lengths of it.
    u64::from_be_bytes(number.try_into().expect("8 bytes were split off")) as usize
}

/// Returns the entries of a data tile, in order.
///
/// It reads any number of entries, also none, and does not look at the extensions of an entry. [`compare`] compares the entries with the tile's name.
///
/// # Errors
///
/// [`Error::Truncated`], [`Error::BadEntryType`], [`Error::EmptyVector`] or [`Error::PartialFingerprint`], with the index of the entry; or [`Error::OutOfMemory`].
pub fn leaves(tile: &[u8]) -> Result<Vec<TileEntry<'_>>, TileError> {
    let mut faulty = 0;
    let (answer, text) = output(tile.len() + ENTRIES * NUMBERS, |out, room, length| {
        // SAFETY: the pointers are those of slices and variables that live through the call.
        unsafe { sys::wagtenib_data_tile_leaves(tile.as_ptr(), tile.len(), out, room, length, &mut faulty) }
    });
    result(answer).map_err(|error| TileError { error, entry: (error != Error::OutOfMemory).then_some(faulty) })?;
    let (mut rest, mut entries) = (text.as_slice(), Vec::new());
    while !rest.is_empty() {
        let (leaf, after) = rest[8..].split_at(number(rest));
        let (submitted, issuers) = (number(after), number(&after[16..]));
        entries.push(TileEntry {
            leaf: leaf.to_vec(),
            submitted: &tile[submitted..submitted + number(&after[8..])],
            issuers: tile[issuers..issuers + number(&after[24..])].chunks_exact(32).map(|hash| hash.try_into().expect("a chunk has 32 bytes")).collect(),
        });
        rest = &after[32..];
    }
    Ok(entries)
}

/// Compares a data tile with its name ("tile/data/.."), for a reader that has the entries of the log before the index `next`. It is `Ok` if it is the data tile of this
/// name, has as many entries as the name says and the entry at `next`, and if each entry from that one on names exactly its own index in its extensions (leaf_index,
/// C2SP static-ct-api).
///
/// # Errors
///
/// The first of [`Error::NoDataTile`], [`Error::TileAfter`] and [`Error::TileBefore`]; a fault of [`leaves`] with the index in the tile of the entry;
/// [`Error::OtherEntries`], and `entry` is the number of entries; [`Error::WrongIndex`], and `entry` is the first wrong index in the log; or [`Error::OutOfMemory`].
pub fn compare(name: &str, next: u64, tile: &[u8]) -> Result<(), TileError> {
    let mut index = 0;
    // SAFETY: the pointers are those of slices and variables that live through the call.
    let answer = unsafe { sys::wagtenib_compare_data_tile(name.as_ptr(), name.len(), next, tile.as_ptr(), tile.len(), &mut index) };
    let has_none = |error| matches!(error, Error::NoDataTile | Error::TileAfter | Error::TileBefore | Error::OutOfMemory);
    result(answer).map_err(|error| TileError { error, entry: (!has_none(error)).then_some(index) })
}
