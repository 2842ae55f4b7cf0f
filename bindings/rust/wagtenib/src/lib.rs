//! Proved functions for Certificate Transparency logs (RFC 6962, RFC 9162), in safe Rust.
//!
//! - [`tree`]: hashes of leaves, roots, audit paths and consistency proofs.
//! - [`subtrees`]: proofs of subtrees, as Merkle Tree Certificates use them.
//! - [`leaf`]: the fields of a leaf.
//! - [`tiles`]: roots and proofs out of the tiles of a log.
//! - [`data_tiles`]: the entries of a data tile.
//! - [`certificates`]: entries of precertificates, and the leaves that timestamps in certificates promise.
//! - [`names`]: the names of certificates, and which watched names are found in them.
//! - [`monitor`]: a monitor's verdicts on what a log hands out.
//! - [`texts`]: texts and bytes that are signed, and the numbers by which keys are named.
//! - [`guard`]: what a log's key may sign.
//! - [`witness`]: which checkpoints a witness cosigns.
//! - [`step`]: the step of a tiled log.
//! - [`node`] and [`lock`]: what a node of a log does next, and the text of the log's lock.
//!
//! The functions call libwagtenib. Its code is compiled from proved sources, and the crate `wagtenib-sys` links it. A call keeps no state, does no input or output,
//! and returns for every input, by proof. It can be made from any number of threads at once.
#![deny(missing_docs)]

pub mod certificates;
pub mod data_tiles;
mod error;
pub mod guard;
pub mod leaf;
pub mod lock;
mod memory;
pub mod monitor;
pub mod names;
pub mod node;
pub mod step;
pub mod subtrees;
pub mod texts;
pub mod tiles;
pub mod tree;
pub mod witness;

pub use error::Error;

/// A SHA-256 hash of a leaf or of a tree (RFC 6962, section 2.1).
pub type Hash = [u8; 32];
