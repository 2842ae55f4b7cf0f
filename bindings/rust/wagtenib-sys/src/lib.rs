//! The functions of libwagtenib as C declares them. `include/wagtenib.h` in the repository says what each one takes, returns and requires.
//! `tests/library/rust.py --write` makes this file from it.
//!
//! The crate `wagtenib` has the same functions in safe Rust.
#![no_std]
#![allow(non_camel_case_types)]

/// The answers. 0 is success, and nothing is written at any other number unless the header says so.
pub mod code {
    pub const OK: u32 = 0;
    pub const INDEX_OUT_OF_RANGE: u32 = 1;
    pub const PATH_TOO_LONG: u32 = 2;
    pub const PATH_TOO_SHORT: u32 = 3;
    pub const ROOT_MISMATCH: u32 = 4;
    pub const EMPTY_PATH: u32 = 5;
    pub const FIRST_MISMATCH: u32 = 6;
    pub const SIZES_OUT_OF_RANGE: u32 = 7;
    pub const OUT_OF_MEMORY: u32 = 8;
    pub const NO_ROOM: u32 = 9;
    pub const BAD_ORIGIN: u32 = 10;
    pub const TRUNCATED: u32 = 17;
    pub const BAD_VERSION: u32 = 18;
    pub const BAD_LEAF_TYPE: u32 = 19;
    pub const BAD_ENTRY_TYPE: u32 = 20;
    pub const EMPTY_VECTOR: u32 = 21;
    pub const TRAILING: u32 = 22;
    pub const SIZE_FALLS: u32 = 32;
    pub const TIMESTAMP_NOT_LATER: u32 = 33;
    pub const FORK: u32 = 34;
    pub const TIMESTAMP_TOO_FAR: u32 = 35;
    pub const BAD_STATE: u32 = 36;
    pub const STATE_ROLLED_BACK: u32 = 37;
    pub const LATER_LEAF: u32 = 38;
    pub const OTHER_INDEX: u32 = 39;
    pub const NOT_FIRST: u32 = 40;
    pub const EDGE: u32 = 48;
    pub const ENTRIES: u32 = 49;
    pub const CLOCK_BACK: u32 = 50;
    pub const LOG_FULL: u32 = 51;
    pub const DATA_TILE_TOO_LONG: u32 = 52;
    pub const BUNDLE: u32 = 53;
    pub const CLAIM: u32 = 54;
    pub const BAD_BATCH: u32 = 55;
    pub const TOO_MANY: u32 = 56;
    pub const EMPTY_TREE: u32 = 64;
    pub const TOO_MANY_TILES: u32 = 65;
    pub const MISSING_TILE: u32 = 66;
    pub const BAD_TILE: u32 = 67;
    pub const DER_TRUNCATED: u32 = 80;
    pub const DER_LONG_TAG: u32 = 81;
    pub const DER_INDEFINITE_LENGTH: u32 = 82;
    pub const DER_LONG_LENGTH: u32 = 83;
    pub const DER_PADDED_LENGTH: u32 = 84;
    pub const DER_OTHER_TAG: u32 = 85;
    pub const DER_TRAILING: u32 = 86;
    pub const NO_EXTENSION: u32 = 87;
    pub const SECOND_EXTENSION: u32 = 88;
    pub const BAD_POISON: u32 = 89;
    pub const TBS_TOO_LONG: u32 = 90;
    pub const EXTENSIONS_TOO_LONG: u32 = 91;
    pub const NO_CHECKPOINT: u32 = 96;
    pub const OTHER_ORIGIN: u32 = 97;
    pub const OLD_ABOVE: u32 = 98;
    pub const NOT_LAST: u32 = 99;
    pub const PROOF_NOT_EMPTY: u32 = 100;
    pub const TIME_FALLS: u32 = 101;
    pub const BAD_COMMAND: u32 = 112;
    pub const BAD_OUTCOME: u32 = 113;
    pub const BAD_LOCK_TEXT: u32 = 114;
    pub const BAD_BATCH_NAME: u32 = 115;
    pub const CREATES_LOCK: u32 = 116;
    pub const LOCK_GONE: u32 = 117;
    pub const BEHIND_SEEN: u32 = 118;
    pub const BEHIND_SIGNED: u32 = 119;
    pub const TWO_ROOTS: u32 = 120;
    pub const SIGNED_BEHIND_LISTED: u32 = 121;
    pub const BEHIND_LISTED: u32 = 122;
    pub const BEHIND_PUBLISHED: u32 = 123;
    pub const PARTIAL_FINGERPRINT: u32 = 139;
    pub const OTHER_COUNT: u32 = 140;
    pub const OTHER_LENGTHS: u32 = 141;
    pub const LATER_ENTRY: u32 = 142;
    pub const BAD_WATCHED: u32 = 144;
    pub const NOT_UTF8: u32 = 145;
    pub const NO_DATA_TILE: u32 = 146;
    pub const TILE_AFTER: u32 = 147;
    pub const TILE_BEFORE: u32 = 148;
    pub const OTHER_ENTRIES: u32 = 149;
    pub const WRONG_INDEX: u32 = 150;
    pub const NOT_A_SUBTREE: u32 = 160;
    pub const BEYOND_TREE: u32 = 161;
    pub const EMPTY_RANGE: u32 = 162;
    pub const ACCEPTED: u32 = 128;
    pub const PENDING: u32 = 129;
    pub const AGAIN: u32 = 130;
    pub const OLDER: u32 = 131;
    pub const SHRUNK: u32 = 132;
    pub const FORKED: u32 = 133;
    pub const HEAD_NOT_LATER: u32 = 134;
    pub const OTHER_ROOT: u32 = 135;
    pub const GAP: u32 = 136;
    pub const CONSISTENT: u32 = 137;
    pub const INCONSISTENT: u32 = 138;
}

#[repr(C)]
#[derive(Clone, Copy, Debug, Default)]
pub struct wagtenib_leaf_info {
    pub timestamp: u64,
    pub certificate_length: u64,
    pub extensions_length: u64,
    pub entry_type: u32,
}

#[repr(C)]
#[derive(Clone, Copy, Debug, Default)]
pub struct wagtenib_head {
    pub tree_size: u64,
    pub timestamp: u64,
    pub root: [u8; 32],
}

#[repr(C)]
#[derive(Clone, Copy, Debug, Default)]
pub struct wagtenib_node_state {
    pub timestamp: u64,
    pub previous_timestamp: u64,
    pub salt: u64,
}

#[repr(C)]
#[derive(Clone, Copy, Debug, Default)]
pub struct wagtenib_node_command {
    pub seen: wagtenib_node_state,
    pub next: wagtenib_node_state,
    pub objects: u64,
    pub command: u32,
}

#[repr(C)]
#[derive(Clone, Copy, Debug, Default)]
pub struct wagtenib_node_outcome {
    pub state: wagtenib_node_state,
    pub objects: u64,
    pub outcome: u32,
}

#[repr(C)]
#[derive(Clone, Copy, Debug, Default)]
pub struct wagtenib_node_found {
    pub seen: wagtenib_head,
    pub signed_head: wagtenib_head,
    pub published: wagtenib_head,
    pub listed: wagtenib_head,
    pub flags: u32,
}

#[repr(C)]
#[derive(Clone, Copy, Debug, Default)]
pub struct wagtenib_checkpoint {
    pub tree_size: u64,
    pub origin_length: u64,
    pub root: [u8; 32],
}

#[repr(C)]
#[derive(Clone, Copy, Debug, Default)]
pub struct wagtenib_witnessed_tree {
    pub tree_size: u64,
    pub time: u64,
    pub root: [u8; 32],
}

#[repr(C)]
#[derive(Clone, Copy, Debug, Default)]
pub struct wagtenib_monitor_verdict {
    pub leaves_accepted: u64,
    pub leaves_read: u64,
    pub leaves_wanted: u64,
    pub known: wagtenib_head,
    pub root: [u8; 32],
    pub verdict: u32,
    pub fault: u32,
}

#[repr(C)]
#[derive(Clone, Copy, Debug, Default)]
pub struct wagtenib_entry_report {
    pub head_timestamp: u64,
    pub later_index: u64,
    pub later_timestamp: u64,
    pub faulty_index: u64,
    pub fault: u32,
}

extern "C" {
    pub fn wagtenib_version() -> u32;
    pub fn wagtenib_leaf_hash(leaf: *const u8, leaf_length: usize, out: *mut u8);
    pub fn wagtenib_verify_inclusion(leaf_hash: *const u8, leaf_index: u64, tree_size: u64, path: *const u8, path_length: usize, root: *const u8) -> u32;
    pub fn wagtenib_verify_consistency(first: u64, second: u64, first_root: *const u8, second_root: *const u8, path: *const u8, path_length: usize) -> u32;
    pub fn wagtenib_check_subtree(start: u64, end: u64) -> u32;
    pub fn wagtenib_verify_subtree(start: u64, end: u64, tree_size: u64, subtree_hash: *const u8, root: *const u8, proof: *const u8, proof_length: usize) -> u32;
    pub fn wagtenib_evaluate_subtree_path(leaf_hash: *const u8, leaf_index: u64, start: u64, end: u64, path: *const u8, path_length: usize, hash: *mut u8) -> u32;
    pub fn wagtenib_cover_range(start: u64, end: u64, first: *mut u64, middle: *mut u64) -> u32;
    pub fn wagtenib_root(leaf_hashes: *const u8, count: usize, out: *mut u8) -> u32;
    pub fn wagtenib_decode_leaf(leaf: *const u8, leaf_length: usize, out: *mut wagtenib_leaf_info) -> u32;
    pub fn wagtenib_push(size: u64, count: usize, subtrees: *mut u8, places: usize, leaf_hash: *const u8, new_count: *mut usize) -> u32;
    pub fn wagtenib_subtrees_root(subtrees: *const u8, count: usize, out: *mut u8);
    pub fn wagtenib_guard_first_head(head: *const wagtenib_head, named: *const wagtenib_head, signed_bytes: *mut u8) -> u32;
    pub fn wagtenib_guard_head(last: *const u8, last_length: usize, head: *const wagtenib_head, proof: *const u8, proof_length: usize, max_ahead: u64, signed_bytes: *mut u8) -> u32;
    pub fn wagtenib_guard_receipt(last: *const u8, last_length: usize, leaf: *const u8, leaf_length: usize, leaf_index: u64, path: *const u8, path_length: usize) -> u32;
    pub fn wagtenib_guard_receipts(last: *const u8, last_length: usize, first_index: u64, subtrees: *const u8, subtree_count: usize, leaves: *const u8, leaves_length: usize, lengths: *const u64, leaf_count: usize) -> u32;
    pub fn wagtenib_guard_state(seen: *const u8, seen_length: usize, state: *const u8, state_length: usize, head: *mut wagtenib_head) -> u32;
    pub fn wagtenib_step_begin(timestamp: u64, out: *mut u8, room: usize, length: *mut u64) -> u32;
    pub fn wagtenib_step_needs(state: *const u8, state_length: usize, out: *mut u8, room: usize, length: *mut u64) -> u32;
    pub fn wagtenib_step(origin: *const u8, origin_length: usize, state: *const u8, state_length: usize, edge: *const u8, edge_length: usize, batch: *const u8, batch_length: usize, now: u64, max_ahead: u64, out: *mut u8, room: usize, length: *mut u64) -> u32;
    pub fn wagtenib_step_claim(state: *const u8, state_length: usize, leaf_index: u64, timestamp: u64, path: *const u8, path_length: usize, submission: *const u8, submission_length: usize, out: *mut u8, room: usize, length: *mut u64) -> u32;
    pub fn wagtenib_step_resume(origin: *const u8, origin_length: usize, state: *const u8, state_length: usize, bundle: *const u8, bundle_length: usize, out: *mut u8, room: usize, length: *mut u64) -> u32;
    pub fn wagtenib_node_next(command: *const wagtenib_node_command, outcome: *const wagtenib_node_outcome, next: *mut wagtenib_node_command) -> u32;
    pub fn wagtenib_node_start(lock: *const u8, lock_length: usize, found: *const wagtenib_node_found) -> u32;
    pub fn wagtenib_node_accept(accepted: *const wagtenib_head, head: *const wagtenib_head, proof: *const u8, proof_length: usize) -> u32;
    pub fn wagtenib_lock_text(line: *const u8, line_length: usize, node: *const u8, node_length: usize, previous_timestamp: u64, salt: u64, text: *mut u8, room: usize, length: *mut u64) -> u32;
    pub fn wagtenib_lock_state(text: *const u8, text_length: usize, state: *mut wagtenib_node_state, tree_size: *mut u64) -> u32;
    pub fn wagtenib_batch_name(state: *const wagtenib_node_state, name: *mut u8);
    pub fn wagtenib_batch_state(name: *const u8, name_length: usize, state: *mut wagtenib_node_state) -> u32;
    pub fn wagtenib_root_tiles(tree_size: u64, names: *mut u8, room: usize, length: *mut u64) -> u32;
    pub fn wagtenib_path_tiles(leaf_index: u64, tree_size: u64, names: *mut u8, room: usize, length: *mut u64) -> u32;
    pub fn wagtenib_proof_tiles(first: u64, second: u64, names: *mut u8, room: usize, length: *mut u64) -> u32;
    pub fn wagtenib_root_of_tiles(tree_size: u64, contents: *const u8, contents_length: usize, lengths: *const u64, tiles: usize, root: *mut u8) -> u32;
    pub fn wagtenib_path_of_tiles(leaf_index: u64, tree_size: u64, contents: *const u8, contents_length: usize, lengths: *const u64, tiles: usize, path: *mut u8, room: usize, count: *mut u64) -> u32;
    pub fn wagtenib_proof_of_tiles(first: u64, second: u64, contents: *const u8, contents_length: usize, lengths: *const u64, tiles: usize, proof: *mut u8, room: usize, count: *mut u64) -> u32;
    pub fn wagtenib_data_tile_leaves(tile: *const u8, tile_length: usize, entries: *mut u8, room: usize, length: *mut u64, faulty_index: *mut u64) -> u32;
    pub fn wagtenib_compare_data_tile(name: *const u8, name_length: usize, next: u64, tile: *const u8, tile_length: usize, index: *mut u64) -> u32;
    pub fn wagtenib_precertificate_entry(tbs: *const u8, tbs_length: usize, entry: *mut u8, room: usize, length: *mut u64, field: *mut u32) -> u32;
    pub fn wagtenib_promised_leaf(certificate: *const u8, certificate_length: usize, issuer: *const u8, issuer_length: usize, timestamp: u64, extensions: *const u8, extensions_length: usize, leaf: *mut u8, room: usize, length: *mut u64, field: *mut u32) -> u32;
    pub fn wagtenib_check_promise(certificate: *const u8, certificate_length: usize, issuer: *const u8, issuer_length: usize, timestamp: u64, extensions: *const u8, extensions_length: usize, leaf_index: u64, tree_size: u64, path: *const u8, path_length: usize, root: *const u8, field: *mut u32) -> u32;
    pub fn wagtenib_certificate_names(entry_type: u32, certificate: *const u8, certificate_length: usize, names: *mut u8, room: usize, length: *mut u64, field: *mut u32) -> u32;
    pub fn wagtenib_watched_names(entry_type: u32, certificate: *const u8, certificate_length: usize, watched: *const u8, watched_length: usize, found: *mut u8, room: usize, length: *mut u64, field: *mut u32) -> u32;
    pub fn wagtenib_names_in_bytes(bytes: *const u8, bytes_length: usize, watched: *const u8, watched_length: usize, found: *mut u8, room: usize, length: *mut u64) -> u32;
    pub fn wagtenib_checkpoint_text(origin: *const u8, origin_length: usize, tree_size: u64, root: *const u8, text: *mut u8, room: usize, length: *mut u64) -> u32;
    pub fn wagtenib_read_checkpoint(text: *const u8, text_length: usize, checkpoint: *mut wagtenib_checkpoint) -> u32;
    pub fn wagtenib_tree_head_signature(head: *const wagtenib_head, signed_bytes: *mut u8);
    pub fn wagtenib_cosignature_message(time: u64, text: *const u8, text_length: usize, message: *mut u8, room: usize, length: *mut u64) -> u32;
    pub fn wagtenib_note_key_id(name: *const u8, name_length: usize, algorithm: u8, public_key: *const u8, public_key_length: usize, key_id: *mut u8);
    pub fn wagtenib_log_id(public_key: *const u8, public_key_length: usize, log_id: *mut u8);
    pub fn wagtenib_witness_first(origin: *const u8, origin_length: usize, checkpoint: *const u8, checkpoint_length: usize, old: u64, proof: *const u8, proof_length: usize, time: u64, out: *mut u8, room: usize, length: *mut u64) -> u32;
    pub fn wagtenib_witness_cosign(state: *const u8, state_length: usize, checkpoint: *const u8, checkpoint_length: usize, old: u64, proof: *const u8, proof_length: usize, time: u64, out: *mut u8, room: usize, length: *mut u64) -> u32;
    pub fn wagtenib_witness_state(seen: *const u8, seen_length: usize, state: *const u8, state_length: usize, last: *mut wagtenib_witnessed_tree) -> u32;
    pub fn wagtenib_monitor_begin(out: *mut u8, room: usize, length: *mut u64) -> u32;
    pub fn wagtenib_monitor_start(head: *const wagtenib_head, subtrees: *const u8, count: usize, out: *mut u8, room: usize, length: *mut u64) -> u32;
    pub fn wagtenib_monitor_head(state: *const u8, state_length: usize, head: *const wagtenib_head, verdict: *mut wagtenib_monitor_verdict, out: *mut u8, room: usize, length: *mut u64) -> u32;
    pub fn wagtenib_monitor_entries(state: *const u8, state_length: usize, start: u64, leaves: *const u8, leaves_length: usize, lengths: *const u64, count: usize, verdict: *mut wagtenib_monitor_verdict, report: *mut wagtenib_entry_report, out: *mut u8, room: usize, length: *mut u64) -> u32;
    pub fn wagtenib_monitor_proof(state: *const u8, state_length: usize, path: *const u8, path_length: usize, verdict: *mut wagtenib_monitor_verdict, out: *mut u8, room: usize, length: *mut u64) -> u32;
    pub fn wagtenib_monitor_older(state: *const u8, state_length: usize, head: *const wagtenib_head, path: *const u8, path_length: usize, verdict: *mut wagtenib_monitor_verdict, out: *mut u8, room: usize, length: *mut u64) -> u32;
    pub fn wagtenib_compare_heads(known: *const wagtenib_head, head: *const wagtenib_head) -> u32;
    pub fn wagtenib_monitor_entry(head_timestamp: u64, leaf: *const u8, leaf_length: usize, timestamp: *mut u64) -> u32;
    /// It exists only with the feature, and returns whether the processor's SHA instructions are used in place of the proved code.
    #[cfg(feature = "sha-instructions")]
    pub fn wagtenib_has_sha_instructions() -> bool;
}
