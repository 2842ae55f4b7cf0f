//! A monitor's verdicts on what a log hands out. Its state is bytes, which belong to the caller. To watch a log:
//!
//! 1. check the signature of a tree head, and hand the head to [`head`] with the state (that of [`begin`] or of [`start`] at first);
//! 2. if the verdict is [`Verdict::Older`], ask the log for a consistency proof to the head that it names, and hand it to [`older`];
//! 3. while the verdict is [`Verdict::Pending`], hand the entries from the index [`Judgement::read`] on to [`entries`];
//! 4. after each call, keep the state of the judgement, and only then act on the verdict.
//!
//! Each head with the verdict [`Verdict::Accepted`] is that of a beginning of one list of leaves. The library's header says more.

use crate::error::result;
use crate::guard::TreeHead;
use crate::memory::{joined, written};
use crate::tree::first_of;
use crate::{Error, Hash};
use wagtenib_sys as sys;

// Every state has room in so many bytes.
const ROOM: usize = 4275;

/// A verdict of a monitor.
#[derive(Clone, Copy, Debug, PartialEq, Eq)]
pub enum Verdict {
    /// The waiting head is that of all leaves that were read, and is accepted.
    Accepted,
    /// The waiting head has more leaves than were read.
    Pending,
    /// The size and the root of a known head again.
    Again,
    /// Fewer leaves than this known head has, and an earlier timestamp: a consistency proof decides ([`older`]).
    Older(TreeHead),
    /// Fewer leaves than this known head has, and not an earlier timestamp.
    Shrunk(TreeHead),
    /// The size of this known head, and another root.
    Forked(TreeHead),
    /// More leaves than this known head has, and not a later timestamp.
    NotLater(TreeHead),
    /// The waiting head has another root than the leaves that were read, which is this one. Both are let go.
    OtherRoot(Hash),
    /// The entries begin elsewhere, or no head waits, or there are no two heads for a proof.
    Gap,
    /// The proof leads from the accepted head to the waiting one, or from an older head to a known one.
    Consistent,
    /// The proof does not lead there, which accuses nobody: the log did not sign it.
    Inconsistent(Error),
}

impl Verdict {
    /// Returns whether the verdict speaks against the log.
    #[must_use]
    pub fn accuses(&self) -> bool {
        matches!(self, Verdict::Shrunk(_) | Verdict::Forked(_) | Verdict::NotLater(_) | Verdict::OtherRoot(_))
    }
}

/// A verdict, the numbers of the state after it, and that state.
#[derive(Clone, Debug, PartialEq, Eq)]
pub struct Judgement {
    /// The verdict.
    pub verdict: Verdict,
    /// The leaves of the accepted head.
    pub accepted: u64,
    /// The leaves that were read: the index of the next one that is wanted.
    pub read: u64,
    /// The leaves of the waiting head, or those that were read if no head waits.
    pub wanted: u64,
    /// The next state.
    pub state: Vec<u8>,
}

/// What is reported of the entries that were read, by their indexes in the log.
#[derive(Clone, Copy, Debug, Default, PartialEq, Eq)]
pub struct EntryReport {
    /// The timestamp of the head that waited for the entries, in milliseconds; 0 if none waited.
    pub head_timestamp: u64,
    /// The first entry that is later than that head, and its timestamp in milliseconds.
    pub later: Option<(u64, u64)>,
    /// The first entry that is no leaf, and its fault.
    pub faulty: Option<(u64, Error)>,
}

/// Returns the verdict with what it names.
fn verdict_of(reported: &sys::wagtenib_monitor_verdict) -> Verdict {
    let known = TreeHead { tree_size: reported.known.tree_size, timestamp: reported.known.timestamp, root: reported.known.root };
    match reported.verdict {
        sys::code::ACCEPTED => Verdict::Accepted,
        sys::code::PENDING => Verdict::Pending,
        sys::code::AGAIN => Verdict::Again,
        sys::code::OLDER => Verdict::Older(known),
        sys::code::SHRUNK => Verdict::Shrunk(known),
        sys::code::FORKED => Verdict::Forked(known),
        sys::code::HEAD_NOT_LATER => Verdict::NotLater(known),
        sys::code::OTHER_ROOT => Verdict::OtherRoot(reported.root),
        sys::code::GAP => Verdict::Gap,
        sys::code::CONSISTENT => Verdict::Consistent,
        sys::code::INCONSISTENT => Verdict::Inconsistent(result(reported.fault).expect_err("a proof that leads elsewhere has a fault")),
        other => panic!("libwagtenib gave the verdict {other}, which this version of the crate does not know"),
    }
}

/// Makes a call that writes a verdict and a state.
fn judged(mut call: impl FnMut(*mut sys::wagtenib_monitor_verdict, *mut u8, usize, *mut u64) -> u32) -> Result<Judgement, Error> {
    let mut reported = sys::wagtenib_monitor_verdict::default();
    let state = written(ROOM, |out, room, length| call(&mut reported, out, room, length))?;
    Ok(Judgement { verdict: verdict_of(&reported), accepted: reported.leaves_accepted, read: reported.leaves_read, wanted: reported.leaves_wanted, state })
}

/// Returns the state of a monitor that was handed nothing. Never call it because a state is missing.
///
/// # Errors
///
/// [`Error::OutOfMemory`].
pub fn begin() -> Result<Vec<u8>, Error> {
    // SAFETY: the pointers are those of memory that lives through the call.
    written(ROOM, |out, room, length| unsafe { sys::wagtenib_monitor_begin(out, room, length) })
}

/// Returns the state of a monitor that is to trust a head: it counts as accepted, and reading goes on from the leaf after its last one.
///
/// The caller must have checked the head's signature. `subtrees` are the roots of the perfect subtrees of the head's leaves, largest first, as
/// [`push`](crate::tree::push) keeps them. Nothing is said of these leaves, because no one read them.
///
/// # Errors
///
/// [`Error::OtherCount`] or [`Error::RootMismatch`] if the subtrees are not those of the head, or [`Error::OutOfMemory`].
pub fn start(head: &TreeHead, subtrees: &[Hash]) -> Result<Vec<u8>, Error> {
    let trusted = head.in_c();
    written(ROOM, |out, room, length| {
        // SAFETY: as in begin; `subtrees` has so many hashes.
        unsafe { sys::wagtenib_monitor_start(&trusted, first_of(subtrees), subtrees.len(), out, room, length) }
    })
}

/// Judges a tree head over a state.
///
/// # Errors
///
/// [`Error::BadState`], or [`Error::OutOfMemory`].
pub fn head(state: &[u8], head: &TreeHead) -> Result<Judgement, Error> {
    let head = head.in_c();
    // SAFETY: as in begin.
    judged(|verdict, out, room, length| unsafe { sys::wagtenib_monitor_head(state.as_ptr(), state.len(), &head, verdict, out, room, length) })
}

/// Judges leaves (MerkleTreeLeaf, RFC 6962, section 3.4) from the index `start` on. As many are read and reported on as the waiting head has.
///
/// # Errors
///
/// Those of [`head`].
pub fn entries<T: AsRef<[u8]>>(state: &[u8], start: u64, leaves: &[T]) -> Result<(Judgement, EntryReport), Error> {
    let (contents, lengths) = joined(leaves);
    let (of, mut reported) = ((contents.as_ptr(), contents.len(), lengths.as_ptr(), lengths.len()), sys::wagtenib_entry_report::default());
    let judgement = judged(|verdict, out, room, length| {
        // SAFETY: as in begin; `lengths` has so many numbers.
        unsafe { sys::wagtenib_monitor_entries(state.as_ptr(), state.len(), start, of.0, of.1, of.2, of.3, verdict, &mut reported, out, room, length) }
    })?;
    let later = (reported.later_timestamp > 0).then_some((reported.later_index, reported.later_timestamp));
    let faulty = result(reported.fault).err().map(|fault| (reported.faulty_index, fault));
    Ok((judgement, EntryReport { head_timestamp: reported.head_timestamp, later, faulty }))
}

/// Judges a consistency proof (RFC 6962, section 2.1.2) from the accepted head to the waiting one. The state stays the same.
///
/// # Errors
///
/// Those of [`head`].
pub fn proof(state: &[u8], path: &[Hash]) -> Result<Judgement, Error> {
    judged(|verdict, out, room, length| {
        // SAFETY: as in begin; `path` has so many hashes.
        unsafe { sys::wagtenib_monitor_proof(state.as_ptr(), state.len(), first_of(path), path.len(), verdict, out, room, length) }
    })
}

/// Judges a consistency proof (RFC 6962, section 2.1.2) from an older head to the accepted one if that has more leaves, otherwise to the waiting one. The state
/// stays the same.
///
/// # Errors
///
/// Those of [`head`].
pub fn older(state: &[u8], head: &TreeHead, path: &[Hash]) -> Result<Judgement, Error> {
    let head = head.in_c();
    judged(|verdict, out, room, length| {
        // SAFETY: as in begin; `path` has so many hashes.
        unsafe { sys::wagtenib_monitor_older(state.as_ptr(), state.len(), &head, first_of(path), path.len(), verdict, out, room, length) }
    })
}

/// Compares two tree heads of one log by their numbers. Returns `None` if `head` has more leaves than `known`, and is later.
#[must_use]
pub fn compare(known: &TreeHead, head: &TreeHead) -> Option<Verdict> {
    let (first, second) = (known.in_c(), head.in_c());
    // SAFETY: the pointers are those of variables that live through the call.
    match unsafe { sys::wagtenib_compare_heads(&first, &second) } {
        0 => None,
        sys::code::AGAIN => Some(Verdict::Again),
        sys::code::OLDER => Some(Verdict::Older(*known)),
        sys::code::SHRUNK => Some(Verdict::Shrunk(*known)),
        sys::code::FORKED => Some(Verdict::Forked(*known)),
        sys::code::HEAD_NOT_LATER => Some(Verdict::NotLater(*known)),
        other => panic!("libwagtenib gave the verdict {other}, which this version of the crate does not know"),
    }
}

/// Judges one leaf (MerkleTreeLeaf, RFC 6962, section 3.4) beside a tree head with this timestamp. Returns the timestamp of the leaf. All timestamps are in
/// milliseconds.
///
/// # Errors
///
/// [`Error::LaterEntry`] if the leaf is later than the head, which speaks against the log; or those of [`decode`](crate::leaf::decode).
pub fn entry(head_timestamp: u64, leaf: &[u8]) -> Result<u64, Error> {
    let mut timestamp = 0;
    // SAFETY: the pointers are those of a slice and of a variable that live through the call.
    result(unsafe { sys::wagtenib_monitor_entry(head_timestamp, leaf.as_ptr(), leaf.len(), &mut timestamp) })?;
    Ok(timestamp)
}
