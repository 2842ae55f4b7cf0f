//! What a node of a log does next. [`crate::lock`] has the texts of the log's lock.
//!
//! Any number of nodes can write one log over one lock with compare-and-set and one store of objects. A node begins with [`Command::ReadLock`]. It carries a command
//! out, and calls [`next`] with the command and its outcome. Then the log is one growing list, however many nodes call it, and whichever of them is killed at
//! whichever command.

use crate::error::result;
use crate::guard::TreeHead;
use crate::tree::first_of;
use crate::{Error, Hash};
use wagtenib_sys as sys;

/// A state of a log, as far as the order of a node's commands goes. Timestamps are in milliseconds since 1970.
#[derive(Clone, Copy, Debug, Default, PartialEq, Eq)]
pub struct State {
    /// The timestamp of the state.
    pub timestamp: u64,
    /// The timestamp of the state that it was made from.
    pub previous_timestamp: u64,
    /// A random number.
    pub salt: u64,
}

impl State {
    pub(crate) fn in_c(self) -> sys::wagtenib_node_state {
        sys::wagtenib_node_state { timestamp: self.timestamp, previous_timestamp: self.previous_timestamp, salt: self.salt }
    }

    pub(crate) fn of(state: &sys::wagtenib_node_state) -> State {
        State { timestamp: state.timestamp, previous_timestamp: state.previous_timestamp, salt: state.salt }
    }
}

/// A command of a node. `seen` is the state of the lock, `next` one that was made from it, and `objects` the number of objects of `next`.
#[derive(Clone, Copy, Debug, PartialEq, Eq)]
#[allow(missing_docs)]
pub enum Command {
    /// Read the lock.
    ReadLock,
    /// Look whether the head of `seen` is published, and if it is not, read the state's staged batch.
    LookForHead { seen: State },
    /// Make a step from `seen`, or name a staged batch that may be deleted.
    MakeStep { seen: State },
    /// Put the staged batch of `next`.
    StageBatch { seen: State, next: State, objects: u64 },
    /// Swap the lock from the text of `seen` to that of `next`.
    SwapLock { seen: State, next: State, objects: u64 },
    /// Delete the staged batch of `next`.
    DeleteBatch { seen: State, next: State },
    /// Put all objects of `next` under their public names.
    PutObjects { next: State, objects: u64 },
    /// Add the entries of `next` to the index.
    AddToIndex { next: State },
    /// Have the head of `next` signed, and publish it.
    PublishHead { next: State },
    /// Answer the submissions of `next`.
    AnswerAll { next: State },
}

impl Command {
    fn in_c(self) -> sys::wagtenib_node_command {
        let none = State::default();
        let (command, seen, next, objects) = match self {
            Command::ReadLock => (0, none, none, 0),
            Command::LookForHead { seen } => (1, seen, none, 0),
            Command::MakeStep { seen } => (2, seen, none, 0),
            Command::StageBatch { seen, next, objects } => (3, seen, next, objects),
            Command::SwapLock { seen, next, objects } => (4, seen, next, objects),
            Command::DeleteBatch { seen, next } => (5, seen, next, 0),
            Command::PutObjects { next, objects } => (6, none, next, objects),
            Command::AddToIndex { next } => (7, none, next, 0),
            Command::PublishHead { next } => (8, none, next, 0),
            Command::AnswerAll { next } => (9, none, next, 0),
        };
        sys::wagtenib_node_command { seen: seen.in_c(), next: next.in_c(), objects, command }
    }

    fn of(command: &sys::wagtenib_node_command) -> Command {
        let (seen, next, objects) = (State::of(&command.seen), State::of(&command.next), command.objects);
        match command.command {
            0 => Command::ReadLock,
            1 => Command::LookForHead { seen },
            2 => Command::MakeStep { seen },
            3 => Command::StageBatch { seen, next, objects },
            4 => Command::SwapLock { seen, next, objects },
            5 => Command::DeleteBatch { seen, next },
            6 => Command::PutObjects { next, objects },
            7 => Command::AddToIndex { next },
            8 => Command::PublishHead { next },
            9 => Command::AnswerAll { next },
            // The contract names all commands, so another one means that the library and this crate are of different versions.
            other => panic!("libwagtenib gave the command {other}, which this version of the crate does not know"),
        }
    }
}

/// The outcome of a command.
#[derive(Clone, Copy, Debug, PartialEq, Eq)]
#[allow(missing_docs)]
pub enum Outcome {
    /// It is done.
    Done,
    /// It is not done, or is not known to be done and is not tried any more.
    Lost,
    /// The lock has the text of `state`.
    LockRead { state: State },
    /// The head is published.
    Published,
    /// The staged batch was read, and has so many objects.
    BatchRead { objects: u64 },
    /// A step was made: it led to `state`, which has so many objects.
    StepMade { state: State, objects: u64 },
    /// The store has a staged batch of `state`.
    BatchListed { state: State },
}

impl Outcome {
    fn in_c(self) -> sys::wagtenib_node_outcome {
        let none = State::default();
        let (outcome, state, objects) = match self {
            Outcome::Done => (0, none, 0),
            Outcome::Lost => (1, none, 0),
            Outcome::LockRead { state } => (2, state, 0),
            Outcome::Published => (3, none, 0),
            Outcome::BatchRead { objects } => (4, none, objects),
            Outcome::StepMade { state, objects } => (5, state, objects),
            Outcome::BatchListed { state } => (6, state, 0),
        };
        sys::wagtenib_node_outcome { state: state.in_c(), objects, outcome }
    }
}

/// Returns the command that follows a command, by its outcome. An outcome that does not belong to the command gives the command again.
#[must_use]
pub fn next(command: Command, outcome: Outcome) -> Command {
    let (given, told, mut next) = (command.in_c(), outcome.in_c(), sys::wagtenib_node_command::default());
    // SAFETY: the pointers are those of variables that live through the call.
    result(unsafe { sys::wagtenib_node_next(&given, &told, &mut next) }).expect("each command and each outcome has a number");
    Command::of(&next)
}

/// What a node finds of a log when it starts, beside the lock's text. What is `None` is not there. The root of a head is compared only if its size and its timestamp
/// are those of the lock's head.
#[derive(Clone, Copy, Debug, Default, PartialEq, Eq)]
pub struct Found {
    /// The newest head that this machine saw.
    pub seen: Option<TreeHead>,
    /// The last head that was signed.
    pub signed: Option<TreeHead>,
    /// The newest head that is published.
    pub published: Option<TreeHead>,
    /// The newest head that the store lists.
    pub listed: Option<TreeHead>,
    /// Whether a guard decides what is signed.
    pub guarded: bool,
    /// Whether the store has an object of a log.
    pub has_object: bool,
    /// Whether the operator asks for a new log.
    pub creates: bool,
}

impl Found {
    fn in_c(&self, has_lock: bool) -> sys::wagtenib_node_found {
        let flags = [self.seen.is_some(), self.signed.is_some(), self.published.is_some(), self.listed.is_some(), self.guarded, self.has_object, self.creates, has_lock];
        let head = |head: Option<TreeHead>| head.map_or_else(Default::default, |head| head.in_c());
        sys::wagtenib_node_found {
            seen: head(self.seen),
            signed_head: head(self.signed),
            published: head(self.published),
            listed: head(self.listed),
            flags: flags.iter().enumerate().map(|(bit, is_set)| u32::from(*is_set) << bit).sum(),
        }
    }
}

/// Decides whether a node may go on from `head`, if `accepted` is the newest head that it accepted. `proof` is the consistency proof between them (RFC 6962, section
/// 2.1.2). It is not read if their sizes are equal or the size of `accepted` is 0.
///
/// It is `Ok` exactly if `head` is the accepted head again, or its timestamp is later, and its tree contains that of `accepted` by the proof. A node must sign and
/// publish nothing of a lock's text before its head is accepted, since the lock may hold an older text again, or that of another list.
///
/// # Errors
///
/// The first reason of [`Error::SizeFalls`], [`Error::TimestampNotLater`], [`Error::Fork`] and those of [`verify_consistency`](crate::tree::verify_consistency).
pub fn accept(accepted: &TreeHead, head: &TreeHead, proof: &[Hash]) -> Result<(), Error> {
    let (accepted, head) = (accepted.in_c(), head.in_c());
    // SAFETY: the pointers are those of variables that live through the call.
    result(unsafe { sys::wagtenib_node_accept(&accepted, &head, first_of(proof), proof.len()) })
}

/// What a node that starts may do.
#[derive(Clone, Copy, Debug, PartialEq, Eq)]
pub enum Start {
    /// It continues from the lock's text, since no head that it found is later, or has the size and timestamp of the lock's and another root.
    Continues,
    /// It creates the lock of a new log.
    CreatesLock,
}

/// Decides what a node does when it starts. It must read the lock first and the rest after it. `None` means that there is no lock. A
/// lock that exists and has no bytes is refused.
///
/// # Errors
///
/// The first reason why the node must neither continue nor create a lock: [`Error::BadLockText`], [`Error::LockGone`] if there is no lock, or
/// [`Error::BehindSeen`], [`Error::TwoRoots`] or [`Error::BehindSigned`], [`Error::SignedBehindListed`], [`Error::BehindListed`], [`Error::BehindPublished`].
pub fn start(lock: Option<&[u8]>, found: &Found) -> Result<Start, Error> {
    let found = found.in_c(lock.is_some());
    let lock = lock.unwrap_or_default();
    // SAFETY: the pointers are those of references that live through the call.
    match result(unsafe { sys::wagtenib_node_start(lock.as_ptr(), lock.len(), &found) }) {
        Ok(()) => Ok(Start::Continues),
        Err(Error::CreatesLock) => Ok(Start::CreatesLock),
        Err(error) => Err(error),
    }
}
