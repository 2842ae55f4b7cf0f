//! The text of a log's lock, and the names of staged batches.

use crate::error::result;
use crate::memory::{text, written};
use crate::node::State;
use crate::Error;
use wagtenib_sys as sys;

/// The most bytes of a lock's text beside the state's line and the node's address.
const REST: usize = 64;

/// Returns a lock's text: `line` is the state's line that a step gave, `node` the address of this node (UTF-8 without a line end), `previous_timestamp` that of the
/// state from which the step was made, and `salt` a new random number. [`state`] refuses the text if the line is none.
///
/// # Errors
///
/// [`Error::OutOfMemory`].
pub fn lock_text(line: &str, node: &str, previous_timestamp: u64, salt: u64) -> Result<Vec<u8>, Error> {
    written(line.len() + node.len() + REST, |out, room, length| {
        // SAFETY: the pointers are those of slices and variables that live through the call.
        unsafe { sys::wagtenib_lock_text(line.as_ptr(), line.len(), node.as_ptr(), node.len(), previous_timestamp, salt, out, room, length) }
    })
}

/// Returns the state of a lock's text, and its number of entries.
///
/// # Errors
///
/// [`Error::BadLockText`].
pub fn state(text: &[u8]) -> Result<(State, u64), Error> {
    let (mut state, mut tree_size) = (sys::wagtenib_node_state::default(), 0);
    // SAFETY: as in lock_text.
    result(unsafe { sys::wagtenib_lock_state(text.as_ptr(), text.len(), &mut state, &mut tree_size) })?;
    Ok((State::of(&state), tree_size))
}

/// Returns the name of a state's staged batch.
#[must_use]
pub fn batch_name(state: State) -> String {
    let (state, mut name) = (state.in_c(), vec![0; 56]);
    // SAFETY: as in lock_text; `name` has 56 bytes.
    unsafe { sys::wagtenib_batch_name(&state, name.as_mut_ptr()) };
    text(name)
}

/// Returns the state whose staged batch has this name.
///
/// # Errors
///
/// [`Error::BadBatchName`].
pub fn batch_state(name: &[u8]) -> Result<State, Error> {
    let mut state = sys::wagtenib_node_state::default();
    // SAFETY: as in lock_text.
    result(unsafe { sys::wagtenib_batch_state(name.as_ptr(), name.len(), &mut state) })?;
    Ok(State::of(&state))
}
