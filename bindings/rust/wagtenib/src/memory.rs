//! Calls that write what only they know the length of.

use crate::error::result;
use crate::Error;
use wagtenib_sys::code;

/// Makes a call that writes `T`s, with so much room at first. If they have no room, it calls once more. It returns the number of the answer, and what was written.
pub(crate) fn output<T: Clone + Default>(room: usize, mut call: impl FnMut(*mut T, usize, *mut u64) -> u32) -> (u32, Vec<T>) {
    let mut out = vec![T::default(); room];
    let mut length = 0;
    let mut answer = call(out.as_mut_ptr(), out.len(), &mut length);
    if answer == code::NO_ROOM {
        // What was in memory fits there again.
        out = vec![T::default(); length as usize];
        answer = call(out.as_mut_ptr(), out.len(), &mut length);
    }
    out.truncate(if answer == code::OK { length as usize } else { 0 });
    (answer, out)
}

/// The same, with the error of the answer.
pub(crate) fn written<T: Clone + Default>(room: usize, call: impl FnMut(*mut T, usize, *mut u64) -> u32) -> Result<Vec<T>, Error> {
    let (answer, out) = output(room, call);
    result(answer).map(|()| out)
}

/// Returns byte strings one after the other, and the length of each.
pub(crate) fn joined<T: AsRef<[u8]>>(pieces: &[T]) -> (Vec<u8>, Vec<u64>) {
    let lengths = pieces.iter().map(|piece| piece.as_ref().len() as u64).collect();
    (pieces.iter().flat_map(|piece| piece.as_ref().iter().copied()).collect(), lengths)
}

/// Returns a text that the library wrote.
pub(crate) fn text(bytes: Vec<u8>) -> String {
    String::from_utf8(bytes).expect("the library writes texts in UTF-8")
}
