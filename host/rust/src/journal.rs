//! The journal: the calls of a host on one 5GS context as octets, which `journal_read` replays (docs/JOURNAL.md).

use crate::{done, sys, Result};

/// The most bytes that a call may have in a journal.
pub const MAX_BYTES: usize = 60_000;

/// The record of one call: 4E 53, the kind, two octets of length, the call's bytes. Kinds and bytes are those of docs/JOURNAL.md.
///
/// Append it to a file, after the call or before it. The file holds keys and plaintext.
///
/// Refused: [`BufferTooShort`](crate::NasError::BufferTooShort), a length that the kind does not allow, or no such kind;
/// [`TooLong`](crate::NasError::TooLong), above [`MAX_BYTES`].
///
/// ```
/// use saihdelu::journal;
///
/// // Kind 4, the window size
/// assert_eq!(journal::record(4, &[8]).unwrap(), [0x4e, 0x53, 4, 0, 1, 8]);
/// assert_eq!(journal::record(4, &[8, 8]).unwrap_err().number(), 1);
/// ```
pub fn record(kind: u8, bytes: &[u8]) -> Result<Vec<u8>> {
    let mut out = vec![0; bytes.len() + 5];
    let answer = unsafe { sys::saihdelu_journal(kind, bytes.as_ptr(), bytes.len(), out.as_mut_ptr(), out.len()) };
    let answer = done(answer)?;
    out.truncate(answer.wrote);
    Ok(out)
}
