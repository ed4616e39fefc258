//! One decision on one record, packed into a word of 64 bits. A program can store such a word and exchange it itself.
//!
//! ```
//! use durkenzo::{word, Stand};
//!
//! let served = word::changed(0, word::Change::Assign(7), 100)?;
//! let admitted = word::admitted(served, 7, durkenzo::Mode::Direct, 100)?;
//! assert_eq!(word::record(admitted).unwrap().stand, Stand::Serving(7));
//! assert_eq!(word::record(word::ended(admitted).unwrap()).unwrap().generation, 3);
//! assert_eq!(word::accepts(admitted, 7, durkenzo::Mode::Direct), Some(true));
//! assert_eq!(word::of(&word::record(admitted).unwrap()), Some(admitted));
//! # Ok::<(), Box<dyn std::error::Error>>(())
//! ```
pub use crate::change::Change;
use crate::raw::{self, RecordParts};
use crate::{AdmitFault, ChangeFault, Mode, Record};
use std::error::Error;
use std::fmt;

/// Why there is no next word.
#[derive(Clone, Copy, Debug, PartialEq, Eq)]
#[non_exhaustive]
pub enum WordFault<F> {
    /// No record has the word.
    BadWord,
    /// The ceiling of generations is above [`MAX_GENERATION`](crate::MAX_GENERATION).
    BadCeiling,
    /// The word's record doesn't allow the step, or there is no such server.
    Refused(F),
}

impl<F> WordFault<F> {
    // Returns the fault that the code stands for. If the word's record refuses the step, the closure names the refusal.
    fn of(code: u32, word: u64, refused: impl FnOnce(u32, Record) -> F) -> WordFault<F> {
        match (code, record(word)) {
            (5, _) => WordFault::BadCeiling,
            (_, None) => WordFault::BadWord,
            (code, Some(read)) => WordFault::Refused(refused(code, read)),
        }
    }
}

impl<F: fmt::Display> fmt::Display for WordFault<F> {
    fn fmt(&self, f: &mut fmt::Formatter<'_>) -> fmt::Result {
        match self {
            WordFault::BadWord => f.write_str("no record has the word"),
            WordFault::BadCeiling => f.write_str("the ceiling of generations is above 2^36 - 1"),
            WordFault::Refused(fault) => fault.fmt(f),
        }
    }
}

impl<F: Error + 'static> Error for WordFault<F> {
    fn source(&self) -> Option<&(dyn Error + 'static)> {
        match self {
            WordFault::Refused(fault) => Some(fault),
            _ => None,
        }
    }
}

/// Returns the record that has this word, if there is one.
pub fn record(word: u64) -> Option<Record> {
    let mut parts = RecordParts::default();
    // SAFETY: only this call uses the record.
    match unsafe { raw::durkenzo_unpack(word, &mut parts) } {
        0 => Some(Record::of(&parts)),
        _ => None,
    }
}

/// Returns the word of the record, if a shard can have such a record.
pub fn of(record: &Record) -> Option<u64> {
    let mut word = 0;
    // SAFETY: only this call uses both.
    match unsafe { raw::durkenzo_pack(&record.parts(), &mut word) } {
        0 => Some(word),
        _ => None,
    }
}

/// Returns whether the server executes a request that came in this mode, on the shard of this word. Returns `None` if
/// no record has the word, or if a server's number isn't from 1 to 4,095.
pub fn accepts(word: u64, server: u16, mode: Mode) -> Option<bool> {
    let from = match mode {
        Mode::Direct => 0,
        Mode::Forwarded(server) => server.get(),
    };
    let mut accepted = false;
    // SAFETY: only this call uses the answer.
    match unsafe { raw::durkenzo_accepts(word, server, from, &mut accepted) } {
        0 => Some(accepted),
        _ => None,
    }
}

/// Returns the word after the change. The ceiling of generations must be at most
/// [`MAX_GENERATION`](crate::MAX_GENERATION).
///
/// # Errors
///
/// `BadWord` if no record has the word, `BadCeiling` if the ceiling is too high, or `Refused` with the reason if the
/// record doesn't allow the change.
pub fn changed(word: u64, change: Change, ceiling: u64) -> Result<u64, WordFault<ChangeFault>> {
    let ((kind, server), mut next) = (change.parts(), 0);
    // SAFETY: only this call uses the number.
    match unsafe { raw::durkenzo_changed(word, kind, server, ceiling, &mut next) } {
        0 => Ok(next),
        code => Err(WordFault::of(code, word, ChangeFault::of)),
    }
}

/// Returns the word after the server is admitted for a request that came in this mode. The ceiling of generations must
/// be at most [`MAX_GENERATION`](crate::MAX_GENERATION).
///
/// # Errors
///
/// `BadWord` if no record has the word, `BadCeiling` if the ceiling is too high, or `Refused` with the reason if the
/// record doesn't admit the server.
pub fn admitted(
    word: u64,
    server: u16,
    mode: Mode,
    ceiling: u64,
) -> Result<u64, WordFault<AdmitFault>> {
    let from = match mode {
        Mode::Direct => 0,
        Mode::Forwarded(server) => server.get(),
    };
    let mut next = 0;
    // SAFETY: only this call uses the number.
    match unsafe { raw::durkenzo_admitted(word, server, from, ceiling, &mut next) } {
        0 => Ok(next),
        code => Err(WordFault::of(code, word, AdmitFault::of)),
    }
}

/// Returns the word after its admission ends, if it has an admission that can end.
pub fn ended(word: u64) -> Option<u64> {
    let mut next = 0;
    // SAFETY: only this call uses the number.
    match unsafe { raw::durkenzo_ended(word, &mut next) } {
        0 => Some(next),
        _ => None,
    }
}

/// Returns the server that executes requests on the shard of this word.
pub fn executor(word: u64) -> Option<u16> {
    // SAFETY: the call takes only numbers.
    match unsafe { raw::durkenzo_executor(word) } {
        0 => None,
        server => Some(server),
    }
}

/// Returns the server to which this one forwards requests on the shard of this word.
pub fn forward(word: u64, server: u16) -> Option<u16> {
    // SAFETY: the call takes only numbers.
    match unsafe { raw::durkenzo_forward(word, server) } {
        0 => None,
        server => Some(server),
    }
}
