//! Runs of scripts that end, and runs that stop early.

use crate::fakes::{FailingReader, FailingWriter};
use sm_lines::{RunFault, Status};
use std::alloc::Global;
use std::io::{Read, Write};

/// What runs scripts.
pub trait Runs {
    /// Runs the script of the reader.
    fn run_on<R: Read + Drop, W: Write + Drop>(
        &self,
        alloc: Global,
        reader: R,
        writer: W,
    ) -> Result<Status, RunFault>;
}

/// Whether the run of the script ends so, and this is written for it.
pub fn is_written<T: Runs>(
    on: &T,
    alloc: Global,
    script: &[u8],
    status: Status,
    output: &[u8],
) -> bool {
    let mut written = Vec::new(alloc);
    on.run_on(alloc, script, &mut written) == Ok(status) && written.as_slice() == output
}

/// After how many of its calls the failing reader doesn't stop the run as it should; none where it always does. It should say so, and
/// have written the answers to those lines that were read whole. The settings in front have none.
pub fn wrong_stop_of_reader<T: Runs>(
    on: &T,
    alloc: Global,
    input: &[u8],
    answers: &[u8],
) -> Option<usize> {
    for left in 0..=input.len() {
        if !is_stopped_reading(on, alloc, input, &input[..left], answers) {
            return Some(left);
        }
    }
    None
}

/// After how many of its calls the failing writer, which takes two bytes in each, doesn't stop the run as it should; none where it
/// always does. It should say so, and have written that front of the answers.
pub fn wrong_stop_of_writer<T: Runs>(
    on: &T,
    alloc: Global,
    input: &[u8],
    answers: &[u8],
) -> Option<usize> {
    for left in 0..answers.len().div_ceil(2) {
        if !is_stopped_writing(on, alloc, input, left, answers) {
            return Some(left);
        }
    }
    None
}

/// Whether the run of the script, into an empty vector that has room, writes this output. Where memory is refused, it should have written
/// the answers to a front of the lines, and the same run once more all.
pub fn is_written_in_two<T: Runs>(
    on: &T,
    alloc: Global,
    script: &[u8],
    written: &mut Vec<u8>,
    output: &[u8],
) -> bool {
    let ended = on.run_on(alloc, script, &mut *written);
    if ended != Err(RunFault::NoMemory) && ended != Err(RunFault::NoThread) {
        return ended == Ok(Status::Ran) && written.as_slice() == output;
    }
    let is_right = is_front(written, output);
    written.clear();
    let ended = on.run_on(alloc, script, &mut *written);
    is_right && ended == Ok(Status::Ran) && written.as_slice() == output
}

// Whether the run stops where the reader fails once it gave the bytes `read`.
fn is_stopped_reading<T: Runs>(
    on: &T,
    alloc: Global,
    input: &[u8],
    read: &[u8],
    answers: &[u8],
) -> bool {
    let mut written = Vec::new(alloc);
    let reader = FailingReader::new(input, read.len());
    on.run_on(alloc, reader, &mut written) == Err(RunFault::Read)
        && is_front(&written, answers)
        && line_feeds(&written) == line_feeds(read).saturating_sub(1)
}

// Whether the run stops where the writer fails after so many calls.
fn is_stopped_writing<T: Runs>(
    on: &T,
    alloc: Global,
    input: &[u8],
    calls: usize,
    answers: &[u8],
) -> bool {
    let mut written = Vec::new(alloc);
    let writer = FailingWriter::new(&mut written, calls);
    on.run_on(alloc, input, writer) == Err(RunFault::Write)
        && answers.starts_with(&written)
        && written.len() == calls.saturating_mul(2)
}

// Whether these are the first of the answers, each of which ends its line.
fn is_front(written: &[u8], answers: &[u8]) -> bool {
    answers.starts_with(written) && (written.is_empty() || written.ends_with(b"\n"))
}

fn line_feeds(bytes: &[u8]) -> usize {
    bytes.iter().filter(|byte| **byte == b'\n').count()
}
