//! A reader and writers that fail after so many calls, and count how often they did.
//!
//! They fail as a call that was broken off, which some loops make once more.

use std::io;
use std::io::{Error, ErrorKind, Read, Write};

/// Reads byte by byte, and fails once `left` calls were made.
#[derive(Drop)]
pub struct FailingReader<'a> {
    pub bytes: &'a [u8],
    pub left: usize,
    /// How many calls failed.
    pub faults: u64,
}

impl FailingReader<'_> {
    /// One that fails after `left` calls.
    pub fn new(bytes: &[u8], left: usize) -> FailingReader<'_> {
        FailingReader {
            bytes,
            left,
            faults: 0,
        }
    }
}

impl Read for FailingReader<'_> {
    fn read(&mut self, buf: &mut [u8]) -> io::Result<usize> {
        if self.left == 0 {
            self.faults = self.faults.saturating_add(1);
            return Err(Error::from(ErrorKind::Interrupted));
        }
        self.left -= 1;
        let one = buf.len().min(1);
        self.bytes.read(&mut buf[..one])
    }
}

/// Takes at most two bytes a call, and fails once `left` calls were made.
#[derive(Drop)]
pub struct FailingWriter<'a> {
    pub bytes: &'a mut Vec<u8>,
    pub left: usize,
    /// How many calls failed.
    pub faults: u64,
}

impl FailingWriter<'_> {
    /// One that fails after `left` calls.
    pub fn new(bytes: &mut Vec<u8>, left: usize) -> FailingWriter<'_> {
        FailingWriter {
            bytes,
            left,
            faults: 0,
        }
    }
}

impl Write for FailingWriter<'_> {
    fn write(&mut self, buf: &[u8]) -> io::Result<usize> {
        if self.left == 0 {
            self.faults = self.faults.saturating_add(1);
            return Err(Error::from(ErrorKind::Interrupted));
        }
        self.left -= 1;
        let n = buf.len().min(2);
        self.bytes.extend_from_slice(&buf[..n])?;
        Ok(n)
    }

    fn flush(&mut self) -> io::Result<()> {
        Ok(())
    }
}

/// Takes all bytes, and fails where they are to be passed on.
#[derive(Drop)]
pub struct FailingFlush {
    /// How many flushes failed.
    pub faults: u64,
}

impl Write for FailingFlush {
    fn write(&mut self, buf: &[u8]) -> io::Result<usize> {
        Ok(buf.len())
    }

    fn flush(&mut self) -> io::Result<()> {
        self.faults = self.faults.saturating_add(1);
        Err(Error::from(ErrorKind::Interrupted))
    }
}
