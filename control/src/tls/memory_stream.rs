use std::io::{self, ErrorKind, Read, Write};

/// How many bytes the other side may send before its handshake is over, and later before any data. That is more than
/// the longest record, and more than a usual chain of certificates.
const MOST_IN_VAIN: usize = 32 << 10;
/// How many records without data it may send in a row after its handshake.
const MOST_RECORDS_IN_VAIN: usize = 16;
/// How many bytes may wait for another side that goes on sending and reads nothing.
const MOST_UNSENT: usize = 256 << 10;
/// OpenSSL asks for this many bytes to get the head of a record.
const HEAD: usize = 5;
/// How much room an empty buffer keeps.
const KEPT_ROOM: usize = 512;

/// What OpenSSL uses in place of a socket: the bytes that came, and the bytes to send. It never waits, and bounds both.
#[derive(Debug)]
pub(super) struct MemoryStream {
    came: Vec<u8>,
    /// How many of them were taken.
    taken: usize,
    has_ended: bool,
    unsent: Vec<u8>,
    /// How many of them were sent.
    sent: usize,
    /// How many bytes, and how many records, may still be taken before any data.
    bytes_left: usize,
    records_left: usize,
    /// Whether OpenSSL asked for more after the end.
    is_short: bool,
}

impl MemoryStream {
    /// Makes the stream of a new connection. Its handshake may have as many records as fit into its bytes.
    pub(super) fn new() -> MemoryStream {
        MemoryStream {
            came: Vec::new(),
            taken: 0,
            has_ended: false,
            unsent: Vec::new(),
            sent: 0,
            bytes_left: MOST_IN_VAIN,
            records_left: usize::MAX,
            is_short: false,
        }
    }

    /// Adds bytes that came.
    pub(super) fn feed(&mut self, bytes: &[u8]) {
        self.came.extend_from_slice(bytes);
    }

    /// Notes that no more bytes come.
    pub(super) fn end(&mut self) {
        self.has_ended = true;
    }

    /// Returns whether there is something to take, or the end.
    pub(super) fn has_input(&self) -> bool {
        self.taken < self.came.len() || self.has_ended
    }

    /// Returns whether OpenSSL asked for more after the end.
    pub(super) fn is_short(&self) -> bool {
        self.is_short
    }

    /// Notes that there was data. Returns whether records without data came before it.
    pub(super) fn note_use(&mut self) -> bool {
        let was_in_vain = self.records_left < MOST_RECORDS_IN_VAIN - 1;
        self.bytes_left = MOST_IN_VAIN;
        self.records_left = MOST_RECORDS_IN_VAIN;
        was_in_vain
    }

    pub(super) fn unsent(&self) -> &[u8] {
        &self.unsent[self.sent..]
    }

    /// Notes that so many more bytes were sent.
    pub(super) fn note_sent(&mut self, count: usize) {
        self.sent += count;
        if self.sent == self.unsent.len() {
            self.sent = 0;
            empty(&mut self.unsent);
        }
    }
}

/// Empties it, and keeps little room.
fn empty(bytes: &mut Vec<u8>) {
    match bytes.capacity() > KEPT_ROOM {
        true => *bytes = Vec::new(),
        false => bytes.clear(),
    }
}

impl Read for MemoryStream {
    fn read(&mut self, room: &mut [u8]) -> io::Result<usize> {
        let rest = &self.came[self.taken..];
        let count = rest.len().min(room.len());
        if count == 0 && self.has_ended {
            self.is_short = true;
            return Ok(0);
        }
        if count == 0 {
            return Err(ErrorKind::WouldBlock.into());
        }
        let records = usize::from(room.len() == HEAD);
        let left = self.bytes_left.checked_sub(count);
        let (Some(bytes), Some(records)) = (left, self.records_left.checked_sub(records)) else {
            let why = "it sends too much without any data";
            return Err(io::Error::other(why));
        };
        (self.bytes_left, self.records_left) = (bytes, records);
        room[..count].copy_from_slice(&rest[..count]);
        self.taken += count;
        if self.taken == self.came.len() {
            self.taken = 0;
            empty(&mut self.came);
        }
        Ok(count)
    }
}

impl Write for MemoryStream {
    fn write(&mut self, bytes: &[u8]) -> io::Result<usize> {
        if self.unsent().len() > MOST_UNSENT {
            return Err(io::Error::other("it takes nothing"));
        }
        self.unsent.extend_from_slice(bytes);
        Ok(bytes.len())
    }

    fn flush(&mut self) -> io::Result<()> {
        Ok(())
    }
}
