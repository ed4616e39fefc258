use super::number::NumberLine;
use crate::memory::{self, NoRoom};
use crate::stats::ErrorCounts;
use std::fmt::Display;
use std::io::Write;

/// The most bytes of a reply. They suffice for as many pairs as a scan returns.
pub const MAX_REPLY: usize = 8 << 20;
/// Larger room isn't kept once everything was sent. Sent bytes are dropped at the latest when there are so many.
const KEPT_ROOM: usize = 16 << 10;

/// The most bytes of a short reply, as of an error.
const SHORT: usize = 512;
/// If there are so many bytes, room for a short reply is reserved before a command is done.
const FEW: usize = 4 << 10;

/// The client's version of the protocol.
#[derive(Clone, Copy, Debug, Default, PartialEq, Eq)]
pub enum Protocol {
    /// RESP2, with which each connection begins.
    #[default]
    Two,
    /// RESP3, which a client asks for by HELLO.
    Three,
}

/// The answers of a connection that weren't sent yet.
#[derive(Debug, Default)]
pub struct Replies {
    bytes: Vec<u8>,
    sent: usize,
    /// The version in which answers are written.
    pub protocol: Protocol,
    error_count: u64,
    errors: ErrorCounts,
    /// For how many short replies room is kept, beside one.
    owed: usize,
    /// Whether memory was refused for a long part of the last reply.
    is_cut: bool,
}

impl Replies {
    /// Makes an empty list, in this version.
    pub fn new(protocol: Protocol) -> Replies {
        Replies {
            protocol,
            ..Replies::default()
        }
    }

    /// Returns the bytes that weren't sent yet.
    #[inline]
    pub fn unsent(&self) -> &[u8] {
        &self.bytes[self.sent..]
    }

    /// Notes that so many more bytes were sent. It must be called between commands, because earlier marks aren't valid
    /// after it.
    pub fn note_sent(&mut self, count: usize) {
        self.sent += count;
        let unsent = self.bytes.len() - self.sent;
        if unsent == 0 {
            self.sent = 0;
            self.bytes.clear();
            if self.bytes.capacity() > KEPT_ROOM {
                self.bytes = Vec::new();
            }
        } else if self.sent >= KEPT_ROOM.max(unsent) {
            // If a client always asks for more than it has read, the list never becomes empty. No more bytes are moved
            // here than were sent.
            self.bytes.drain(..self.sent);
            self.sent = 0;
        }
    }

    /// Returns whether there is room for a short reply. If there isn't, the list must be sent before another command is
    /// done.
    #[inline]
    pub fn has_room_for_one(&mut self) -> bool {
        self.bytes.len() < FEW || self.reserve(0).is_ok()
    }

    /// Keeps room for so many short replies, and for one more behind them, until [`Replies::owe`] reduces it. Fails if
    /// memory is refused.
    pub fn keep_room(&mut self, count: usize) -> Result<(), NoRoom> {
        // The reply that tells their number is one more.
        memory::reserve(&mut self.bytes, SHORT * (2 + count))?;
        self.owe(count);
        Ok(())
    }

    /// Keeps room for only so many short replies behind the next one.
    pub fn owe(&mut self, count: usize) {
        self.owed = count;
    }

    /// Makes room for so many more bytes, and for everything that room is kept for.
    #[inline]
    fn reserve(&mut self, more: usize) -> Result<(), NoRoom> {
        let are_few = self.owed == 0 && self.bytes.len() + more < FEW;
        let kept = if are_few { 0 } else { SHORT * (1 + self.owed) };
        let more = more + kept;
        match self.bytes.capacity() - self.bytes.len() >= more {
            true => Ok(()),
            false => memory::reserve(&mut self.bytes, more),
        }
    }

    /// Writes bytes that may be long. If memory for them is refused, notes that.
    fn put(&mut self, bytes: &[u8]) {
        match self.reserve(bytes.len()) {
            Ok(()) => self.bytes.extend_from_slice(bytes),
            Err(NoRoom) => self.is_cut = true,
        }
    }

    /// Fails if memory for a part of the last reply was refused. Then the reply must be taken back.
    #[inline]
    pub fn are_whole(&self) -> Result<(), NoRoom> {
        match self.is_cut {
            true => Err(NoRoom),
            false => Ok(()),
        }
    }

    /// Appends a whole reply that was written elsewhere, in the same version. Memory for a short reply isn't refused,
    /// because it may tell of a change.
    pub fn append(&mut self, reply: &[u8]) {
        match reply.len() <= SHORT {
            true => self.bytes.extend_from_slice(reply),
            false => self.put(reply),
        }
    }

    /// Does the same, and copies nothing if there is no other reply.
    pub fn append_owned(&mut self, reply: Vec<u8>) {
        match self.bytes.is_empty() {
            true => self.bytes = reply,
            false => self.put(&reply),
        }
    }

    /// Returns all bytes that weren't sent.
    pub fn into_bytes(mut self) -> Vec<u8> {
        self.bytes.drain(..self.sent);
        self.bytes
    }

    /// Appends a whole reply of another process, in the same version. If it is an error, it is counted.
    pub fn append_told(&mut self, reply: &[u8]) {
        let start = self.bytes.len() + 1;
        let line = reply.strip_prefix(b"-");
        let line = line.and_then(|it| it.strip_suffix(b"\r\n"));
        self.append(reply);
        if line.is_some() && !self.is_cut {
            let end = self.bytes.len() - 2;
            self.count_error(start, end);
        }
    }

    /// Appends replies that were written elsewhere, with the errors among them.
    pub fn take_over(&mut self, mut other: Replies) {
        self.append(other.unsent());
        self.error_count += other.error_count;
        for (name, count) in other.take_errors().into_iter().flatten() {
            *self.errors.entry(name).or_default() += count;
        }
    }

    /// Returns where the next reply begins.
    #[inline]
    pub fn mark(&self) -> usize {
        self.bytes.len()
    }

    /// Returns the bytes that were written since the mark.
    pub fn since(&self, mark: usize) -> &[u8] {
        &self.bytes[mark..]
    }

    /// Returns whether the reply that began at the mark has more bytes than a reply may have.
    pub fn is_too_large(&self, mark: usize) -> bool {
        self.bytes.len() - mark > MAX_REPLY
    }

    /// Returns whether the reply that began at the mark may get so many more bytes.
    pub fn has_room(&self, mark: usize, more: usize) -> bool {
        self.bytes.len() - mark + more <= MAX_REPLY
    }

    /// Takes back everything that was written since the mark.
    pub fn take_back(&mut self, mark: usize) {
        self.bytes.truncate(mark);
        self.is_cut = false;
    }

    /// Writes the word OK.
    #[inline]
    pub fn ok(&mut self) {
        self.bytes.extend_from_slice(b"+OK\r\n");
    }

    /// Writes a word that isn't data, like PONG.
    pub fn simple(&mut self, word: &str) {
        self.bytes.push(b'+');
        self.bytes.extend_from_slice(word.as_bytes());
        self.bytes.extend_from_slice(b"\r\n");
    }

    /// Writes a refusal. Its first word is its name. Bytes that would end the line are shown as spaces.
    pub fn error(&mut self, fault: impl Display) {
        let start = self.bytes.len() + 1;
        self.bytes.push(b'-');
        // Writing to memory never fails.
        let _ = write!(self.bytes, "{fault}");
        self.end_error(start);
    }

    /// Does the same for a refusal with bytes that may not be UTF-8.
    pub fn error_bytes(&mut self, fault: &[u8]) {
        let start = self.bytes.len() + 1;
        self.bytes.push(b'-');
        self.bytes.extend_from_slice(fault);
        self.end_error(start);
    }

    /// Ends the error that began at this place, and counts it.
    fn end_error(&mut self, start: usize) {
        for byte in &mut self.bytes[start..] {
            if matches!(byte, b'\r' | b'\n') {
                *byte = b' ';
            }
        }
        self.count_error(start, self.bytes.len());
        self.bytes.extend_from_slice(b"\r\n");
    }

    /// Counts the error at this place by its name.
    fn count_error(&mut self, start: usize, end: usize) {
        self.error_count += 1;
        let told = &self.bytes[start..end];
        let told = told.strip_prefix(b"REFUSED ").unwrap_or(told);
        let name = told.split(|it| matches!(it, b' ' | b':')).next();
        let name = String::from_utf8_lossy(name.unwrap_or_default());
        #[cfg(test)]
        assert!(
            crate::error_names::error_names().any(|it| it == name),
            "{name}"
        );
        match self.errors.get_mut(&*name) {
            Some(count) => *count += 1,
            None => drop(self.errors.insert(name.into(), 1)),
        }
    }

    /// Returns how many errors were written.
    #[inline]
    pub fn error_count(&self) -> u64 {
        self.error_count
    }

    /// Returns the errors since the last call, if there are any.
    pub fn take_errors(&mut self) -> Option<ErrorCounts> {
        (!self.errors.is_empty()).then(|| std::mem::take(&mut self.errors))
    }

    /// Writes a number.
    pub fn number(&mut self, number: i64) {
        self.bytes
            .extend_from_slice(NumberLine::new(b':', number).as_bytes());
    }

    /// Writes a count.
    pub fn count(&mut self, count: usize) {
        self.number(i64::try_from(count).unwrap_or(i64::MAX));
    }

    /// Writes any bytes.
    pub fn bulk(&mut self, bytes: &[u8]) {
        self.text_of(b'$', &[], bytes);
    }

    /// Writes text of this kind, with its length.
    fn text_of(&mut self, kind: u8, front: &[u8], bytes: &[u8]) {
        let length = front.len() + bytes.len();
        let line = NumberLine::new(kind, length as i64);
        if self.reserve(line.as_bytes().len() + length + 2).is_err() {
            self.is_cut = true;
            return;
        }
        for part in [line.as_bytes(), front, bytes, b"\r\n"] {
            self.bytes.extend_from_slice(part);
        }
    }

    /// Writes a text for people, which is shown as it is.
    pub fn text(&mut self, text: &str) {
        match self.protocol {
            Protocol::Two => self.bulk(text.as_bytes()),
            Protocol::Three => self.text_of(b'=', b"txt:", text.as_bytes()),
        }
    }

    /// Writes that there is no value.
    pub fn null(&mut self) {
        self.put(match self.protocol {
            Protocol::Two => b"$-1\r\n",
            Protocol::Three => b"_\r\n",
        });
    }

    /// Begins an array of so many replies, which follow.
    pub fn array(&mut self, length: usize) {
        self.length(b'*', length);
    }

    /// Begins a map of so many names, which follow, each with its value.
    pub fn map(&mut self, length: usize) {
        match self.protocol {
            Protocol::Two => self.array(2 * length),
            Protocol::Three => self.length(b'%', length),
        }
    }

    fn length(&mut self, kind: u8, length: usize) {
        let length = i64::try_from(length).unwrap_or(i64::MAX);
        self.put(NumberLine::new(kind, length).as_bytes());
    }
}

#[cfg(test)]
mod tests {
    use super::*;

    #[test]
    fn replies_are_written_in_both_versions() {
        let mut replies = Replies::default();
        replies.ok();
        replies.error("ERR a\r\nb");
        replies.number(-7);
        replies.bulk(b"x\r\n");
        replies.null();
        replies.map(1);
        replies.text("ab");
        replies.protocol = Protocol::Three;
        replies.null();
        replies.map(1);
        replies.text("ab");
        assert_eq!(
            replies.unsent(),
            b"+OK\r\n-ERR a  b\r\n:-7\r\n$3\r\nx\r\n\r\n$-1\r\n*2\r\n$2\r\nab\r\n\
              _\r\n%1\r\n=6\r\ntxt:ab\r\n"
        );
        replies.note_sent(5);
        assert!(replies.unsent().starts_with(b"-ERR"));
        replies.error("REFUSED Spent: why");
        let errors = replies.take_errors().unwrap();
        assert_eq!((errors["ERR"], errors["Spent"]), (1, 1));
        assert!(replies.take_errors().is_none() && replies.error_count() == 2);
        replies.note_sent(replies.unsent().len());
        assert!(replies.unsent().is_empty());
    }

    #[test]
    fn what_was_sent_is_forgotten_where_more_is_always_unsent() {
        let (mut replies, mut wanted, mut sent) = (Replies::default(), Vec::new(), Vec::new());
        let mut most = 0;
        for turn in 0..2_000 {
            while replies.unsent().len() < 256 << 10 {
                replies.bulk(&[turn as u8; 10_000]);
                wanted.extend_from_slice(b"$10000\r\n");
                wanted.extend_from_slice(&[turn as u8; 10_000]);
                wanted.extend_from_slice(b"\r\n");
            }
            let count = 1 + turn * 17 % 30_000;
            sent.extend_from_slice(&replies.unsent()[..count]);
            replies.note_sent(count);
            most = most.max(replies.bytes.capacity());
        }
        assert!(sent.len() > 16 << 20 && wanted.starts_with(&sent));
        assert!(most < 2 << 20, "{most} bytes are kept");
        // If few bytes are unsent, little room is kept.
        replies.note_sent(replies.unsent().len());
        (0..9_000).for_each(|_| replies.ok());
        replies.note_sent(KEPT_ROOM);
        assert_eq!(replies.bytes.len(), 45_000);
        replies.note_sent(20_000);
        assert_eq!(replies.bytes.len(), replies.unsent().len());
    }
}
