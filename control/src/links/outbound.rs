//! The asking side of a connection: it sends requests, and receives outcomes.
use super::link::Link;
use super::links_inner::LinksInner;
use super::read_buffer::ReadBuffer;
use super::write_buffer::WriteBuffer;
use super::{ForwardedRequest, Host};
use std::io::{self, ErrorKind, Read, Write};
use std::sync::Arc;

/// Sends the requests for a process.
pub(super) struct OutboundWriter<H: Host> {
    link: Arc<Link<H>>,
    inner: Arc<LinksInner<H>>,
    buffer: WriteBuffer,
}

impl<H: Host> OutboundWriter<H> {
    /// Returns the writer of this link's connection.
    pub(super) fn new(link: Arc<Link<H>>, inner: Arc<LinksInner<H>>) -> OutboundWriter<H> {
        let buffer = WriteBuffer::default();
        OutboundWriter {
            link,
            inner,
            buffer,
        }
    }

    /// Returns whether there is something to send.
    pub(super) fn has_more(&self) -> bool {
        !self.buffer.is_written() || self.link.has_more()
    }

    /// Sends the bytes that are ready.
    ///
    /// # Errors
    ///
    /// The writer's errors; then it took nothing more. After `WouldBlock` the rest may be sent later.
    pub(super) fn write(&mut self, writer: &mut dyn Write) -> io::Result<()> {
        loop {
            if self.buffer.is_written() {
                self.buffer = WriteBuffer::default();
                let unknown = self.link.take_frames(self.inner.now(), &mut self.buffer);
                let server = self.link.server;
                unknown.into_iter().for_each(|it| it.refuse_unknown(server));
                if self.buffer.is_written() {
                    return Ok(());
                }
            }
            self.buffer.send(writer)?;
        }
    }

    /// Gives back messages that weren't sent, for this reason, because the connection ends.
    pub(super) fn end(self, why: &str) {
        let unsent = self.buffer.unsent();
        self.link.give_back(&unsent, why, &self.inner);
    }
}

/// Receives the answers of a process.
pub(super) struct OutboundReader<H: Host> {
    link: Arc<Link<H>>,
    inner: Arc<LinksInner<H>>,
    buffer: ReadBuffer,
}

impl<H: Host> OutboundReader<H> {
    /// Returns the reader of this link's connection.
    pub(super) fn new(link: Arc<Link<H>>, inner: Arc<LinksInner<H>>) -> OutboundReader<H> {
        let buffer = ReadBuffer::default();
        OutboundReader {
            link,
            inner,
            buffer,
        }
    }

    /// Reads once, and processes the outcomes that came.
    ///
    /// # Errors
    ///
    /// If the connection has ended, or a frame is malformed; and the reader's errors.
    pub(super) fn read(&mut self, reader: &mut dyn Read) -> io::Result<()> {
        if !self.buffer.fill(reader)? {
            return Err(ErrorKind::UnexpectedEof.into());
        }
        let taken = self.link.take_outcomes(&mut self.buffer, &self.inner);
        if let Err(error) = &taken {
            tracing::warn!(server = self.link.server, %error, "a process answers wrongly");
        }
        taken
    }

    /// Gives up messages that were sent and have no outcome, for this reason, because the connection ends.
    pub(super) fn end(self, why: &str) {
        self.link.lose_all(why, &self.inner);
    }
}
