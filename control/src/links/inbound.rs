//! The answering side of a connection: it receives requests, and sends answers.
use super::connection_slot::ConnectionSlot;
use super::frame::Frame;
use super::links_inner::LinksInner;
use super::outbox::Outbox;
use super::read_buffer::ReadBuffer;
use super::write_buffer::WriteBuffer;
use super::{Closer, Host, Identity, PeerSession, Reason, ReceivedRequests, ReplySender};
use super::{RequestBatch, WireFault, MAX_REQUESTS};
use std::io::{self, Read, Write};
use std::sync::atomic::Ordering;
use std::sync::Arc;
use std::time::{Duration, Instant};

/// Receives the requests of a process that has connected.
pub(super) struct InboundReader<H: Host> {
    inner: Arc<LinksInner<H>>,
    session: H::Session,
    outbox: Arc<Outbox>,
    buffer: ReadBuffer,
    _slot: ConnectionSlot<H>,
}

/// The state of a reader after a read.
#[derive(Clone, Copy, Debug, PartialEq, Eq)]
pub(super) enum InboundState {
    /// It reads on.
    Reads,
    /// It goes on reading once an answer was sent.
    HeldUp,
    /// It has read everything, or nobody is there to be answered.
    Over,
}

impl<H: Host> InboundReader<H> {
    /// Makes the two halves that answer a process which has connected and was welcomed, in this slot. This closer ends
    /// the connection. Returns the reader of its requests, and the writer of its answers.
    ///
    /// # Errors
    ///
    /// If the host can't answer it, or isn't there yet.
    pub(super) fn new(
        inner: Arc<LinksInner<H>>,
        peer: Identity,
        slot: ConnectionSlot<H>,
        closer: &Arc<dyn Closer>,
    ) -> io::Result<(InboundReader<H>, InboundWriter)> {
        let Some(host) = inner.host() else {
            return Err(io::Error::other("nobody is answered yet"));
        };
        let (session, outbox) = (host.session(peer)?, Arc::new(Outbox::default()));
        inner.peers.note(peer, closer, &outbox);
        let reader = InboundReader {
            session,
            outbox: outbox.clone(),
            inner,
            buffer: ReadBuffer::default(),
            _slot: slot,
        };
        Ok((reader, InboundWriter::new(outbox)))
    }

    /// Returns the outbox of its answers.
    pub(super) fn outbox(&self) -> &Arc<Outbox> {
        &self.outbox
    }

    /// Reads once, unless it is held up, and processes the requests that came.
    ///
    /// # Errors
    ///
    /// If a frame is malformed; and the reader's errors.
    pub(super) fn read(&mut self, reader: &mut dyn Read) -> io::Result<InboundState> {
        match self.take_frames().map_err(io::Error::other)? {
            InboundState::Reads => {}
            other => return Ok(other),
        }
        match self.buffer.fill(reader)? {
            true => self.take_frames().map_err(io::Error::other),
            false => Ok(InboundState::Over),
        }
    }

    /// Processes the complete frames that came, as far as there is room.
    fn take_frames(&mut self) -> Result<InboundState, WireFault> {
        loop {
            if self.outbox.is_held_up() {
                return Ok(InboundState::HeldUp);
            }
            let Some((number, frame)) = self.buffer.take::<H::Reason>()? else {
                return Ok(InboundState::Reads);
            };
            let asking = Asking {
                inner: &self.inner,
                outbox: &self.outbox,
                number,
            };
            let is_there = match frame {
                Frame::Requests(batch) => asking.execute(&mut self.session, batch),
                Frame::Command(bytes) => asking.ask_control(&mut self.session, bytes)?,
                // This side receives no outcomes, because it sends no requests.
                Frame::Outcome(..) => return Err(WireFault::Kind(2)),
            };
            if !is_there {
                return Ok(InboundState::Over);
            }
        }
    }
}

/// The request in the frame with this number.
struct Asking<'a, H: Host> {
    inner: &'a LinksInner<H>,
    outbox: &'a Arc<Outbox>,
    number: u64,
}

impl<H: Host> Asking<'_, H> {
    /// Makes the host execute requests. Returns whether there is still somebody to answer.
    fn execute(&self, session: &mut H::Session, batch: RequestBatch<'_>) -> bool {
        let (count, inner) = (batch.requests.len(), self.inner);
        let is_there = self.outbox.begin(count);
        inner.counts.came.fetch_add(count as u64, Ordering::Relaxed);
        let RequestBatch { shard, came, .. } = batch;
        // A frame has at most 1,024 requests.
        let senders = (0..MAX_REQUESTS as u16).map(|it| self.sender(it));
        let requests: Vec<_> = batch.requests.into_iter().zip(senders).collect();
        let reason = match inner.is_stopping() {
            true => Some(H::Reason::stopped()),
            false => {
                (batch.server != inner.member.server()).then(|| H::Reason::moved(came.revision))
            }
        };
        match reason {
            Some(reason) => requests
                .into_iter()
                .for_each(|it| it.1.refuse(reason.clone())),
            None => session.execute(ReceivedRequests {
                shard,
                came,
                since: since(batch.waited, inner.now()),
                requests,
            }),
        }
        is_there
    }

    /// Makes the host's control execute a command. Returns whether there is still somebody to answer.
    fn ask_control(&self, session: &mut H::Session, command: &[u8]) -> Result<bool, WireFault> {
        let is_there = self.outbox.begin(1);
        session.ask_control(command, self.sender(0))?;
        Ok(is_there)
    }

    fn sender(&self, place: u16) -> ReplySender<H::Reason> {
        ReplySender::new(self.outbox.clone(), self.number, place)
    }
}

/// Returns the moment so many milliseconds before this one. If the machine has just started, there may be no such
/// moment.
fn since(waited: u32, now: Instant) -> Instant {
    let waited = Duration::from_millis(waited.into());
    now.checked_sub(waited).unwrap_or(now)
}

/// Sends the answers to a process that has connected.
pub(super) struct InboundWriter {
    outbox: Arc<Outbox>,
    buffer: WriteBuffer,
}

impl InboundWriter {
    /// Returns the writer of these answers.
    pub(super) fn new(outbox: Arc<Outbox>) -> InboundWriter {
        let buffer = WriteBuffer::default();
        InboundWriter { outbox, buffer }
    }

    /// Returns the answers.
    pub(super) fn outbox(&self) -> &Arc<Outbox> {
        &self.outbox
    }

    /// Returns whether there is something to send.
    pub(super) fn has_more(&self) -> bool {
        !self.buffer.is_written() || self.outbox.has_answers()
    }

    /// Sends the bytes that are ready.
    ///
    /// # Errors
    ///
    /// The writer's errors; then it took nothing more. After `WouldBlock` the rest may be sent later.
    pub(super) fn write(&mut self, writer: &mut dyn Write) -> io::Result<()> {
        loop {
            if self.buffer.is_written() {
                self.buffer = WriteBuffer::of(self.outbox.take());
                if self.buffer.is_written() {
                    return Ok(());
                }
            }
            self.buffer.send(writer)?;
        }
    }
}
