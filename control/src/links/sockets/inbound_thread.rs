//! The threads of an incoming connection of a process.
use super::super::connection_slot::ConnectionSlot;
use super::super::inbound::{InboundReader, InboundState, InboundWriter};
use super::super::links_inner::LinksInner;
use super::super::pending_handshakes::PendingHandshake;
use super::super::{Closer, Host};
use super::channel::{accept, Channel};
use std::io::{self, Read, Write};
use std::net::TcpStream;
use std::sync::Arc;
use std::thread;

/// Welcomes a process that has connected, and answers it until its connection ends.
pub(super) fn answer_process<H: Host>(
    inner: Arc<LinksInner<H>>,
    stream: TcpStream,
    handshake: PendingHandshake,
) -> io::Result<()> {
    let terms = inner.terms();
    let mut channel = accept(&terms, stream)?;
    let slot = || ConnectionSlot::take(&inner);
    let (peer, slot) = channel.welcome(&terms, slot)?;
    drop(handshake);
    let closer = channel.closer();
    let (mut inbound, answers) = InboundReader::new(inner, peer, slot, &closer)?;
    let Channel {
        mut reader,
        mut writer,
        ..
    } = channel;
    let ending = closer.clone();
    let writing = thread::Builder::new().name(format!("answers-{}", peer.server));
    let writing = writing.spawn(move || write_all(answers, &mut *writer, &*ending))?;
    let ended = read_all(&mut inbound, &mut *reader);
    closer.end();
    inbound.outbox().end();
    // A thread that panicked has logged that.
    let _ = writing.join();
    ended
}

/// Reads until the connection ends, or a frame is malformed.
fn read_all<H: Host>(inbound: &mut InboundReader<H>, reader: &mut dyn Read) -> io::Result<()> {
    loop {
        match inbound.read(reader)? {
            InboundState::Reads => {}
            InboundState::HeldUp => inbound.outbox().wait_for_room(),
            InboundState::Over => return Ok(()),
        }
    }
}

/// Writes the answers, until nobody is there any more.
fn write_all(mut answers: InboundWriter, writer: &mut dyn Write, closer: &dyn Closer) {
    let outbox = answers.outbox().clone();
    loop {
        outbox.wait_for_answers();
        if answers.write(writer).is_err() || outbox.is_over() {
            break;
        }
    }
    closer.end();
    // The reader may wait for room, which nobody makes any more.
    outbox.end();
}

#[cfg(test)]
mod tests {
    use super::super::super::outbox::{Outbox, MOST_REQUESTS};
    use super::super::super::trial::{TestCloser, TestReason};
    use super::super::super::ReplySender;
    use super::*;
    use std::io::ErrorKind;
    use std::sync::mpsc::channel;
    use std::time::Duration;

    /// How long a test waits for something that must come, on a machine that may be busy.
    const PATIENCE: Duration = Duration::from_secs(60);

    /// A writer that takes nothing.
    struct Broken;

    impl Write for Broken {
        fn write(&mut self, _: &[u8]) -> io::Result<usize> {
            Err(ErrorKind::BrokenPipe.into())
        }

        fn flush(&mut self) -> io::Result<()> {
            Ok(())
        }
    }

    /// Makes a thread wait for room in a full outbox. Returns the receiver of the wait's end.
    fn waiting(outbox: &Arc<Outbox>) -> std::sync::mpsc::Receiver<bool> {
        assert!(outbox.begin(MOST_REQUESTS + 2));
        let ((tell, told), waiting) = (channel(), outbox.clone());
        thread::spawn(move || {
            waiting.wait_for_room();
            tell.send(waiting.is_over())
        });
        told
    }

    #[test]
    fn who_waits_for_room_ends_if_nothing_is_taken() {
        let (outbox, closer) = (Arc::new(Outbox::default()), TestCloser::default());
        let told = waiting(&outbox);
        let reply = ReplySender::<TestReason>::new(outbox.clone(), 1, 0);
        assert!(reply.is_awaited());
        reply.clone().answer(b"+OK\r\n");
        write_all(InboundWriter::new(outbox.clone()), &mut Broken, &closer);
        assert_eq!(told.recv_timeout(PATIENCE), Ok(true));
        assert!(closer.is_ended() && !outbox.is_answering() && !reply.is_awaited());
    }

    #[test]
    fn who_waits_for_room_goes_on_once_there_is_some() {
        let outbox = Arc::new(Outbox::default());
        let told = waiting(&outbox);
        for place in 0..2 {
            let reply = ReplySender::<TestReason>::new(outbox.clone(), 1, place);
            reply.answer(b"+OK\r\n");
        }
        assert_eq!(told.recv_timeout(PATIENCE), Ok(false));
    }
}
