//! The sockets and threads of links. Only here does a link wait, or look at the machine's clock: all other modules are
//! given bytes and the time.
mod acceptance;
mod channel;
mod inbound_thread;
mod keep_alive;
mod link_thread;
mod socket_closer;
mod socket_handshake;

pub use acceptance::be_accepted;
pub(super) use acceptance::links_accepted;
pub(super) use link_thread::begin_link;
pub use socket_handshake::SocketHandshake;

use super::links_inner::{locked, LinksInner};
use super::outbox::Outbox;
use super::{Host, TICK};
use inbound_thread::answer_process;
use socket_closer::SocketCloser;
use std::io::{self, ErrorKind};
use std::net::{SocketAddr, TcpListener, TcpStream};
use std::sync::Arc;
use std::thread::{self, JoinHandle};
use std::time::{Duration, Instant};

/// Begins to answer incoming connections of processes, until the links are closed. Returns the thread, which ends then.
pub(super) fn begin_to_answer<H: Host>(
    listener: TcpListener,
    inner: Arc<LinksInner<H>>,
) -> io::Result<JoinHandle<()>> {
    listener.set_nonblocking(true)?;
    let thread = thread::Builder::new().name("peers".to_owned());
    thread.spawn(move || {
        while !inner.is_stopping() {
            accept_all(&listener, &inner);
            inner.tick();
            thread::sleep(TICK);
        }
    })
}

/// Waits until no request of another process is under way, at least for so long and at most for so long.
pub(super) fn linger<H: Host>(inner: &LinksInner<H>, least: Duration, most: Duration) {
    let began = Instant::now();
    inner.stop_returned();
    while began.elapsed() < least || inner.peers.is_answering() && began.elapsed() < most {
        thread::sleep(TICK);
        inner.stop_returned();
    }
}

/// Answers all incoming connections.
fn accept_all<H: Host>(listener: &TcpListener, inner: &Arc<LinksInner<H>>) {
    loop {
        let (stream, from) = match listener.accept() {
            Ok(accepted) => accepted,
            Err(error) if error.kind() == ErrorKind::WouldBlock => return,
            Err(error) => {
                tracing::warn!(%error, "a process isn't accepted");
                return;
            }
        };
        if let Err(error) = answer(inner, stream, from) {
            tracing::warn!(%error, "a process isn't answered");
        }
    }
}

/// Answers an incoming connection, on its own threads.
fn answer<H: Host>(
    inner: &Arc<LinksInner<H>>,
    stream: TcpStream,
    from: SocketAddr,
) -> io::Result<()> {
    stream.set_nonblocking(false)?;
    let closer = Arc::new(SocketCloser::of(&stream)?);
    let Some(handshake) = inner.handshakes.take(closer) else {
        return Ok(());
    };
    let running = inner.clone();
    let thread = thread::Builder::new().name("from".to_owned());
    let run = move || {
        if let Err(error) = answer_process(running, stream, handshake) {
            tracing::warn!(%from, %error, "a connection of a process ended");
        }
    };
    thread.spawn(run).map(drop)
}

impl Outbox {
    /// Waits until there is something to send, or nobody to answer. Bytes that were taken before are sent by now.
    pub(super) fn wait_for_answers(&self) {
        let mut state = locked(&self.state);
        state.is_sending = false;
        drop(self.told.wait_while(state, |it| it.is_idle()));
    }

    /// Waits until more may be read from the process, or nobody is there to be answered.
    fn wait_for_room(&self) {
        let state = locked(&self.state);
        drop(self.taken.wait_while(state, |it| it.is_held_up()));
    }
}
