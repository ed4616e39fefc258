//! How a process connects to another one, and accepts it. Only these two functions make connections between processes.
use super::super::{Closer, Identity, Terms, PATIENCE};
use super::keep_alive::keep_alive;
use super::socket_closer::SocketCloser;
use super::socket_handshake::SocketHandshake;
use crate::tls::{PeersTls, ReadHalf, WriteHalf};
use std::io::{self, Read, Write};
use std::net::{TcpStream, ToSocketAddrs};
use std::sync::Arc;
use std::time::{Duration, Instant};

/// A connection to another process, in two directions, each of which has a thread.
pub(super) struct Channel {
    pub(super) reader: Box<dyn Read + Send>,
    pub(super) writer: Box<dyn Write + Send>,
    closer: Arc<SocketCloser>,
    /// When both sides must know each other.
    deadline: Instant,
}

/// Connects to the process at this address.
pub(super) fn connect(terms: &Terms, address: &str) -> io::Result<Channel> {
    let mut last = io::Error::other("it is no address");
    for place in address.to_socket_addrs()? {
        match TcpStream::connect_timeout(&place, PATIENCE) {
            Ok(stream) => return met(stream, terms, PeersTls::connect),
            Err(error) => last = error,
        }
    }
    Err(last)
}

/// Accepts a process, or whoever else connects.
pub(super) fn accept(terms: &Terms, stream: TcpStream) -> io::Result<Channel> {
    met(stream, terms, PeersTls::accept)
}

/// How TLS begins on either side.
type TlsStart = fn(&PeersTls, TcpStream, Duration) -> io::Result<(ReadHalf, WriteHalf)>;

fn met(stream: TcpStream, terms: &Terms, begin: TlsStart) -> io::Result<Channel> {
    let deadline = Instant::now() + PATIENCE;
    stream.set_nodelay(true)?;
    keep_alive(&stream)?;
    let closer = Arc::new(SocketCloser::of(&stream)?);
    let (reader, writer) = match &terms.tls {
        Some(tls) => begin(tls, stream, PATIENCE)?,
        None => (
            ReadHalf::plain(stream.try_clone()?),
            WriteHalf::plain(stream),
        ),
    };
    reader.set_timeout(Some(PATIENCE))?;
    writer.set_timeout(Some(PATIENCE))?;
    Ok(Channel {
        reader: Box::new(reader),
        writer: Box::new(writer),
        closer,
        deadline,
    })
}

impl Channel {
    /// Returns its closer.
    pub(super) fn closer(&self) -> Arc<dyn Closer> {
        self.closer.clone()
    }

    /// Greets the process that was reached, in this version. It must run this server. Returns its identity.
    pub(super) fn greet(
        &mut self,
        terms: &Terms,
        server: u16,
        version: u8,
    ) -> io::Result<Identity> {
        self.handshake().greet(terms, server, version)
    }

    /// Welcomes the process that has connected, if there is a place for it, or tells it why not. Returns its identity
    /// and its place.
    pub(super) fn welcome<T>(
        &mut self,
        terms: &Terms,
        place: impl Fn() -> Option<T>,
    ) -> io::Result<(Identity, T)> {
        self.handshake().welcome(terms, place)
    }

    fn handshake(&mut self) -> SocketHandshake<'_> {
        let halves: (&mut dyn Read, &mut dyn Write) = (&mut self.reader, &mut self.writer);
        SocketHandshake::new(halves, self.closer.socket(), self.deadline)
    }
}

#[cfg(test)]
mod tests {
    use super::super::super::trial::terms;
    use super::*;
    use std::net::TcpListener;
    use std::thread;

    /// Returns a connection: the client's socket, and the accepted channel.
    fn met(terms: &Terms) -> (TcpStream, Channel) {
        let listener = TcpListener::bind("127.0.0.1:0").unwrap();
        let client = TcpStream::connect(listener.local_addr().unwrap()).unwrap();
        (client, accept(terms, listener.accept().unwrap().0).unwrap())
    }

    #[test]
    fn both_sides_learn_who_the_other_one_is_or_why_not() {
        for (shown, place, why) in [
            ("a", Some(()), None),
            ("b", Some(()), Some("its secret is another one")),
            ("a", None, Some("it has no place for one more")),
        ] {
            let (client, mut accepted) = met(&terms("a"));
            let shown = terms(shown);
            let greeting = thread::spawn(move || {
                let mut connected = accept(&shown, client).unwrap();
                connected.greet(&shown, 2, 2)
            });
            let welcomed = accepted.welcome(&terms("a"), || place);
            drop(accepted);
            for known in [welcomed.map(|it| it.0), greeting.join().unwrap()] {
                let known = known.map_err(|it| it.to_string());
                let wanted = why.map_or(Ok(terms("a").identity), |it| Err(it.to_owned()));
                assert_eq!(known, wanted);
            }
        }
    }

    #[test]
    fn who_greets_byte_by_byte_has_no_more_time() {
        let (mut client, mut accepted) = met(&terms("a"));
        let began = Instant::now();
        accepted.deadline = began + Duration::from_millis(300);
        let slow = thread::spawn(move || {
            // It greets for minutes, and fails once the other side has gone.
            let mut bytes = b"SMP\0\x01\0\0\x04\0".iter().chain(&[0; 1_024]);
            while bytes
                .next()
                .is_some_and(|it| client.write_all(&[*it]).is_ok())
            {
                thread::sleep(Duration::from_millis(100));
            }
        });
        assert!(accepted.welcome(&terms("a"), || Some(())).is_err());
        assert!(began.elapsed() < Duration::from_secs(20));
        drop(accepted);
        slow.join().unwrap();
    }
}
