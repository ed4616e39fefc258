use super::inlet::{Inlet, WAKE};
use super::stream::Stream;
use crate::cluster::Cluster;
use crate::memory;
use mio::net::{TcpListener, TcpStream};
use mio::{Events, Interest, Poll, Token, Waker};
use std::io::{self, ErrorKind};
use std::net::SocketAddr;
use std::sync::Arc;
use std::time::{Duration, Instant};

/// How much memory must be free for one more client. At first a client needs much less.
const ROOM_OF_CLIENT: usize = 128 << 10;
/// The answer to a client for which there isn't enough memory.
const NO_MEMORY: &[u8] = b"-OOM memory was refused for one more client: try again\r\n";

const LISTENER: Token = Token(0);
/// How long no connection is accepted after the system had no room for one.
const PAUSE: Duration = Duration::from_millis(20);
/// How long no connection is accepted while all threads have enough to look at.
const BREATH: Duration = Duration::from_millis(1);
/// The least time between two log lines about connections that aren't accepted.
const SILENCE: Duration = Duration::from_secs(10);

/// Accepts connections, and gives them to the threads in turn.
#[derive(Debug)]
pub struct Acceptor {
    cluster: Arc<Cluster>,
    listener: TcpListener,
    poll: Poll,
    waker: Arc<Waker>,
    turn: usize,
}

impl Acceptor {
    /// Listens at this address. Clients that connect wait until there is an acceptor.
    pub fn bind(address: SocketAddr) -> io::Result<TcpListener> {
        TcpListener::bind(address)
    }

    /// Makes an acceptor of the clients that connect to this listener.
    pub fn new(cluster: Arc<Cluster>, mut listener: TcpListener) -> io::Result<Acceptor> {
        let poll = Poll::new()?;
        poll.registry()
            .register(&mut listener, LISTENER, Interest::READABLE)?;
        let waker = Arc::new(Waker::new(poll.registry(), WAKE)?);
        let turn = 0;
        cluster.begin_to_accept();
        Ok(Acceptor {
            cluster,
            listener,
            poll,
            waker,
            turn,
        })
    }

    /// Returns the address at which it listens.
    pub fn address(&self) -> io::Result<SocketAddr> {
        self.listener.local_addr()
    }

    /// Returns the waker that wakes it when the cluster stops.
    pub fn waker(&self) -> Arc<Waker> {
        self.waker.clone()
    }

    /// Accepts connections until the cluster stops, and then those that the system holds, but no longer than the grace
    /// period.
    pub fn run(mut self) {
        let mut events = Events::with_capacity(8);
        let (mut timeout, mut said) = (None, None);
        while !self.cluster.is_stopping() {
            match self.poll.poll(&mut events, timeout) {
                Err(error) if error.kind() != ErrorKind::Interrupted => {
                    tracing::error!(%error, "nothing more is accepted");
                    return;
                }
                _ => {}
            }
            // The event comes only once, so connections that a full system left are tried again later.
            timeout = self.accept_all().err().map(|error| {
                if said.is_none_or(|it: Instant| it.elapsed() >= SILENCE) {
                    tracing::warn!(%error, "connections aren't accepted for now");
                    said = Some(Instant::now());
                }
                std::thread::sleep(PAUSE);
                PAUSE
            });
        }
        // A client that connected before the stop may have sent something, which is answered.
        if let Err(error) = self.accept_all() {
            tracing::warn!(%error, "a connection that came before the stop isn't accepted");
        }
    }

    /// Accepts the connections that wait. During a stop it does so no longer than the grace period.
    fn accept_all(&mut self) -> io::Result<()> {
        let mut end = None;
        while end.is_none_or(|it| Instant::now() < it) {
            if end.is_none() && self.cluster.is_stopping() {
                end = Some(Instant::now() + self.cluster.configuration.grace);
            }
            let Some(inlet) = self.next_inlet() else {
                // The system holds the clients that connect meanwhile.
                std::thread::sleep(BREATH);
                continue;
            };
            match self.listener.accept() {
                Ok((stream, from)) => self.hand_on(stream, from, &inlet),
                Err(error) if error.kind() == ErrorKind::WouldBlock => break,
                Err(error) if is_of_the_client(&error) => {}
                Err(error) => return Err(error),
            }
        }
        Ok(())
    }

    /// Returns the inlet of the next thread in turn that doesn't have enough to look at; or nothing if all have.
    fn next_inlet(&mut self) -> Option<Arc<Inlet>> {
        let inlets = self.cluster.inlets();
        let turns = (1..=inlets.len()).map(|it| (self.turn + it) % inlets.len());
        self.turn = turns.into_iter().find(|it| !inlets[*it].is_full())?;
        Some(inlets[self.turn].clone())
    }

    fn hand_on(&self, socket: TcpStream, from: SocketAddr, inlet: &Inlet) {
        if !self.cluster.takes_client() {
            // With TLS nothing can be told yet.
            if self.cluster.configuration.safety.tls.is_none() {
                Stream::Plain(socket).refuse();
            }
            return;
        }
        if memory::has_room(ROOM_OF_CLIENT).is_err() {
            if self.cluster.configuration.safety.tls.is_none() {
                Stream::Plain(socket).refuse_for(NO_MEMORY);
            }
            return;
        }
        if let Some(mut first) = inlet.bring(socket, from, self.cluster.now()) {
            first.refuse();
        }
    }
}

impl Drop for Acceptor {
    fn drop(&mut self) {
        self.cluster.end_to_accept();
    }
}

fn is_of_the_client(error: &io::Error) -> bool {
    matches!(
        error.kind(),
        ErrorKind::ConnectionAborted | ErrorKind::ConnectionReset | ErrorKind::Interrupted
    )
}

#[cfg(test)]
mod tests {
    use super::*;
    use crate::configuration::Configuration;
    use crate::io::Inlet;
    use crate::keyspace::Rule;

    /// Makes an acceptor that gives at most so many connections to two threads.
    fn begun(most_clients: usize) -> (Acceptor, [Arc<Inlet>; 2]) {
        let configuration = Configuration {
            most_clients,
            ..Configuration::new(Rule::Hash(1))
        };
        let cluster = Arc::new(Cluster::in_memory(configuration).unwrap());
        let polls = [Poll::new().unwrap(), Poll::new().unwrap()];
        let inlets = polls.each_ref().map(|it| Inlet::new(it, 1).map(Arc::new));
        let inlets = inlets.map(Result::unwrap);
        cluster.set_inlets(inlets.clone().into());
        let listener = Acceptor::bind("127.0.0.1:0".parse().unwrap()).unwrap();
        (Acceptor::new(cluster, listener).unwrap(), inlets)
    }

    /// Makes so many clients that connect.
    fn clients(acceptor: &Acceptor, count: usize) -> Vec<std::net::TcpStream> {
        let address = acceptor.address().unwrap();
        let client = |_| std::net::TcpStream::connect(address).unwrap();
        (0..count).map(client).collect()
    }

    /// Returns how many connections were given to the threads.
    fn brought(inlets: &[Arc<Inlet>]) -> usize {
        inlets.iter().map(|it| it.take().streams.len()).sum()
    }

    #[test]
    fn a_burst_is_bounded_before_any_of_it_is_looked_at() {
        let (mut acceptor, inlets) = begun(3);
        let clients = clients(&acceptor, 10);
        acceptor.accept_all().unwrap();
        assert_eq!(brought(&inlets), 3, "of {}", clients.len());
    }

    #[test]
    fn who_connected_before_a_stop_is_brought_to_threads_that_wait_for_that() {
        let (acceptor, inlets) = begun(100);
        let (cluster, clients) = (acceptor.cluster.clone(), clients(&acceptor, 10));
        assert!(cluster.is_accepting());
        cluster.stop();
        acceptor.run();
        assert!(!cluster.is_accepting());
        assert_eq!(brought(&inlets), clients.len());
    }
}
