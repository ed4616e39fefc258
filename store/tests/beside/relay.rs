use std::io::{Read, Write};
use std::net::{Shutdown, TcpListener, TcpStream};
use std::sync::atomic::{AtomicUsize, Ordering};
use std::sync::{Arc, Mutex, PoisonError};
use std::thread;
use std::time::Duration;

/// Passes on the bytes that are sent to a member, and can hold them back.
pub struct Relay {
    pub endpoint: String,
    callers: Arc<AtomicUsize>,
    /// The connections that go on. None can begin while there is no list.
    connections: Connections,
}

/// Both ends of connections.
type Connections = Arc<Mutex<Option<Vec<TcpStream>>>>;

impl Relay {
    /// Makes a relay before the member at this address.
    pub fn before(endpoint: &str) -> Relay {
        Relay::slow(endpoint, |_| Duration::ZERO)
    }

    /// Makes a relay that passes on nothing from a caller for so long, by how many came before.
    pub fn slow(endpoint: &str, delay: fn(usize) -> Duration) -> Relay {
        let listener = TcpListener::bind(("127.0.0.1", 0)).expect("a port");
        let own = listener.local_addr().expect("its address");
        let member = endpoint.trim_start_matches("http://").to_owned();
        let callers = Arc::new(AtomicUsize::new(0));
        let connections: Connections = Arc::new(Mutex::new(Some(Vec::new())));
        let (counted, going_on) = (Arc::clone(&callers), Arc::clone(&connections));
        thread::spawn(move || {
            for client in listener.incoming() {
                let client = client.expect("a caller");
                match &mut *going_on.lock().unwrap_or_else(PoisonError::into_inner) {
                    Some(list) => list.push(client.try_clone().expect("it")),
                    None => continue,
                }
                let delay = delay(counted.fetch_add(1, Ordering::Relaxed));
                let member = TcpStream::connect(&member).expect("it listens");
                let (back, to) = (member.try_clone().expect("it"), client.try_clone());
                let to = to.expect("it");
                thread::spawn(move || {
                    thread::sleep(delay);
                    pass(client, member);
                });
                thread::spawn(move || pass(back, to));
            }
        });
        let endpoint = format!("http://{own}");
        Relay {
            endpoint,
            callers,
            connections,
        }
    }

    /// Ends all connections, and takes no others until it is mended.
    pub fn cut(&self) {
        let mut connections = self
            .connections
            .lock()
            .unwrap_or_else(PoisonError::into_inner);
        for it in connections.take().into_iter().flatten() {
            // A connection that has ended already stays so.
            let _ = it.shutdown(Shutdown::Both);
        }
    }

    /// Takes connections again.
    pub fn mend(&self) {
        let mut connections = self
            .connections
            .lock()
            .unwrap_or_else(PoisonError::into_inner);
        connections.get_or_insert_with(Vec::new);
    }

    /// Returns how many callers came.
    pub fn callers(&self) -> usize {
        self.callers.load(Ordering::Relaxed)
    }
}

/// Passes on all bytes, until either end hangs up.
fn pass(mut from: TcpStream, mut to: TcpStream) {
    let mut some = [0; 4_096];
    while let Ok(length @ 1..) = from.read(&mut some) {
        if to.write_all(&some[..length]).is_err() {
            break;
        }
    }
    let _ = to.shutdown(Shutdown::Both);
    let _ = from.shutdown(Shutdown::Both);
}
