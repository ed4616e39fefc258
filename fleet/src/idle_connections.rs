use std::collections::HashMap;
use std::thread::{self, ThreadId};

/// The most connections to a server that are kept.
const EACH: usize = 64;
/// The most servers that have such connections.
const SERVERS: usize = 4_096;

thread_local! {
    static OWN: ThreadId = thread::current().id();
}

/// A connection that may be kept for the next calls.
pub(crate) trait Quiet {
    /// Returns whether no unread bytes have come, and the connection hasn't ended.
    fn is_quiet(&self) -> bool;
}

/// Connections that are kept for the next calls, by the address of the server. A server that is started again may have
/// another address each time. So connections to addresses that are no longer called are dropped.
pub(crate) struct IdleConnections<C> {
    by_address: HashMap<String, Kept<C>>,
    /// How often a connection was kept.
    count: u64,
}

struct Kept<C> {
    /// Each connection, with the thread that kept it.
    connections: Vec<(ThreadId, C)>,
    /// The value of the count when a connection was kept last.
    last: u64,
}

impl<C> Default for IdleConnections<C> {
    fn default() -> IdleConnections<C> {
        let by_address = HashMap::new();
        IdleConnections {
            by_address,
            count: 0,
        }
    }
}

impl<C: Quiet> IdleConnections<C> {
    /// Keeps the connection to the server at this address, if fewer than [`EACH`] are kept.
    pub(crate) fn keep(&mut self, address: &str, connection: C) {
        self.count += 1;
        let (connection, last) = ((OWN.with(|it| *it), connection), self.count);
        if let Some(kept) = self.by_address.get_mut(address) {
            kept.last = last;
            if kept.connections.len() < EACH {
                kept.connections.push(connection);
            }
            return;
        }
        self.make_room();
        let connections = vec![connection];
        let kept = Kept { connections, last };
        self.by_address.insert(address.to_owned(), kept);
    }

    /// Takes the connection to the server at this address that this thread kept last, so that the threads of both sides
    /// stay together. If there is none, takes the connection that any thread kept last.
    pub(crate) fn take(&mut self, address: &str) -> Option<C> {
        let connections = &mut self.by_address.get_mut(address)?.connections;
        let own = OWN.with(|it| *it);
        let taken = match connections.iter().rposition(|it| it.0 == own) {
            Some(at) => Some(connections.remove(at)),
            None => connections.pop(),
        };
        taken.map(|it| it.1)
    }

    /// Drops the connections that servers have closed. If the number of servers is at its limit, drops all connections
    /// to the server that wasn't called for the longest time.
    fn make_room(&mut self) {
        for kept in self.by_address.values_mut() {
            kept.connections.retain(|it| it.1.is_quiet());
        }
        if self.by_address.len() < SERVERS {
            return;
        }
        let oldest = self.by_address.iter().min_by_key(|it| it.1.last);
        if let Some(address) = oldest.map(|it| it.0.clone()) {
            self.by_address.remove(&address);
        }
    }
}

#[cfg(test)]
mod tests {
    use super::*;
    use std::cell::Cell;
    use std::rc::Rc;
    use std::sync::Mutex;

    /// A connection with this number, until the server closes it.
    struct Numbered(usize, Rc<Cell<bool>>);

    impl Quiet for Numbered {
        fn is_quiet(&self) -> bool {
            !self.1.get()
        }
    }

    /// A connection with this number that nobody closes.
    struct Plain(usize);

    impl Quiet for Plain {
        fn is_quiet(&self) -> bool {
            true
        }
    }

    #[test]
    fn connections_are_bounded_by_server_and_the_one_kept_last_is_taken_first() {
        let (mut idle, open) = (IdleConnections::default(), Rc::new(Cell::new(false)));
        for number in 0..EACH + 3 {
            idle.keep("a", Numbered(number, open.clone()));
        }
        let taken = std::iter::from_fn(|| idle.take("a").map(|it| it.0));
        assert!(taken.eq((0..EACH).rev()));
        assert!(idle.take("b").is_none());
    }

    #[test]
    fn a_thread_takes_its_own_connection_first_and_else_that_of_another() {
        let idle = Mutex::new(IdleConnections::default());
        let keep = |number| idle.lock().unwrap().keep("a", Plain(number));
        let take = || idle.lock().unwrap().take("a").map(|it| it.0);
        keep(1);
        let taken = thread::scope(|scope| {
            scope.spawn(|| (2..4).for_each(keep)).join().unwrap();
            scope.spawn(take).join().unwrap()
        });
        assert_eq!(taken, Some(3));
        assert_eq!([take(), take(), take()], [Some(1), Some(2), None]);
    }

    #[test]
    fn addresses_that_are_not_called_any_more_are_forgotten() {
        let (mut idle, open) = (IdleConnections::default(), Rc::new(Cell::new(false)));
        let closed = Rc::new(Cell::new(false));
        idle.keep("closed", Numbered(0, closed.clone()));
        idle.keep("used", Numbered(0, open.clone()));
        closed.set(true);
        let last = SERVERS + 9;
        for number in 0..=last {
            let used = idle.take("used").expect("it is called all the time");
            idle.keep("used", used);
            idle.keep(&number.to_string(), Numbered(number, open.clone()));
            assert!(idle.by_address.len() <= SERVERS);
            assert!(idle.take("closed").is_none());
        }
        assert!(!idle.by_address.contains_key("closed") && !idle.by_address.contains_key("0"));
        assert_eq!(idle.take(&last.to_string()).map(|it| it.0), Some(last));
    }
}
