use std::collections::VecDeque;
use std::net::SocketAddr;
use std::time::Instant;

/// A connection that was accepted, and that no thread has met yet.
#[derive(Debug)]
pub(super) struct Arrived<S> {
    /// The stream of its bytes so far.
    pub(super) stream: S,
    /// The address from which its client connects.
    pub(super) from: SocketAddr,
    /// When its client connected.
    pub(super) since: Instant,
    /// A number that only this connection has. Later connections have higher ones.
    pub(super) id: u64,
}

impl<S> Arrived<S> {
    /// Returns the same connection with another stream.
    pub(super) fn by<T>(self, stream: impl FnOnce(S) -> T) -> Arrived<T> {
        let Arrived {
            stream: before,
            from,
            since,
            id,
        } = self;
        let stream = stream(before);
        Arrived {
            stream,
            from,
            since,
            id,
        }
    }

    /// Puts the connection last into this queue. If there would be more than `most`, returns the first one, which gives
    /// way.
    pub(super) fn wait_in(
        self,
        queue: &mut VecDeque<Arrived<S>>,
        most: Option<usize>,
    ) -> Option<Arrived<S>> {
        let is_full = most.is_some_and(|most| queue.len() >= most);
        let first = is_full.then(|| queue.pop_front()).flatten();
        queue.push_back(self);
        first
    }
}
