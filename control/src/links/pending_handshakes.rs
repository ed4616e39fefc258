use super::links_inner::locked;
use super::Closer;
use std::collections::VecDeque;
use std::fmt;
use std::sync::{Arc, Mutex};

/// How many connections may be in their handshakes.
pub(super) const MOST: usize = 64;

/// Connections that haven't shown yet that they come from the cluster. They have their own places. If there are too
/// many, the one that has taken longest is ended. So nobody can keep processes apart by saying nothing.
pub struct PendingHandshakes {
    most: usize,
    state: Mutex<HandshakesState>,
}

#[derive(Default)]
struct HandshakesState {
    waiting: VecDeque<(u64, Arc<dyn Closer>)>,
    last: u64,
    /// How many there are, including those that were ended and haven't noticed yet.
    count: usize,
}

/// One of them, until it is dropped.
pub struct PendingHandshake {
    handshakes: Arc<PendingHandshakes>,
    number: u64,
}

impl PendingHandshakes {
    /// Makes places for so many at once.
    pub fn new(most: usize) -> PendingHandshakes {
        let state = Mutex::default();
        PendingHandshakes { most, state }
    }

    /// Takes one more, whose connection this ends. Returns nothing if as many were ended and haven't gone yet.
    pub fn take(self: &Arc<PendingHandshakes>, end: Arc<dyn Closer>) -> Option<PendingHandshake> {
        let mut state = locked(&self.state);
        if state.count >= 2 * self.most {
            return None;
        }
        if state.waiting.len() >= self.most {
            let first = state.waiting.pop_front();
            first.iter().for_each(|it| it.1.end());
        }
        state.last += 1;
        state.count += 1;
        let number = state.last;
        state.waiting.push_back((number, end));
        Some(PendingHandshake {
            handshakes: self.clone(),
            number,
        })
    }
}

impl Drop for PendingHandshake {
    fn drop(&mut self) {
        let mut state = locked(&self.handshakes.state);
        state.count -= 1;
        state.waiting.retain(|it| it.0 != self.number);
    }
}

impl fmt::Debug for PendingHandshakes {
    fn fmt(&self, f: &mut fmt::Formatter<'_>) -> fmt::Result {
        f.debug_struct("PendingHandshakes")
            .field("most", &self.most)
            .finish_non_exhaustive()
    }
}

impl fmt::Debug for PendingHandshake {
    fn fmt(&self, f: &mut fmt::Formatter<'_>) -> fmt::Result {
        f.debug_struct("PendingHandshake")
            .field("number", &self.number)
            .finish_non_exhaustive()
    }
}

#[cfg(test)]
mod tests {
    use super::super::trial::TestCloser;
    use super::*;

    #[test]
    fn who_comes_takes_the_place_of_who_has_taken_longest() {
        let handshakes = Arc::new(PendingHandshakes::new(MOST));
        let come = || {
            let closer = Arc::new(TestCloser::default());
            (handshakes.take(closer.clone()), closer)
        };
        let mut came: Vec<_> = (0..2 * MOST).map(|_| come()).collect();
        let is_ended = |it: &(Option<PendingHandshake>, Arc<TestCloser>)| it.1.is_ended();
        assert!(came[..MOST].iter().all(is_ended));
        assert!(!came[MOST..].iter().any(is_ended));
        // The ended ones haven't gone yet.
        assert!(come().0.is_none());
        came.drain(..MOST);
        came.push(come());
        assert!(came[MOST].0.is_some() && is_ended(&came[0]) && !is_ended(&came[1]));
        // One that has greeted leaves room.
        came[1].0 = None;
        came.push(come());
        assert!(!is_ended(&came[1]) && !is_ended(&came[2]));
    }
}
