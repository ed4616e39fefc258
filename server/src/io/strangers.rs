use std::collections::{BTreeMap, BTreeSet};

/// The place of a stranger that was met.
#[derive(Clone, Copy, Debug, PartialEq, Eq)]
pub(super) enum Whereabouts {
    /// At this place of the handshake thread.
    Handshake(usize),
    /// On the way from there to the thread that owns connections.
    Between,
    /// At this place of that thread.
    Connection(usize),
}

/// Clients that were met by a thread, or by its handshake thread, and haven't logged in yet. They are sorted by the
/// numbers of their connections, which ascend as they come.
#[derive(Debug, Default)]
pub(super) struct Strangers {
    met: BTreeMap<u64, Whereabouts>,
    /// The strangers that gave way, and that the thread that owns connections hasn't closed yet.
    leaving: BTreeSet<u64>,
}

impl Strangers {
    /// Adds a client that was met at this place.
    pub(super) fn add(&mut self, id: u64, at: Whereabouts) {
        self.met.insert(id, at);
    }

    /// Notes that a client is at this place now. Returns whether it may stay: false if it gave way meanwhile.
    pub(super) fn note_moved(&mut self, id: u64, at: Whereabouts) -> bool {
        let found = self.met.get_mut(&id);
        found.map(|it| *it = at).is_some()
    }

    /// Notes that a client has logged in, or left.
    pub(super) fn remove(&mut self, id: u64) {
        self.met.remove(&id);
        self.leaving.remove(&id);
    }

    /// If there are `most` or more, makes the one that came first give way, and returns it. Its owner must close it.
    pub(super) fn give_way(&mut self, most: usize) -> Option<(u64, Whereabouts)> {
        if self.met.len() < most {
            return None;
        }
        let (id, at) = self.met.pop_first()?;
        match at {
            // The caller closes it at once.
            Whereabouts::Handshake(_) => {}
            Whereabouts::Between | Whereabouts::Connection(_) => {
                self.leaving.insert(id);
            }
        }
        Some((id, at))
    }

    /// Returns how many gave way and aren't closed yet.
    pub(super) fn leaving(&self) -> usize {
        self.leaving.len()
    }

    /// Returns the places of strangers with connections, in the order in which they came.
    pub(super) fn connections(&self) -> Vec<usize> {
        let places = self.met.values().filter_map(|it| match it {
            Whereabouts::Connection(place) => Some(*place),
            Whereabouts::Handshake(_) | Whereabouts::Between => None,
        });
        places.collect()
    }
}

#[cfg(test)]
mod tests {
    use super::*;
    use Whereabouts::{Between, Connection, Handshake};

    #[test]
    fn who_came_first_gives_way_wherever_it_is() {
        let mut strangers = Strangers::default();
        (0..4).for_each(|it| strangers.add(10 + it, Handshake(it as usize)));
        assert!(strangers.note_moved(11, Connection(7)));
        assert!(strangers.note_moved(12, Between));
        assert_eq!(strangers.connections(), [7]);
        assert_eq!(strangers.give_way(5), None);
        assert_eq!(strangers.give_way(4), Some((10, Handshake(0))));
        assert_eq!(strangers.give_way(3), Some((11, Connection(7))));
        assert_eq!(strangers.give_way(2), Some((12, Between)));
        assert_eq!(strangers.give_way(2), None);
        // The thread that owns connections doesn't take a client that gave way on its way there.
        assert!(!strangers.note_moved(12, Connection(8)));
        assert!(strangers.note_moved(13, Connection(8)));
    }

    #[test]
    fn who_gives_way_holds_a_place_until_it_is_closed() {
        let mut strangers = Strangers::default();
        strangers.add(1, Connection(0));
        strangers.add(2, Between);
        strangers.add(3, Handshake(0));
        while strangers.give_way(1).is_some() {}
        assert_eq!(strangers.leaving(), 2);
        (1..3).for_each(|it| strangers.remove(it));
        assert_eq!(strangers.leaving(), 0);
    }

    #[test]
    fn who_has_shown_who_it_is_gives_way_to_nobody() {
        let mut strangers = Strangers::default();
        strangers.add(1, Connection(0));
        strangers.add(2, Connection(1));
        strangers.remove(1);
        assert_eq!(strangers.give_way(1), Some((2, Connection(1))));
        assert_eq!(strangers.give_way(1), None);
    }
}
