use super::latest::{Latest, Position};
use std::hash::{BuildHasher, Hasher, RandomState};
use std::sync::{Arc, Mutex, PoisonError};

/// How many cursors of all connections are remembered at a time. Older ones are forgotten.
const MOST: usize = 4_096;
/// How many cursors of each connection are remembered besides.
const MOST_OWN: usize = 16;

/// The first cursor is below this number. Then later cursors stay below 2^53, because some clients know no greater
/// numbers.
const MOST_FIRST: u64 = 1 << 52;

/// The positions of SCAN's cursors. Redis' cursors are numbers, but the position in an ordered map is a key, so the
/// server remembers which number stands for which position.
#[derive(Debug)]
pub struct Cursors {
    known: Mutex<Known>,
    /// Whether other processes give cursors too. If so, a cursor that this process didn't give may be known there.
    has_others: bool,
}

#[derive(Debug)]
struct Known {
    /// The first cursor is the next one.
    first: u64,
    last: u64,
    latest: Latest,
}

impl Default for Cursors {
    /// Makes the cursors of a process that has given none. The first number is random, so that a cursor of another
    /// process, or of an earlier run of this server, is hardly ever taken for one of these.
    fn default() -> Cursors {
        let by_chance = RandomState::new().build_hasher().finish();
        let (first, latest) = (by_chance % MOST_FIRST, Latest::default());
        let last = first;
        Cursors {
            known: Mutex::new(Known {
                first,
                last,
                latest,
            }),
            has_others: false,
        }
    }
}

/// The cursors that a connection was given last. Cursors of other connections don't push them out.
#[derive(Clone, Debug, Default)]
pub struct OwnCursors(Arc<Mutex<Latest>>);

impl Cursors {
    /// Makes the cursors of one of several processes.
    pub fn among_others() -> Cursors {
        Cursors {
            has_others: true,
            ..Cursors::default()
        }
    }

    /// Returns a new cursor, which isn't 0, at this position, for the connection with these cursors.
    pub fn keep(&self, position: Position, own: &OwnCursors) -> u64 {
        let mut known = self.known.lock().unwrap_or_else(PoisonError::into_inner);
        known.last += 1;
        let cursor = known.last;
        known.latest.add(cursor, position.clone(), MOST);
        drop(known);
        let mut own = own.0.lock().unwrap_or_else(PoisonError::into_inner);
        own.add(cursor, position, MOST_OWN);
        cursor
    }

    /// Returns the position of the cursor, for the connection with these cursors. Cursor 0 is at the beginning. So is a
    /// cursor that was never given, because Redis takes any number. A cursor that was forgotten has no position:
    /// otherwise a slow client's scan would never end. If there are other processes, a cursor that this process didn't
    /// give has no position either: otherwise the scan of a client that asks the processes in turn would never end.
    pub fn position(&self, cursor: u64, own: &OwnCursors) -> Option<Position> {
        if cursor == 0 {
            return Some(Position::default());
        }
        let own = own.0.lock().unwrap_or_else(PoisonError::into_inner);
        own.position(cursor).or_else(|| {
            let known = self.known.lock().unwrap_or_else(PoisonError::into_inner);
            let was_given = known.first < cursor && cursor <= known.last;
            let anew = (!was_given && !self.has_others).then(Position::default);
            known.latest.position(cursor).or(anew)
        })
    }
}

#[cfg(test)]
mod tests {
    use super::*;

    fn position(shard: u16) -> Position {
        Position { shard, after: None }
    }

    #[test]
    fn the_newest_cursors_are_known_to_all() {
        let (cursors, one, other) = (
            Cursors::default(),
            OwnCursors::default(),
            OwnCursors::default(),
        );
        let first = cursors.keep(position(0), &one);
        for shard in 1..=MOST as u16 {
            cursors.keep(position(shard), &one);
        }
        assert_eq!(cursors.position(0, &other), Some(position(0)));
        assert_eq!(cursors.position(first, &other), None);
        assert_eq!(cursors.position(first + 1, &other), Some(position(1)));
        assert_eq!(cursors.position(first + 9_999, &other), Some(position(0)));
        assert_eq!(cursors.position(first - 1, &other), Some(position(0)));
    }

    #[test]
    fn a_connection_keeps_its_own() {
        let (cursors, one, other) = (
            Cursors::default(),
            OwnCursors::default(),
            OwnCursors::default(),
        );
        let first = cursors.keep(position(0), &one);
        for shard in 1..=MOST_OWN as u16 {
            cursors.keep(position(shard), &one);
        }
        for _ in 0..MOST {
            cursors.keep(position(9), &other);
        }
        assert_eq!(cursors.position(first, &one), None);
        assert_eq!(cursors.position(first + 1, &one), Some(position(1)));
        assert_eq!(cursors.position(first + 1, &other), None);
    }

    #[test]
    fn those_of_another_process_are_none_here() {
        let (here, there) = (Cursors::among_others(), Cursors::among_others());
        let own = OwnCursors::default();
        let (mut given, mut taken) = (Vec::new(), Vec::new());
        for shard in 0..100 {
            given.push(there.keep(position(shard), &own));
            taken.push(here.keep(position(shard), &OwnCursors::default()));
        }
        assert!(given
            .iter()
            .chain(&taken)
            .all(|it| (1..1 << 53).contains(it)));
        let own = OwnCursors::default();
        assert!(given.iter().all(|it| here.position(*it, &own).is_none()));
        assert!(taken.iter().all(|it| here.position(*it, &own).is_some()));
    }
}
