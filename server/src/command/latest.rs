use std::collections::VecDeque;

/// How far a SCAN has come: to this shard, behind this key of it, if it has given one.
#[derive(Clone, Debug, Default, PartialEq, Eq)]
pub struct Position {
    /// The shard with which it goes on.
    pub shard: u16,
    /// The last key that was given.
    pub after: Option<Box<[u8]>>,
}

/// The latest positions with their cursors, which ascend.
#[derive(Debug, Default)]
pub(super) struct Latest(VecDeque<(u64, Position)>);

impl Latest {
    /// Adds a position with a greater cursor. If there would be more than `most`, forgets the oldest.
    pub(super) fn add(&mut self, cursor: u64, position: Position, most: usize) {
        if self.0.len() == most {
            self.0.pop_front();
        }
        self.0.push_back((cursor, position));
    }

    /// Returns the position of the cursor, if it is known.
    pub(super) fn position(&self, cursor: u64) -> Option<Position> {
        let index = self.0.binary_search_by_key(&cursor, |it| it.0).ok()?;
        Some(self.0[index].1.clone())
    }
}
