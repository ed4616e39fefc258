use crate::{LeaseId, Reading, Revision, Room};

/// A key whose revision must be the one that was read.
#[derive(Clone, Debug, PartialEq, Eq)]
pub struct Compare {
    /// The key.
    pub key: Vec<u8>,
    /// The revision at which it was read, or [`Revision::NEVER`] if it didn't exist.
    pub revision: Revision,
}

/// A write of a key.
#[derive(Clone, Debug, PartialEq, Eq)]
pub struct Put {
    /// The key.
    pub key: Vec<u8>,
    /// Its value.
    pub value: Vec<u8>,
    /// The lease whose end deletes it.
    pub lease: Option<LeaseId>,
}

/// Writes that are made as a whole if all compares hold, and otherwise not at all.
///
/// No key may be written or deleted twice in it.
#[derive(Clone, Debug, Default, PartialEq, Eq)]
pub struct Transaction {
    /// The compares that must hold.
    pub compares: Vec<Compare>,
    /// The writes that are then made.
    pub puts: Vec<Put>,
    /// The deletions that are then made. A key that doesn't exist may be deleted.
    pub deletes: Vec<Vec<u8>>,
    /// The keys that are read if a compare doesn't hold.
    pub reads: Vec<Vec<u8>>,
    /// The room that the writes may use.
    pub room: Room,
}

impl Transaction {
    /// Makes an empty transaction.
    pub fn new() -> Transaction {
        Transaction::default()
    }

    /// Compares a key.
    pub fn compare(mut self, key: impl Into<Vec<u8>>, revision: Revision) -> Transaction {
        self.compares.push(Compare {
            key: key.into(),
            revision,
        });
        self
    }

    /// Writes a key.
    pub fn put(self, key: impl Into<Vec<u8>>, value: impl Into<Vec<u8>>) -> Transaction {
        self.put_under(key, value, None)
    }

    /// Writes a key that the lease's end deletes.
    pub fn put_under(
        mut self,
        key: impl Into<Vec<u8>>,
        value: impl Into<Vec<u8>>,
        lease: Option<LeaseId>,
    ) -> Transaction {
        self.puts.push(Put {
            key: key.into(),
            value: value.into(),
            lease,
        });
        self
    }

    /// Deletes a key.
    pub fn delete(mut self, key: impl Into<Vec<u8>>) -> Transaction {
        self.deletes.push(key.into());
        self
    }

    /// Reads a key if a compare doesn't hold.
    pub fn or_read(mut self, key: impl Into<Vec<u8>>) -> Transaction {
        self.reads.push(key.into());
        self
    }

    /// Lets it use the store's reserve.
    pub fn with_kept_room(mut self) -> Transaction {
        self.room = Room::KeptBack;
        self
    }

    /// Returns the room that it may use. A transaction that only deletes makes room.
    pub fn room(&self) -> Room {
        match self.puts.is_empty() {
            true => Room::KeptBack,
            false => self.room,
        }
    }

    /// Returns how many bytes it writes.
    pub(crate) fn bytes(&self) -> usize {
        let puts = self.puts.iter();
        puts.map(|it| it.key.len() + it.value.len()).sum()
    }

    /// Returns whether it writes or deletes anything when it is made.
    pub fn writes(&self) -> bool {
        !(self.puts.is_empty() && self.deletes.is_empty())
    }
}

/// The outcome of a transaction.
#[derive(Clone, Debug, PartialEq, Eq)]
pub enum Outcome {
    /// It was made. This is the store's revision then, which is the revision of its writes.
    Made(Revision),
    /// A compare didn't hold, so nothing was written. This is the reading of the keys that it asked for.
    Lost(Reading),
}
