use crate::resp::Replies;

/// A key and its value, as a client reads them.
pub(super) type OwnedPair = (Box<[u8]>, Box<[u8]>);

/// The first pairs of several shards, in the order of their keys.
#[derive(Debug)]
pub(super) struct Merged {
    most: usize,
    pairs: Vec<OwnedPair>,
}

impl Merged {
    /// Makes an empty list for at most so many pairs.
    pub(super) fn new(most: usize) -> Merged {
        let pairs = Vec::new();
        Merged { most, pairs }
    }

    /// Returns the most pairs that are wanted.
    pub(super) fn most(&self) -> usize {
        self.most
    }

    /// Returns whether there are as many pairs as wanted.
    pub(super) fn is_full(&self) -> bool {
        self.pairs.len() >= self.most
    }

    /// Returns the key below which the pairs of a further shard must lie, if it isn't `high`.
    pub(super) fn below(&self, high: Option<&[u8]>) -> Option<Box<[u8]>> {
        let last = self.pairs.last().filter(|_| self.is_full());
        last.map(|it| it.0.clone()).or(high.map(Into::into))
    }

    /// Adds the pairs of a shard.
    pub(super) fn add(&mut self, pairs: Vec<OwnedPair>) {
        self.pairs.extend(pairs);
        self.pairs.sort_unstable();
        self.pairs.truncate(self.most);
    }

    /// Writes the answer.
    pub(super) fn answer(&self, replies: &mut Replies) {
        replies.array(2 * self.pairs.len());
        for (key, value) in &self.pairs {
            replies.bulk(key);
            replies.bulk(value);
        }
    }
}
