use std::sync::atomic::{AtomicBool, AtomicUsize, Ordering};

/// The shards whose requests wait because the store gave nothing when the shards were last read. It is updated as
/// shards change, so that looking at it locks none of them.
pub(crate) struct UnreadShards {
    each: Box<[AtomicBool]>,
    count: AtomicUsize,
}

impl UnreadShards {
    /// Makes the list of so many shards, none of which is unread.
    pub(super) fn new(shards: u16) -> UnreadShards {
        UnreadShards {
            each: (0..shards).map(|_| AtomicBool::new(false)).collect(),
            count: AtomicUsize::new(0),
        }
    }

    /// Notes whether the shard is unread. The caller must hold the shard's lock, so that notes are made in the order of
    /// the changes.
    pub(super) fn note(&self, shard: u16, is_unread: bool) {
        let each = &self.each[usize::from(shard)];
        if each.load(Ordering::Relaxed) == is_unread {
            return;
        }
        each.store(is_unread, Ordering::Release);
        match is_unread {
            true => self.count.fetch_add(1, Ordering::AcqRel),
            false => self.count.fetch_sub(1, Ordering::AcqRel),
        };
    }

    /// Returns how many there are.
    pub(super) fn count(&self) -> usize {
        self.count.load(Ordering::Acquire)
    }

    /// Returns their numbers.
    pub(super) fn numbers(&self) -> Vec<u16> {
        if self.count() == 0 {
            return Vec::new();
        }
        // Shards are numbered with this type.
        let numbered = (0..).zip(self.each.iter());
        let unread = numbered.filter(|it| it.1.load(Ordering::Acquire));
        unread.map(|it| it.0).collect()
    }
}

#[cfg(test)]
mod tests {
    use super::*;

    #[test]
    fn each_shard_counts_once() {
        let unread = UnreadShards::new(3);
        let note = |noted: &[(u16, bool)]| {
            noted.iter().for_each(|it| unread.note(it.0, it.1));
            (unread.count(), unread.numbers())
        };
        assert_eq!(note(&[(1, false)]), (0, vec![]));
        assert_eq!(note(&[(2, true), (2, true), (0, true)]), (2, vec![0, 2]));
        assert_eq!(note(&[(0, false), (0, false)]), (1, vec![2]));
        assert_eq!(note(&[(2, false)]), (0, vec![]));
    }
}
