use crate::{KeyChange, Reading, Revision, Seen, Watcher};

/// The watchers of an embedded store.
#[derive(Default)]
pub(super) struct Watchers(Vec<(u64, Vec<u8>, Watcher)>);

impl Watchers {
    /// Adds a watcher, and tells it the present pairs.
    pub(super) fn add(
        &mut self,
        number: u64,
        prefix: Vec<u8>,
        mut watcher: Watcher,
        reading: Reading,
    ) {
        watcher(Seen::All(reading));
        self.0.push((number, prefix, watcher));
    }

    /// Drops a watcher.
    pub(super) fn remove(&mut self, number: u64) {
        self.0.retain(|(it, ..)| *it != number);
    }

    /// Tells each watcher the changes of its keys.
    pub(super) fn tell(&mut self, moment: Revision, changes: &[KeyChange]) {
        for (_, prefix, watcher) in &mut self.0 {
            let of_it: Vec<_> = changes
                .iter()
                .filter(|it| it.key.starts_with(prefix))
                .cloned()
                .collect();
            if !of_it.is_empty() {
                watcher(Seen::Changes(moment, of_it));
            }
        }
    }
}
