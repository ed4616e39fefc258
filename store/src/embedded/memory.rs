use super::tables::{TableFailure, Tables};
use crate::{LeaseId, Pair, Revision, Room};
use std::collections::BTreeMap;

/// Tables in memory, in which nothing fails.
#[derive(Default)]
pub(super) struct MemoryTables {
    moment: Revision,
    entries: BTreeMap<Vec<u8>, Entry>,
}

/// The value of a key.
struct Entry {
    value: Vec<u8>,
    revision: Revision,
    created: Revision,
}

fn pair((key, entry): (&Vec<u8>, &Entry)) -> Pair {
    Pair {
        key: key.clone(),
        value: entry.value.clone(),
        revision: entry.revision,
        created: entry.created,
    }
}

impl Tables for MemoryTables {
    fn moment(&self) -> Revision {
        self.moment
    }

    fn revision_of(&self, key: &[u8]) -> Result<Revision, TableFailure> {
        Ok(self
            .entries
            .get(key)
            .map_or(Revision::NEVER, |entry| entry.revision))
    }

    fn pair_of(&self, key: &[u8]) -> Result<Option<Pair>, TableFailure> {
        Ok(self.entries.get_key_value(key).map(pair))
    }

    fn pairs(&self, prefix: &[u8]) -> Result<Vec<Pair>, TableFailure> {
        let from = self.entries.range(prefix.to_vec()..);
        Ok(from
            .take_while(|(key, _)| key.starts_with(prefix))
            .map(pair)
            .collect())
    }

    fn range(&self, from: &[u8], end: &[u8], most: usize) -> Result<Vec<Pair>, TableFailure> {
        let from = self.entries.range(from.to_vec()..);
        let before = from.take_while(|(key, _)| key.as_slice() < end);
        Ok(before.take(most).map(pair).collect())
    }

    fn keys(&self, from: &[u8], end: &[u8]) -> Result<Vec<Vec<u8>>, TableFailure> {
        let from = self.entries.range(from.to_vec()..);
        let before = from.take_while(|(key, _)| key.as_slice() < end);
        Ok(before.map(|(key, _)| key.clone()).collect())
    }

    fn begin(&mut self, _room: Room) -> Result<(), TableFailure> {
        Ok(())
    }

    fn put(&mut self, pair: &Pair, _lease: Option<LeaseId>) -> Result<Revision, TableFailure> {
        let before = self.entries.get(&pair.key);
        let entry = Entry {
            value: pair.value.clone(),
            revision: pair.revision,
            created: before.map_or(pair.created, |it| it.created),
        };
        let created = entry.created;
        self.entries.insert(pair.key.clone(), entry);
        Ok(created)
    }

    fn delete(&mut self, key: &[u8]) -> Result<bool, TableFailure> {
        Ok(self.entries.remove(key).is_some())
    }

    fn commit(&mut self, moment: Revision) -> Result<(), TableFailure> {
        self.moment = moment;
        Ok(())
    }

    fn rollback(&mut self) -> Result<(), TableFailure> {
        // Nothing fails, so there is nothing to take back.
        Ok(())
    }
}
