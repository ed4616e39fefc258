//! How a base is written, and how the batches are deleted that it replaces.
use super::durable_inner::{locked, DurableInner};
use crate::base_parts::{BaseParts, KeyedParts};
use crate::shard::Ticket;
use durkenzo_store::{Outcome, Transaction, WriteError};
use std::sync::atomic::Ordering;
use std::sync::{Arc, Mutex};

/// The most parts of a base that are written at once.
const PARTS: usize = 4;
/// How much more room a base takes than its bytes: this fraction of them, and at least the size of SQLite's pages.
const BASE_ROOM: (u64, u64) = (17, 16);
const BASE_SLACK: u64 = 32 << 10;
/// The most keys that are deleted at once.
const DELETES: usize = 64;
impl DurableInner {
    /// Writes the parts of a base, some at once and each by itself, and tells whether all were written. If the store
    /// doesn't have room for all of them, none is written, because no part could be deleted until a later base is
    /// named.
    pub(super) fn write_base(
        self: &Arc<DurableInner>,
        shard: u16,
        ticket: Ticket,
        parts: KeyedParts,
    ) {
        let bytes = parts.iter().map(|it| it.1.len() as u64).sum::<u64>();
        let others = self.basing.fetch_add(bytes, Ordering::AcqRel);
        let needed = (others + bytes) * BASE_ROOM.0 / BASE_ROOM.1 + BASE_SLACK;
        let has_room = self.store.left().is_none_or(|it| it >= needed);
        if parts.is_empty() || !has_room {
            return self.end_base(shard, ticket, bytes, parts.is_empty());
        }
        let parts = Arc::new(Mutex::new(BaseParts::new(parts)));
        (0..PARTS).for_each(|_| self.write_part(shard, (ticket, bytes), &parts));
    }

    /// Tells that the base of so many bytes is written, or isn't.
    pub(super) fn end_base(
        self: &Arc<DurableInner>,
        shard: u16,
        ticket: Ticket,
        bytes: u64,
        is_written: bool,
    ) {
        self.basing.fetch_sub(bytes, Ordering::AcqRel);
        self.with(shard, |it, actions| {
            it.on_base(ticket, is_written, self.now(), actions);
        });
    }

    /// Writes the next part of a base of so many bytes, if there is one, and then those that follow.
    pub(super) fn write_part(
        self: &Arc<DurableInner>,
        shard: u16,
        (ticket, size): (Ticket, u64),
        parts: &Arc<Mutex<BaseParts>>,
    ) {
        let Some((key, bytes)) = locked(parts).next() else {
            return;
        };
        let (inner, parts) = (Arc::downgrade(self), parts.clone());
        let done = move |outcome: Result<Outcome, WriteError>| {
            let ended = locked(&parts).end(outcome.is_ok());
            match (inner.upgrade(), ended) {
                (Some(inner), Some(is_written)) => {
                    inner.end_base(shard, ticket, size, is_written);
                }
                (Some(inner), None) => inner.write_part(shard, (ticket, size), &parts),
                (None, _) => {}
            }
        };
        let part = Transaction::new().put(key, bytes).with_kept_room();
        self.store.submit(part, Box::new(done));
    }

    /// Deletes these keys, some at once. The next sweep finds those that weren't deleted.
    pub(super) fn delete(&self, keys: &[Vec<u8>]) {
        for keys in keys.chunks(DELETES) {
            let each = keys.iter().cloned();
            let transaction = each.fold(Transaction::new(), Transaction::delete);
            self.store.submit(transaction, Box::new(|_| {}));
        }
    }
}
