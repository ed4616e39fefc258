//! The watches on the store.
use super::durable_inner::DurableInner;
use crate::{keys, OpenFault};
use durkenzo_store::{Pair, Revision, Seen, Watch};
use std::sync::{Arc, Weak};

/// Watches all records; if other processes have servers, also their states. No change is missed from then on.
pub(super) fn watches(inner: &Arc<DurableInner>) -> Result<Vec<Watch>, OpenFault> {
    let seeing: Weak<DurableInner> = Arc::downgrade(inner);
    let watcher = move |seen| {
        if let Some(inner) = seeing.upgrade() {
            inner.see(seen);
        }
    };
    let mut watches = vec![inner.store.watch(keys::RECORDS, Box::new(watcher))?];
    if inner.own.is_some() {
        let seeing: Weak<DurableInner> = Arc::downgrade(inner);
        let watcher = move |seen| {
            if let Some(inner) = seeing.upgrade() {
                inner.see_states(seen);
            }
        };
        watches.push(inner.store.watch(keys::STATES, Box::new(watcher))?);
    }
    Ok(watches)
}

/// Returns the moment that a watch tells, and the pairs that were written.
pub(super) fn written(seen: Seen) -> (Revision, Vec<Pair>) {
    match seen {
        Seen::All(reading) => (reading.revision, reading.pairs),
        Seen::Changes(moment, changes) => {
            let written = changes.into_iter().filter_map(|it| {
                Some(Pair {
                    key: it.key,
                    value: it.value?,
                    revision: it.revision,
                    created: it.created,
                })
            });
            (moment, written.collect())
        }
    }
}
