//! Writes transactions, outcomes and readings for timelines.
use crate::flight::Became;
use crate::key::DecodedKey;
use crate::reading::{self, DecodedRecord};
use durkenzo_store::{Outcome, Seen, Transaction};

/// Returns a key without the zeros that pad its numbers.
pub fn key(key: &[u8]) -> String {
    let text = String::from_utf8_lossy(key);
    let parts = text.split('/').map(|it| match it.trim_start_matches('0') {
        "" if !it.is_empty() => "0",
        trimmed => trimmed,
    });
    parts.collect::<Vec<_>>().join("/")
}

/// Returns the keys that a transaction writes and deletes. If there are none, returns the keys that it compares.
pub fn summary(transaction: &Transaction) -> String {
    let puts = transaction
        .puts
        .iter()
        .map(|it| written(&it.key, &it.value));
    let deletes = transaction.deletes.iter().map(|it| format!("-{}", key(it)));
    let written: Vec<String> = puts.chain(deletes).collect();
    match written.is_empty() {
        true => {
            let compared = transaction.compares.iter().map(|it| key(&it.key));
            format!("compare {}", compared.collect::<Vec<_>>().join(" "))
        }
        false => written.join(" "),
    }
}

/// Returns a key that is written. If it is the key of a record or a state, also returns its new value.
fn written(bytes: &[u8], value: &[u8]) -> String {
    let held = match DecodedKey::of(bytes) {
        Some(DecodedKey::Record(_)) => DecodedRecord::of(value).map(|it| it.to_string()),
        Some(DecodedKey::State(_)) => reading::state(value).map(|it| state(it.0).to_owned()),
        _ => None,
    };
    match held {
        Some(held) => format!("{}={held}", key(bytes)),
        None => key(bytes),
    }
}

/// Returns the name of a server's state.
fn state(number: u64) -> &'static str {
    ["up", "asked", "approved", "stopped", "failed"][number as usize]
}

/// Returns the outcome of a transaction.
pub fn became(became: &Became) -> String {
    match became {
        Ok(Outcome::Made(revision)) => format!("made {revision}"),
        Ok(Outcome::Lost(reading)) => format!("lost at {}", reading.revision),
        Err(error) => format!("error: {error}"),
    }
}

/// Returns the revision that a watch tells, and the keys that have changed.
pub fn seen(seen: &Seen) -> String {
    match seen {
        Seen::All(reading) => format!("sees all at {}", reading.revision),
        Seen::Changes(revision, changes) => {
            let keys: Vec<String> = changes.iter().map(|it| key(&it.key)).collect();
            format!("sees {revision}: {}", keys.join(" "))
        }
    }
}
