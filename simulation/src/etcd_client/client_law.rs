//! The laws of the answers of clients. An answer is judged by the state on which the members have agreed.
use super::record::{Asked, Record, Told, WatchRecord};
use crate::etcd::Keyspace;
use crate::law::Broken;
use durkenzo_store::{
    KeyChange, LeaseError, Outcome, Pair, Reading, Revision, Seen, Transaction, WriteError,
};

/// The result of a check: the law that is broken, if one is.
type Verdict = Result<(), &'static str>;

/// Judges the answer of a client to a request.
pub fn judge(keyspace: &Keyspace, keys: &[Vec<u8>], record: &Record) -> Result<(), Broken> {
    let Some((told, ended)) = &record.told else {
        return Err(broken("what is asked is answered or refused", record));
    };
    let is_kept = is_true(keyspace, keys, record, (told, *ended));
    let verdict = is_kept.and_then(|()| is_done_if_steady(told, record));
    verdict.map_err(|law| broken(law, record))
}

/// Checks that an answer is true. The answer came by the revision `ended`.
fn is_true(
    keyspace: &Keyspace,
    keys: &[Vec<u8>],
    record: &Record,
    (told, ended): (&Told, u64),
) -> Verdict {
    let span = (record.begun, ended);
    match (&record.asked, told) {
        (Asked::Make(transaction), Told::Became(became)) => {
            is_true_outcome(keyspace, transaction, became, span)
        }
        (Asked::Read(of), Told::Read(Ok(reading))) => {
            is_true_reading(keyspace, of.iter(), usize::MAX, reading, span)
        }
        (Asked::ReadAll(prefix), Told::Read(Ok(reading))) => {
            let of = keys.iter().filter(|it| it.starts_with(prefix));
            is_true_reading(keyspace, of, usize::MAX, reading, span)
        }
        (Asked::ReadRange(from, end, most), Told::Read(Ok(reading))) => {
            let of = keys.iter().filter(|it| *it >= from && *it < end);
            is_true_reading(keyspace, of, *most, reading, span)
        }
        (Asked::ReadKeys(from, end), Told::Keys(Ok(found))) => {
            let of = keys.iter().filter(|it| *it >= from && *it < end);
            are_true_keys(keyspace, of, found, span)
        }
        (_, Told::Sized(Ok(size))) if !(span.0..=span.1).contains(&size.file) => {
            Err("the store's size is told as it was meanwhile")
        }
        (_, Told::Compacted(true)) if keyspace.compacted() < record.begun => {
            Err("a compaction that is told was made")
        }
        (_, Told::Kept(kept)) => is_true_of_lease(kept, record),
        (_, Told::Revoked(Ok(()) | Err(LeaseError::Ended(_)))) if record.is_there => {
            Err("a lease that goes on isn't told as ended")
        }
        (_, Told::Granted(Ok(_))) if !record.is_there => Err("a lease that is granted is there"),
        _ => Ok(()),
    }
}

/// Checks that a request was done, if nothing was wrong meanwhile. While all members answer and no call is harmed, each
/// request must be done, unless its lease has ended.
fn is_done_if_steady(told: &Told, record: &Record) -> Verdict {
    let is_done = match told {
        Told::Became(became) => matches!(became, Ok(_) | Err(WriteError::LeaseEnded)),
        Told::Read(read) => read.is_ok(),
        Told::Keys(read) => read.is_ok(),
        Told::Granted(granted) => granted.is_ok(),
        Told::Kept(ended) | Told::Revoked(ended) => {
            matches!(ended, Ok(()) | Err(LeaseError::Ended(_)))
        }
        Told::Sized(size) => size.is_ok(),
        Told::Compacted(is_compacted) => *is_compacted,
    };
    match is_done || !record.is_steady {
        true => Ok(()),
        false => Err("what is asked while nothing is wrong is done"),
    }
}

fn broken(law: &'static str, record: &Record) -> Broken {
    let by = format!("{record:?}");
    Broken { law, by }
}

/// Returns the revisions at which the transaction was made. Its first put shows them, because each value is written by
/// only one transaction.
fn revisions_of(keyspace: &Keyspace, transaction: &Transaction) -> Vec<u64> {
    let Some(put) = transaction.puts.first() else {
        return Vec::new();
    };
    let writes = |it: &u64| {
        let mut changes = keyspace.changes_of(*it).iter();
        changes.any(|it| it.key == put.key && it.value.as_ref() == Some(&put.value))
    };
    (1..=keyspace.revision()).filter(writes).collect()
}

fn revision_at(keyspace: &Keyspace, key: &[u8], revision: u64) -> Revision {
    let pair = keyspace.pair_at(key, revision);
    pair.map_or(Revision::NEVER, |it| it.revision)
}

fn holds_at(keyspace: &Keyspace, transaction: &Transaction, revision: u64) -> bool {
    let mut compares = transaction.compares.iter();
    compares.all(|it| revision_at(keyspace, &it.key, revision) == it.revision)
}

fn is_true_outcome(
    keyspace: &Keyspace,
    transaction: &Transaction,
    became: &Result<Outcome, WriteError>,
    span: (u64, u64),
) -> Verdict {
    let made = revisions_of(keyspace, transaction);
    match became {
        Ok(outcome) => is_true_ending(keyspace, transaction, &made, outcome, span),
        Err(WriteError::Unknown(_)) if made.len() <= 1 => Ok(()),
        Err(WriteError::Full(_)) if was_deleted(keyspace, transaction, &made, span.1) => Ok(()),
        Err(WriteError::Unknown(_)) => Err("nothing is made twice"),
        Err(
            WriteError::Unreachable(_)
            | WriteError::Unavailable(_)
            | WriteError::Full(_)
            | WriteError::TooLarge(_)
            | WriteError::LeaseEnded
            | WriteError::Damaged(_)
            | WriteError::Denied(_)
            | WriteError::Stopped,
        ) => match made.is_empty() {
            true => Ok(()),
            false => Err("what is told as not made is never made"),
        },
    }
}

/// Checks that this is the outcome of a transaction that was made at these revisions.
fn is_true_ending(
    keyspace: &Keyspace,
    transaction: &Transaction,
    made: &[u64],
    outcome: &Outcome,
    span: (u64, u64),
) -> Verdict {
    let is_within = |it: Revision| span.0 <= it.0 && it.0 <= span.1;
    match outcome {
        Outcome::Made(revision) if transaction.writes() => {
            match made == [revision.0] && holds_at(keyspace, transaction, revision.0 - 1) {
                true if is_within(*revision) => Ok(()),
                _ => Err("what is told as made was made once, as its compares held"),
            }
        }
        Outcome::Made(revision) => {
            match is_within(*revision) && holds_at(keyspace, transaction, revision.0) {
                true => Ok(()),
                false => Err("compares that are told to hold held after they were asked"),
            }
        }
        Outcome::Lost(reading) => {
            let held = holds_at(keyspace, transaction, reading.revision.0);
            match made.is_empty() && is_within(reading.revision) && !held {
                true => {
                    let of = transaction.reads.iter();
                    is_true_reading(keyspace, of, usize::MAX, reading, span)
                }
                false => Err("what is told as lost wasn't made, as its compares didn't hold"),
            }
        }
    }
}

/// Returns whether a key that the transaction created was deleted by the revision `until`. If a store is full, the
/// client looks whether the key is still as it was compared. If the key was to be new, and was created and deleted
/// meanwhile, the client doesn't see that.
fn was_deleted(keyspace: &Keyspace, transaction: &Transaction, made: &[u64], until: u64) -> bool {
    let mut compares = transaction.compares.iter();
    let is_gone = |key: &[u8]| match made {
        [revision] => keyspace.between(key, *revision, until).contains(&None),
        _ => false,
    };
    compares.any(|it| it.revision == Revision::NEVER && is_gone(&it.key))
}

fn is_true_reading<'a>(
    keyspace: &Keyspace,
    keys: impl Iterator<Item = &'a Vec<u8>>,
    most: usize,
    reading: &Reading,
    span: (u64, u64),
) -> Verdict {
    let revision = reading.revision.0;
    let there = keys.filter_map(|it| keyspace.pair_at(it, revision));
    let there: Vec<Pair> = there.take(most).collect();
    match span.0 <= revision && revision <= span.1 && there == reading.pairs {
        true => Ok(()),
        false => Err("a reading is what lay there at a moment after it was asked"),
    }
}

/// Checks the keys that a client read. They must include each key that was there all the time, and no key that was
/// never there.
fn are_true_keys<'a>(
    keyspace: &Keyspace,
    keys: impl Iterator<Item = &'a Vec<u8>>,
    found: &[Vec<u8>],
    (begun, ended): (u64, u64),
) -> Verdict {
    for key in keys {
        let values = keyspace.between(key, begun, ended);
        let is_told = found.contains(key);
        let is_true = match is_told {
            true => values.iter().any(Option::is_some),
            false => values.iter().any(Option::is_none),
        };
        if !is_true {
            return Err("keys that are told were there, and all that were there are told");
        }
    }
    Ok(())
}

fn is_true_of_lease(kept: &Result<(), LeaseError>, record: &Record) -> Verdict {
    match kept {
        Ok(()) if !record.was_there => Err("a lease that had ended isn't told as kept"),
        Err(LeaseError::Ended(_)) if record.is_there => {
            Err("a lease that goes on isn't told as ended")
        }
        Err(LeaseError::Unavailable(_)) if record.is_due => {
            Err("a lease is kept if all members have answered for a while")
        }
        Ok(()) | Err(LeaseError::Ended(_) | LeaseError::Unavailable(_) | LeaseError::Stopped) => {
            Ok(())
        }
    }
}

/// Judges the changes that a watch told. It must first tell all values that were there, and then each change once, in
/// order.
pub fn judge_watch(
    keyspace: &Keyspace,
    keys: &[Vec<u8>],
    watch: &WatchRecord,
) -> Result<(), Broken> {
    let mut moment = 0;
    for seen in &watch.seen {
        let is_true = match seen {
            Seen::All(reading) => {
                let of = keys.iter().filter(|it| it.starts_with(&watch.prefix));
                let span = (moment, keyspace.revision());
                is_true_reading(keyspace, of, usize::MAX, reading, span).is_ok()
            }
            Seen::Changes(until, changes) => {
                *changes == changes_after(keyspace, &watch.prefix, moment, until.0)
            }
        };
        if !is_true {
            return Err(broken_watch(
                "a watch tells each change once, in its order",
                watch,
                moment,
            ));
        }
        moment = match seen {
            Seen::All(reading) => reading.revision.0,
            Seen::Changes(until, _) => until.0,
        };
    }
    match changes_after(keyspace, &watch.prefix, moment, keyspace.revision()) {
        left if left.is_empty() => Ok(()),
        _ => Err(broken_watch("a watch tells all in the end", watch, moment)),
    }
}

fn changes_after(keyspace: &Keyspace, prefix: &[u8], after: u64, until: u64) -> Vec<KeyChange> {
    let changes = (after + 1..=until).flat_map(|it| keyspace.changes_of(it));
    let changes = changes.filter(|it| it.key.starts_with(prefix));
    changes.cloned().collect()
}

fn broken_watch(law: &'static str, watch: &WatchRecord, moment: u64) -> Broken {
    let by = format!("after {moment}: {:?}", watch);
    Broken { law, by }
}
