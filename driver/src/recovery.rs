//! How a server recovers a shard from the store: it reads the record and the head of the log at one moment, then the
//! parts of the base that the head names, and the batches after the base. A server that has read the shard before reads
//! only the batches after those that it has.
use crate::decision::Passing;
use crate::keys;
use crate::proved::Core;
use crate::shard_service::ShardService;
use crate::snapshot_name::SnapshotName;
use crate::{ServerFault, StoredRecord};
use durkenzo_store::{Pair, ReadError, Reading, Revision, Store};
use durkenzo_store_sys::Head;

/// How many batches, or parts, are read at first. Then it reads twice as many each time, as long as they are small.
const BATCHES: u64 = 64;
const PARTS: u64 = 4;
/// The most that are read at once, and how many bytes are small.
const MOST: u64 = 256;
const SMALL: u64 = 1 << 20;

/// A reading of at most so many bytes is short. After a longer one the server reads what was written meanwhile, at most
/// so often.
const FEW_BYTES: u64 = 256 << 10;
const MORE: u32 = 8;
/// How many bytes are read in the time that reading a batch takes in addition to its bytes.
pub(crate) const BATCH_BYTES: u64 = 1 << 10;

/// Why a server couldn't recover a shard.
#[derive(Clone, Debug)]
pub(crate) enum RecoveryFault {
    /// It may succeed later.
    Later,
    /// It may succeed once the store answers. This is the store's message.
    Unanswered(String),
    /// The store's content is wrong.
    Damaged(String),
    /// The store has ended.
    Ended(String),
}

impl From<ReadError> for RecoveryFault {
    fn from(error: ReadError) -> RecoveryFault {
        match error {
            ReadError::Stopped => RecoveryFault::Ended(error.to_string()),
            ReadError::Damaged(why) => RecoveryFault::Damaged(why),
            ReadError::Unavailable(_) | ReadError::Denied(_) => {
                RecoveryFault::Unanswered(error.to_string())
            }
        }
    }
}

impl From<ServerFault> for RecoveryFault {
    fn from(fault: ServerFault) -> RecoveryFault {
        match fault.is_damage() {
            true => RecoveryFault::Damaged(fault.to_string()),
            false => RecoveryFault::Later,
        }
    }
}

/// A server that has read the shard.
pub(crate) struct Recovered {
    pub(crate) core: Core,
    /// The record that it read, and the revision of the log's head.
    pub(crate) stored: StoredRecord,
    pub(crate) logged: Revision,
    pub(crate) log: LogRead,
}

/// A server that couldn't read everything.
pub(crate) struct Unrecovered {
    /// The server, if it has kept the requests that it had made before.
    pub(crate) kept: Option<Core>,
    pub(crate) fault: RecoveryFault,
}

impl<F: Into<RecoveryFault>> From<F> for Unrecovered {
    fn from(fault: F) -> Unrecovered {
        Unrecovered {
            kept: None,
            fault: fault.into(),
        }
    }
}

/// The part of a shard's log that was read.
#[derive(Clone, Copy, Debug)]
pub(crate) struct LogRead {
    /// The bytes of the base, if it was read.
    base: Option<u64>,
    /// The batches after the base.
    batches: u64,
    /// How many batches were read, and their bytes.
    pub(crate) batches_read: u64,
    bytes_read: u64,
}

impl LogRead {
    /// Returns how many bytes are read in the time that this took.
    fn cost(&self) -> u64 {
        self.base.unwrap_or(0) + self.bytes_read + self.batches_read * BATCH_BYTES
    }

    /// Returns this with a reading that went on after it.
    fn and(self, more: LogRead) -> LogRead {
        match more.base {
            Some(_) => more,
            None => LogRead {
                base: self.base,
                batches: more.batches,
                batches_read: self.batches_read + more.batches_read,
                bytes_read: self.bytes_read + more.bytes_read,
            },
        }
    }
}

/// The length of a shard's log behind its base.
#[derive(Clone, Copy, Debug, Default)]
pub(crate) struct LogSize {
    /// The bytes of the base.
    pub(crate) base: u64,
    /// The batches after it, and their bytes.
    pub(crate) batches: u64,
    pub(crate) bytes: u64,
}

impl LogSize {
    /// Notes what was read. If only the added batches were read, their bytes are taken to be the average of all batches
    /// so far, because a newer base may replace some of them.
    pub(crate) fn note(&mut self, read: LogRead) {
        let (batches, bytes) = match read.base {
            Some(base) => {
                self.base = base;
                (read.batches_read, read.bytes_read)
            }
            None => (
                self.batches + read.batches_read,
                self.bytes + read.bytes_read,
            ),
        };
        self.bytes = bytes.saturating_mul(read.batches) / batches.max(1);
        self.batches = read.batches;
    }
}

/// A server of a shard, one of so many.
#[derive(Clone, Copy, Debug)]
pub(crate) struct ServerPlace {
    pub(crate) server: u16,
    pub(crate) shard: u16,
    pub(crate) count: u16,
}

/// The store from which servers of a service read shards.
#[derive(Clone, Copy)]
pub(crate) struct Source<'a> {
    pub(crate) store: &'a dyn Store,
    pub(crate) service: &'a dyn ShardService,
}

/// A record and the head of a log as they were at one moment.
struct Moment {
    record: (Vec<u8>, Revision),
    head: (Vec<u8>, Revision),
    named: Head,
    /// The snapshot of the base, if the service has snapshots and there is a base.
    snapshot: Option<SnapshotName>,
}

/// Returns a server that has read the shard. If the server has kept the requests that it had made, it reads only the
/// batches that it lacks. If those are gone because a base has replaced them, it reads the base, as any other server
/// does. After a long reading it goes on, so that it lacks little.
pub(crate) fn recover(
    source: Source<'_>,
    kept: Option<Core>,
    place: ServerPlace,
) -> Result<Recovered, Unrecovered> {
    let mut read = match kept {
        Some(core) => read_on(source, core, place)?,
        None => read_whole(source, place)?,
    };
    let mut cost = read.log.cost();
    for _ in 0..MORE {
        if cost <= FEW_BYTES || !has_less(source, &mut read.core, place.shard, cost) {
            break;
        }
        let more = read_on(source, read.core, place)?;
        cost = more.log.cost();
        read = Recovered {
            log: read.log.and(more.log),
            ..more
        };
    }
    Ok(read)
}

/// Returns whether something was written since the server read, and reading it takes much less time than the reading
/// before, which cost so much. Otherwise the owner writes about as fast as the server reads.
fn has_less(source: Source<'_>, core: &mut Core, shard: u16, cost: u64) -> bool {
    match (moment(source, shard), core.batch_count()) {
        (Ok(now), Ok(made)) => {
            let lacks = now.named.batches.saturating_sub(made);
            lacks > 0 && 2 * lacks * BATCH_BYTES <= cost
        }
        (Err(_), _) | (_, Err(_)) => false,
    }
}

/// Returns the server once it has read what it lacks, or the whole shard if that is gone.
fn read_on(source: Source<'_>, core: Core, place: ServerPlace) -> Result<Recovered, Unrecovered> {
    match caught_up(source, core, place.shard)? {
        Some(recovered) => Ok(recovered),
        None => Ok(read_whole(source, place)?),
    }
}

/// Reads the record and the head at one moment.
fn moment(source: Source<'_>, shard: u16) -> Result<Moment, RecoveryFault> {
    let (record, head) = (keys::record(shard), keys::head(shard));
    let snapshot = source
        .service
        .has_snapshots()
        .then(|| keys::snapshot(shard));
    let wanted: Vec<&[u8]> = [&record, &head]
        .into_iter()
        .chain(&snapshot)
        .map(Vec::as_slice)
        .collect();
    let reading = source.store.read(&wanted)?;
    let (record, head) = (
        found(&reading, &record, &keys::VACANT),
        found(&reading, &head, &keys::EMPTY),
    );
    let named = Head::of(&head.0).map_err(ServerFault::Code)?;
    let snapshot = match snapshot.filter(|_| named.base > 0) {
        Some(key) => Some(snapshot_of(&reading, &key, named)?),
        None => None,
    };
    Ok(Moment {
        record,
        head,
        named,
        snapshot,
    })
}

/// Returns the snapshot of the base that the head names.
fn snapshot_of(reading: &Reading, key: &[u8], named: Head) -> Result<SnapshotName, RecoveryFault> {
    let name = reading.get(key).and_then(|it| SnapshotName::of(&it.value));
    name.filter(|it| it.base == named.base).ok_or_else(|| {
        let key = String::from_utf8_lossy(key);
        RecoveryFault::Damaged(format!(
            "{key} doesn't name the snapshot of base {}",
            named.base
        ))
    })
}

/// Reads the batches after so many, up to those of the head, and gives each to the server. Returns their bytes.
fn read_batches(
    store: &dyn Store,
    core: &mut Core,
    shard: u16,
    made: u64,
    named: &Head,
) -> Result<u64, RecoveryFault> {
    let batch = |behind| keys::batch(shard, behind + 1);
    let (from, end) = (batch(made), batch(named.batches));
    each(store, from, &end, BATCHES, |it| core.add_batch(&it.value))
}

/// Returns a server that has read all of the shard.
fn read_whole(source: Source<'_>, place: ServerPlace) -> Result<Recovered, RecoveryFault> {
    let (store, shard) = (source.store, place.shard);
    let now = moment(source, shard)?;
    let named = now.named;
    let mut core = source.service.server(place)?;
    let part = |place| keys::part(shard, named.base, place);
    let (from, end) = (part(0), part(named.parts));
    let mut base = each(store, from, &end, PARTS, |it| core.add_part(&it.value))?;
    if let Some(name) = now.snapshot {
        base += read_snapshot(store, &mut core, shard, name)?;
    }
    let bytes = read_batches(store, &mut core, shard, named.base, &named)?;
    core.read((&now.record.0, now.record.1), (&now.head.0, now.head.1))?;
    let batches = named.batches - named.base;
    let log = LogRead {
        base: Some(base),
        batches,
        batches_read: batches,
        bytes_read: bytes,
    };
    Ok(recovered(core, now, log))
}

/// Returns the server with the batches that were added to the log since. Returns nothing if they are gone, or if the
/// server can't go on from them. If the store doesn't answer, the server keeps the requests that it had made.
fn caught_up(
    source: Source<'_>,
    mut core: Core,
    shard: u16,
) -> Result<Option<Recovered>, Unrecovered> {
    let Ok(made) = core.batch_count() else {
        return Ok(None);
    };
    let read = moment(source, shard).and_then(|now| {
        let bytes = read_batches(source.store, &mut core, shard, made, &now.named)?;
        Ok((now, bytes))
    });
    let (now, bytes) = match read {
        Ok(read) => read,
        Err(fault @ RecoveryFault::Unanswered(_)) => {
            // The batches that it was given so far are dropped.
            let kept = core.lost().is_ok().then_some(core);
            return Err(Unrecovered { kept, fault });
        }
        Err(fault) => return Err(fault.into()),
    };
    let appended = core.append((&now.record.0, now.record.1), (&now.head.0, now.head.1));
    if appended.is_err() {
        return Ok(None);
    }
    let log = LogRead {
        base: None,
        batches: now.named.batches - now.named.base,
        batches_read: now.named.batches - made,
        bytes_read: bytes,
    };
    Ok(Some(recovered(core, now, log)))
}

/// Reads the snapshot, and gives its parts to the server. Returns its bytes.
fn read_snapshot(
    store: &dyn Store,
    core: &mut Core,
    shard: u16,
    name: SnapshotName,
) -> Result<u64, RecoveryFault> {
    let (from, end) = (name.key(shard, 0), name.key(shard, name.parts));
    let bytes = each(store, from, &end, PARTS, |it| core.add_snapshot(&it.value))?;
    // A later base may have replaced it meanwhile.
    match bytes == name.bytes {
        true => Ok(bytes),
        false => Err(RecoveryFault::Later),
    }
}

fn recovered(core: Core, now: Moment, log: LogRead) -> Recovered {
    let (record, stood) = now.record;
    Recovered {
        core,
        stored: StoredRecord::new(record, stood),
        logged: now.head.1,
        log,
    }
}

/// Returns the value and the revision of a key, or `never` if it was never written.
fn found(reading: &Reading, key: &[u8], never: &[u8]) -> (Vec<u8>, Revision) {
    reading.get(key).map_or_else(
        || (never.to_vec(), Revision::NEVER),
        |it| (it.value.clone(), it.revision),
    )
}

/// Calls `give` for the value at each key from this one on and before the end, in their order, at first with so many at
/// once. Returns how many bytes they have. If a value is missing, the server notices that when it reads. If a page
/// doesn't come, a smaller one is asked for, because its values may be large.
fn each(
    store: &dyn Store,
    mut from: Vec<u8>,
    end: &[u8],
    first: u64,
    mut give: impl FnMut(&Pair) -> Result<(), ServerFault>,
) -> Result<u64, RecoveryFault> {
    let (mut bytes, mut most) = (0, first);
    while from.as_slice() < end {
        let pairs = match store.read_range(&from, end, most as usize) {
            Err(ReadError::Unavailable(_)) if most > first => {
                most = first;
                continue;
            }
            read => read?.pairs,
        };
        let size = pairs.iter().try_fold(0, |size, pair| {
            give(pair)?;
            Ok::<_, ServerFault>(size + pair.value.len() as u64)
        })?;
        bytes += size;
        match pairs.last().filter(|_| pairs.len() as u64 == most) {
            Some(last) => from = [&last.key[..], b"\0"].concat(),
            None => break,
        }
        most = match size <= SMALL {
            true => MOST.min(2 * most),
            false => first,
        };
    }
    Ok(bytes)
}

/// A key that a base may have replaced, and by what the server judges whether it did. A part of a snapshot is replaced
/// with the parts of its base.
pub(crate) type PassedKey = (Passing, Vec<u8>);

/// Returns the keys that the base which the head names may have replaced: all parts of bases and of snapshots, and the
/// existing batches up to the base, each kind in its order.
pub(crate) fn passing(source: Source<'_>, shard: u16) -> Result<Vec<PassedKey>, RecoveryFault> {
    let (store, head) = (source.store, keys::head(shard));
    let reading = store.read(&[&head])?;
    let named = Head::of(&found(&reading, &head, &keys::EMPTY).0).map_err(ServerFault::Code)?;
    let part = |key: &[u8]| keys::base_and_place(key).map(|it| Passing::Part(it.0, it.1));
    let snapshot = |key: &[u8]| keys::base_of_snapshot(key).map(|it| Passing::Part(it, 0));
    let batch = |key: &[u8]| keys::number_of_batch(key).map(Passing::Batch);
    let batches = [keys::batch(shard, 1), keys::batch(shard, named.base + 1)];
    let mut found = passed(store, &keys::bases(shard), part)?;
    if source.service.has_snapshots() {
        found.extend(passed(store, &keys::snapshots(shard), snapshot)?);
    }
    found.extend(passed(store, &batches, batch)?);
    Ok(found)
}

/// Returns the keys between these, by what each is judged.
fn passed(
    store: &dyn Store,
    [from, end]: &[Vec<u8>; 2],
    by: impl Fn(&[u8]) -> Option<Passing>,
) -> Result<Vec<PassedKey>, RecoveryFault> {
    let keys = store.read_keys(from, end)?;
    let judged = keys.into_iter().map(|key| Some((by(&key)?, key)));
    Ok(judged.flatten().collect())
}
