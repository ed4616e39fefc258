use super::cursors::{Cursors, OwnCursors};
use super::found_keys::FoundKeys;
use super::latest::Position;
use super::merged::{Merged, OwnedPair};
use super::split::KeysDone;
use super::unanswered::Unanswered;
use super::wanted::{self, cursor_of, WantedRange, WantedScan};
use super::Fault;
use crate::admission::Admission;
use crate::body::{BodyReply, BodyRequest, BoxedBody, PairRef, RangeRef, ValueRef, MAX_PAIRS};
use crate::keyspace::Keyspace;
use crate::memory;
use crate::resp::number::Digits;
use crate::resp::{Command, Replies};
use crate::wait::{NotAdmitted, Wait};
use std::ops::Bound;

/// How often a thread yields to another thread that has a shard, before its command waits.
const MOST_YIELDS: usize = 1_000;

/// The most bytes of a count, in decimal.
const LONGEST_COUNT: usize = 20;

type Keys = Vec<Box<[u8]>>;

/// Executes the commands that go over the keys of several shards, each under its own permit.
#[derive(Debug)]
pub struct Scanner<'a> {
    admission: &'a mut Admission,
    keyspace: &'a Keyspace,
    cursors: &'a Cursors,
}

impl<'a> Scanner<'a> {
    /// Makes the scanner of a thread with this admission.
    pub fn new(
        admission: &'a mut Admission,
        keyspace: &'a Keyspace,
        cursors: &'a Cursors,
    ) -> Scanner<'a> {
        Scanner {
            admission,
            keyspace,
            cursors,
        }
    }

    /// SCAN: goes on from its cursor over all keys, shard after shard, for the connection with these cursors. A key
    /// that exists from the first call to the last is given once.
    pub fn scan(
        &mut self,
        command: Command<'_>,
        own: &OwnCursors,
        replies: &mut Replies,
    ) -> Result<(), Unanswered> {
        let cursor = cursor_of(command)?;
        let wanted = WantedScan::of(command)?;
        let mut next = self.cursors.position(cursor, own);
        if next.is_none() {
            return Err(Fault::BadCursor.into());
        }
        let shards = self.keyspace.shards();
        let (mut found, mut seen) = (Vec::new(), 0);
        while let Some(position) = next.take_if(|_| seen < wanted.count) {
            let most = (wanted.count - seen).min(MAX_PAIRS);
            let (keys, _) = self.keys_from(&position, most)?;
            seen += keys.len();
            next = following(position, &keys, most, shards);
            found.extend(keys.into_iter().filter(|it| wanted.takes(it)));
        }
        let cursor = next.map_or(0, |it| self.cursors.keep(it, own));
        wanted::answer(cursor, &found, replies);
        Ok(())
    }

    /// Returns the first keys of the position's shard behind the position, at most so many, and how many bytes were
    /// read for them, because their values are read with them.
    fn keys_from(&mut self, position: &Position, most: usize) -> Result<(Keys, usize), Unanswered> {
        let after = position.after.as_deref();
        let low = after.map_or(Bound::Unbounded, Bound::Excluded);
        let range = RangeRef {
            low,
            high: None,
            most,
        };
        let mut bytes = 0;
        let keys = self.patiently(position.shard, |body| {
            scanned(body, range, |it| {
                bytes += size(it);
                it.0.into()
            })
        })?;
        Ok((keys?, bytes))
    }

    /// KEYS: finds all keys that match, each shard's at a moment of its own.
    pub fn keys(&mut self, command: Command<'_>, replies: &mut Replies) -> Result<(), Unanswered> {
        let (mut found, shards) = (FoundKeys::new(command)?, self.keyspace.shards());
        // It begins anew each time it waits. So it waits for all shards before it looks at the first one's keys.
        for shard in 0..shards {
            self.patiently(shard, |_| ())?;
        }
        let mut next = Some(Position::default());
        while let Some(position) = next {
            let (keys, bytes) = self.keys_from(&position, MAX_PAIRS)?;
            next = following(position, &keys, MAX_PAIRS, shards);
            found.add(keys, bytes)?;
        }
        found.answer(replies);
        Ok(())
    }

    /// FLUSHDB: deletes all keys, shard after shard. If it waits for a shard, the shards before it stay empty.
    pub fn flush(
        &mut self,
        command: Command<'_>,
        progress: &mut KeysDone,
    ) -> Result<(), Unanswered> {
        wanted::check_flush(command)?;
        let mut done = std::mem::take(progress);
        while done.done < usize::from(self.keyspace.shards()) {
            match self.patiently(done.done as u16, |body| body.clear()) {
                Ok(Ok(())) => done.done += 1,
                Err(NotAdmitted::Wait(wait)) => {
                    *progress = done;
                    return Err(Unanswered::Wait(wait));
                }
                Ok(Err(_)) | Err(NotAdmitted::Refused(_)) if done.done > 0 => {
                    return Err(Fault::FlushedInPart.into());
                }
                Ok(Err(refusal)) => return Err(Fault::from(refusal).into()),
                Err(refused) => return Err(refused.into()),
            }
        }
        Ok(())
    }

    /// SCANRANGE: returns the first pairs with keys from LOW on and below HIGH, in the order of their keys over all
    /// shards. An empty bound is no bound.
    pub fn scan_range(
        &mut self,
        command: Command<'_>,
        replies: &mut Replies,
    ) -> Result<(), Unanswered> {
        let WantedRange { low, high, most } = WantedRange::of(command)?;
        let mut found = Merged::new(most);
        for shard in self.keyspace.shards_within(low, high) {
            if found.is_full() && self.keyspace.is_ordered() {
                break;
            }
            let high = found.below(high);
            let range = RangeRef {
                low: Bound::Included(low),
                high: high.as_deref(),
                most,
            };
            found.add(self.pairs(shard, range)?);
        }
        found.answer(replies);
        Ok(())
    }

    fn pairs(&mut self, shard: u16, range: RangeRef<'_>) -> Result<Vec<OwnedPair>, Unanswered> {
        let pairs = self.patiently(shard, |body| {
            scanned(body, range, |(key, value)| ((*key).into(), text_of(*value)))
        })?;
        Ok(pairs?)
    }

    /// Runs the closure on the body, and tries again while another thread has it, because a command over many shards
    /// would hardly find all of them free.
    fn patiently<R>(
        &mut self,
        shard: u16,
        mut work: impl FnMut(&mut BoxedBody) -> R,
    ) -> Result<R, NotAdmitted> {
        for _ in 0..MOST_YIELDS {
            match self.admission.admit(shard, &mut work) {
                Err(NotAdmitted::Wait(Wait::Busy(_))) => std::thread::yield_now(),
                done => return done,
            }
        }
        self.admission.admit(shard, work)
    }
}

/// Returns what the closure takes from each pair of the range; or why it can't.
fn scanned<T>(
    body: &mut BoxedBody,
    range: RangeRef<'_>,
    taken: impl FnMut(&PairRef<'_>) -> T,
) -> Result<Vec<T>, Fault> {
    let found = match body.apply(BodyRequest::Scan(range)) {
        BodyReply::Pairs(pairs) => taken_of(&pairs, taken),
        BodyReply::Refused(refusal) => Err(refusal.into()),
        _ => Ok(Vec::new()),
    };
    body.forget();
    found
}

/// Returns the most bytes that a pair takes.
fn size((key, value): &PairRef<'_>) -> usize {
    match value {
        ValueRef::Text(text) => key.len() + text.len(),
        ValueRef::Count(_) => key.len() + LONGEST_COUNT,
    }
}

/// Returns what the closure takes from each of these pairs, unless there is no memory for it.
fn taken_of<T>(
    pairs: &[PairRef<'_>],
    taken: impl FnMut(&PairRef<'_>) -> T,
) -> Result<Vec<T>, Fault> {
    memory::has_room(pairs.iter().map(size).sum())?;
    Ok(pairs.iter().map(taken).collect())
}

/// Returns the position at which a scan goes on behind these keys. If there are fewer keys than were asked for, the
/// shard has no more, and it goes on with the next shard. There is none behind the last shard.
pub(super) fn following(
    position: Position,
    keys: &[Box<[u8]>],
    most: usize,
    shards: u16,
) -> Option<Position> {
    if keys.len() == most {
        let after = keys.last().cloned().or(position.after);
        return Some(Position { after, ..position });
    }
    let shard = position.shard + 1;
    (shard < shards).then_some(Position { shard, after: None })
}

fn text_of(value: ValueRef<'_>) -> Box<[u8]> {
    match value {
        ValueRef::Text(text) => text.into(),
        ValueRef::Count(count) => Digits::new(count).as_bytes().into(),
    }
}
