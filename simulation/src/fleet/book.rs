//! The calls that services of a fleet have made, and the law of these calls. Each call is made once, by a body that has
//! all calls that were made before. If a body begins without them, the loss must have an excuse: `excuses.rs` says
//! which there are.
use crate::law::Broken;
use durkenzo_fleet::{Answer, CallError};
use std::collections::{BTreeMap, BTreeSet};
use std::sync::{Arc, Mutex, MutexGuard};
use std::time::Duration;

/// The book of a schedule, which all services and clients share.
pub type SharedBook = Arc<Mutex<Book>>;

/// All calls that were made, and the outcomes that clients were told.
#[derive(Default)]
pub struct Book {
    shards: Vec<ShardPage>,
    /// The last epoch that a body has got. Each body that begins gets an epoch of its own.
    epochs: u64,
    /// The place of each call that was made: its shard, its process, and its place among the shard's calls.
    made: BTreeMap<u64, MadeCall>,
    /// The calls of which clients were told that they weren't made.
    not_made: BTreeSet<u64>,
    /// How many calls there are, and for how many of them somebody waits.
    pub calls: u64,
    pub open: u64,
    /// The bodies that are lost. It isn't judged yet whether each loss has an excuse.
    pub losses: Vec<Loss>,
    pub fault: Option<Broken>,
    pub counts: Counts,
}

/// How often each event happened.
#[derive(Clone, Copy, Debug, Default)]
pub struct Counts {
    pub answered: u64,
    pub forwarded: u64,
    pub unsure: u64,
    pub not_made: u64,
    pub handed: u64,
    pub lost: u64,
}

#[derive(Clone, Copy, Debug, PartialEq, Eq)]
struct MadeCall {
    shard: u16,
    life: u64,
    place: u64,
}

/// The page of a shard in the book.
#[derive(Default)]
struct ShardPage {
    epoch: u64,
    calls: Vec<u64>,
    /// The processes that have had the body since the last call, and since when. The process that made that call is the
    /// first.
    holders: Vec<(u64, Duration)>,
    /// The fencing token by which the last call was made, and the process that made it.
    fence: (u64, u64),
}

/// A body that began without the calls that were made before.
#[derive(Clone, Debug)]
pub struct Loss {
    /// The processes that had the lost calls, and since when.
    pub holders: Vec<(u64, Duration)>,
    /// The first call that the new body made.
    pub made: Execution,
}

/// The body of a shard in a service: all calls since it began.
#[derive(Clone, Debug, Default, PartialEq, Eq)]
pub struct JournalBody {
    pub epoch: u64,
    pub calls: Vec<u64>,
    /// How many numbers were copied so far, if the body is being copied.
    pub copied: Option<usize>,
}

impl JournalBody {
    /// Returns the numbers that move to another process: the epoch, and then the calls.
    pub fn numbers(&self) -> Vec<u64> {
        std::iter::once(self.epoch)
            .chain(self.calls.iter().copied())
            .collect()
    }
}

/// The execution of a call: its shard, the fencing token, the process and the time.
#[derive(Clone, Copy, Debug)]
pub struct Execution {
    pub call: u64,
    pub shard: u16,
    pub fence: u64,
    pub life: u64,
    pub at: Duration,
}

/// Locks the book.
pub fn locked(book: &SharedBook) -> MutexGuard<'_, Book> {
    book.lock().expect("no schedule goes on after a panic")
}

impl Book {
    /// Returns an empty book for so many shards.
    pub fn new(shards: u16) -> Book {
        Book {
            shards: (0..shards).map(|_| ShardPage::default()).collect(),
            ..Book::default()
        }
    }

    fn find(&mut self, law: &'static str, by: String) {
        self.fault.get_or_insert(Broken { law, by });
    }

    /// Begins a body of the shard without calls. If the shard is new, it must have had no calls before.
    pub fn begin_body(&mut self, shard: u16, is_new: bool) -> JournalBody {
        let page = &self.shards[usize::from(shard)];
        if is_new && page.epoch > 0 {
            let by = format!("shard {shard} had {:?}", page.calls);
            self.find("a shard that is new had no calls", by);
        }
        self.epochs += 1;
        JournalBody {
            epoch: self.epochs,
            ..JournalBody::default()
        }
    }

    /// Notes that a process has got the body of a shard from another one.
    pub fn note_handed(&mut self, shard: u16, (life, at): (u64, Duration), body: &JournalBody) {
        let page = &mut self.shards[usize::from(shard)];
        let is_current = page.epoch == body.epoch && page.calls == body.calls;
        if is_current && page.holders.iter().all(|it| it.0 != life) {
            page.holders.push((life, at));
        }
        self.counts.handed += 1;
    }

    /// Notes that this body made a call. Returns the place of the call among those of the shard.
    pub fn make(&mut self, body: &mut JournalBody, made: Execution, is_judged: bool) -> u64 {
        let place = body.calls.len() as u64;
        if is_judged {
            self.judge(body, made);
        }
        body.calls.push(made.call);
        if self.not_made.contains(&made.call) {
            self.find("what wasn't made isn't made later", format!("{made:?}"));
        }
        let is_of = MadeCall {
            shard: made.shard,
            life: made.life,
            place,
        };
        if let Some(before) = self.made.insert(made.call, is_of) {
            self.find("a call is made once", format!("{before:?}, {made:?}"));
        }
        place
    }

    /// Judges whether this body may make the call, and notes that it did.
    fn judge(&mut self, body: &JournalBody, made: Execution) {
        let page = &mut self.shards[usize::from(made.shard)];
        let (fence, last) = page.fence;
        let is_later = if last == made.life {
            made.fence >= fence
        } else {
            made.fence > fence
        };
        let is_same = page.epoch == body.epoch && page.calls == body.calls;
        let begins = body.epoch > page.epoch && body.calls.is_empty();
        let shown = || {
            format!(
                "{made:?} by {body:?}, where {:?} had {} of epoch {}: token {fence}",
                page.holders,
                page.calls.len(),
                page.epoch
            )
        };
        let wrong = match (is_later, is_same || begins) {
            (false, _) => Some(("who executes has a later token than others before", shown())),
            (true, false) => Some(("a body has all calls that were made before", shown())),
            (true, true) => None,
        };
        let is_lost = begins && !page.calls.is_empty();
        let loss = is_lost.then(|| Loss {
            holders: page.holders.clone(),
            made,
        });
        if !is_same {
            (page.epoch, page.calls) = (body.epoch, body.calls.clone());
        }
        page.calls.push(made.call);
        page.holders = vec![(made.life, made.at)];
        page.fence = (made.fence, made.life);
        self.counts.lost += u64::from(is_lost);
        self.losses.extend(loss);
        if let Some((law, by)) = wrong {
            self.find(law, by);
        }
    }

    /// Begins a call, and returns its number.
    pub fn begin_call(&mut self) -> u64 {
        self.calls += 1;
        self.open += 1;
        self.calls
    }

    /// Notes the outcome that a client was told of its call to this shard, and judges it.
    pub fn tell(&mut self, (call, shard): (u64, u16), told: &Result<Answer, CallError>) {
        self.open -= 1;
        let made = self.made.get(&call).copied();
        match told {
            Ok(answer) => {
                self.counts.answered += 1;
                self.counts.forwarded += u64::from(answer.hops > 0);
                let place = made.filter(|it| it.shard == shard).map(|it| it.place);
                let is_so = place.is_some_and(|it| answer.bytes == it.to_be_bytes());
                if !is_so || answer.hops > durkenzo::MOST_HOPS {
                    let by = format!("call {call} of shard {shard}: {answer:?}, {made:?}");
                    self.find("what is answered is so", by);
                }
            }
            Err(CallError::Unsure(_)) => self.counts.unsure += 1,
            Err(CallError::NotMade(why)) => {
                self.counts.not_made += 1;
                self.not_made.insert(call);
                if made.is_some() {
                    let by = format!("call {call} of shard {shard}: {made:?}: {why}");
                    self.find("what wasn't made isn't made", by);
                }
            }
        }
    }
}
