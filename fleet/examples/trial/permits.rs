//! Records which process executed for a shard, and when. Only one process at a time may execute.
use crate::message::Told;
use std::collections::BTreeMap;
use std::sync::atomic::{AtomicU64, Ordering};
use std::sync::{Mutex, PoisonError};

/// The most stretches of a shard that are kept.
const KEPT: usize = 256;

/// The stretches of time in which processes executed for a shard, by the fence of each.
#[derive(Debug, Default)]
pub struct Permits {
    /// The greatest fence of an answer so far.
    greatest: AtomicU64,
    stretches: Mutex<BTreeMap<u64, Stretch>>,
}

/// The time in which a process executed under a fence, as far as answers tell it.
#[derive(Clone, Copy, Debug)]
struct Stretch {
    process: u64,
    origin: u64,
    first: u64,
    last: u64,
}

impl Permits {
    /// Returns the least fence with which a call that begins now may be answered.
    pub fn least(&self) -> u64 {
        self.greatest.load(Ordering::SeqCst)
    }

    /// Notes an answer under this fence. When the call began, `least` was the least fence for it.
    ///
    /// # Errors
    ///
    /// If two processes executed at the same time or under the same fence, if the fence is less than `least`, or if a
    /// lost body is there again.
    pub fn note(&self, fence: u64, told: &Told, least: u64) -> Result<(), String> {
        self.greatest.fetch_max(fence, Ordering::SeqCst);
        if fence < least {
            return Err(format!("fence {fence} came after {least}"));
        }
        let all = self.stretches.lock();
        let mut all = all.unwrap_or_else(PoisonError::into_inner);
        let stretch = all.entry(fence).or_insert(Stretch::of(told));
        stretch.first = stretch.first.min(told.time);
        stretch.last = stretch.last.max(told.time);
        if (stretch.process, stretch.origin) != (told.process, told.origin) {
            return Err(format!("two executed by fence {fence}"));
        }
        let judged = judged(&all, fence);
        if all.len() > KEPT {
            all.pop_first();
        }
        judged
    }
}

impl Stretch {
    fn of(told: &Told) -> Stretch {
        Stretch {
            process: told.process,
            origin: told.origin,
            first: told.time,
            last: told.time,
        }
    }
}

/// Judges the stretch of this fence beside the others.
fn judged(all: &BTreeMap<u64, Stretch>, fence: u64) -> Result<(), String> {
    let stretch = all[&fence];
    let before = all.range(..fence).next_back();
    let after = all.range(fence + 1..).next();
    let pairs = [
        before.map(|it| (it, (&fence, &stretch))),
        after.map(|it| ((&fence, &stretch), it)),
    ];
    for ((earlier, it), (later, next)) in pairs.into_iter().flatten() {
        if it.last > next.first {
            let late = (it.last - next.first) / 1_000;
            return Err(format!(
                "fence {earlier} was executed by for {late} us after {later} began"
            ));
        }
    }
    let is_same = |it: &Stretch| it.origin == stretch.origin;
    let is_near = [before, after]
        .into_iter()
        .flatten()
        .any(|it| is_same(it.1));
    let is_there = all.iter().any(|it| *it.0 != fence && is_same(it.1));
    match is_there && !is_near {
        true => Err("another body was there in between".to_owned()),
        false => Ok(()),
    }
}

#[cfg(test)]
mod tests {
    use super::*;

    fn told(process: u64, origin: u64, time: u64) -> Told {
        let (is_new, count, numbers) = (false, 0, vec![]);
        Told {
            time,
            process,
            origin,
            is_new,
            count,
            numbers,
        }
    }

    #[test]
    fn one_process_at_a_time_executes() {
        let permits = Permits::default();
        let note = |fence, it: Told| permits.note(fence, &it, 0);
        note(3, told(1, 1, 10)).unwrap();
        note(5, told(2, 1, 30)).unwrap();
        note(3, told(1, 1, 20)).unwrap();
        assert!(note(3, told(1, 1, 40)).is_err());
        assert!(note(5, told(1, 1, 50)).is_err());
        assert!(permits.note(3, &told(1, 1, 15), 5).is_err());
    }

    #[test]
    fn a_body_that_was_lost_stays_away() {
        let permits = Permits::default();
        let note = |fence, it: Told| permits.note(fence, &it, 0);
        note(3, told(1, 1, 10)).unwrap();
        note(5, told(2, 2, 30)).unwrap();
        assert!(note(7, told(1, 1, 40)).is_err());
    }
}
