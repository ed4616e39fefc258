//! The facts that a client knows of one of its keys, and the faults that it therefore finds in an answer.
use crate::message::{Told, LAST};
use std::collections::{BTreeSet, HashSet};

/// A key with which only one client counts, one call after another.
#[derive(Debug, Default)]
pub struct Key {
    /// The number of the last call.
    number: u64,
    /// The last answer.
    told: Option<Told>,
    /// The calls that may have been made, or may still be made, each at most once.
    unsure: BTreeSet<u64>,
    /// The beginnings of the shard whose counts were lost.
    left: HashSet<u64>,
}

impl Key {
    /// Returns the number of the next call.
    pub fn next(&mut self) -> u64 {
        self.number += 1;
        self.number
    }

    /// Notes that nobody knows whether the call with this number was made.
    pub fn unsure(&mut self, number: u64) {
        self.unsure.insert(number);
    }

    /// Takes the answer to the call with this number, or to a read if the number is 0. Returns how many answered calls
    /// are lost, if the service was told of their loss.
    ///
    /// # Errors
    ///
    /// If a call is lost or made twice, or if a call is made that must not be made. The text says which.
    pub fn take(&mut self, told: Told, number: u64) -> Result<u64, String> {
        let before = self.told.take();
        let lost = match &before {
            Some(before) if before.origin != told.origin => {
                self.left.insert(before.origin);
                before.count
            }
            Some(_) | None => 0,
        };
        let same = before.filter(|it| it.origin == told.origin);
        let checked = self.checked(same.as_ref(), &told, number, lost);
        self.told = Some(told);
        checked.map(|()| lost)
    }

    fn checked(
        &mut self,
        same: Option<&Told>,
        told: &Told,
        number: u64,
        lost: u64,
    ) -> Result<(), String> {
        if self.left.contains(&told.origin) {
            return Err("counts are there again that were lost".to_owned());
        }
        if lost > 0 && told.is_new {
            return Err("the shard began as if nobody had had it".to_owned());
        }
        let (count, last) = same.map_or((0, &[][..]), |it| (it.count, &it.numbers));
        let fresh = told.count.checked_sub(count);
        let fresh = fresh.ok_or_else(|| format!("{count} were counted, and now {}", told.count))?;
        if told.numbers.len() as u64 != told.count.min(LAST as u64) {
            return Err("the numbers aren't as many as the counts".to_owned());
        }
        let seen = fresh.min(told.numbers.len() as u64) as usize;
        let (old, new) = told.numbers.split_at(told.numbers.len() - seen);
        if !last.ends_with(old) {
            return Err(format!("{last:?} were counted, and now {old:?}"));
        }
        self.note_made(new, number)?;
        match fresh - seen as u64 > self.unsure.len() as u64 {
            true => Err("more were counted than may have been".to_owned()),
            false => Ok(()),
        }
    }

    /// Notes that these calls were counted since the last answer. If `number` isn't 0, the call with that number must
    /// be the last one. The calls before it must be calls that may have been made.
    fn note_made(&mut self, new: &[u64], number: u64) -> Result<(), String> {
        let others = match (number, new.split_last()) {
            (0, _) => new,
            (_, Some((own, others))) if *own == number => others,
            (_, Some(_) | None) => {
                return Err(format!("call {number} isn't counted last: {new:?}"))
            }
        };
        match others.iter().find(|it| !self.unsure.remove(it)) {
            Some(it) => Err(format!(
                "call {it} is counted beside {number}: twice, or though it wasn't to be"
            )),
            None => Ok(()),
        }
    }
}

#[cfg(test)]
mod tests {
    use super::*;

    fn told(origin: u64, numbers: &[u64]) -> Told {
        Told {
            time: 0,
            process: 1,
            origin,
            is_new: origin == 1,
            count: numbers.len() as u64,
            numbers: numbers.to_vec(),
        }
    }

    #[test]
    fn calls_are_counted_once_in_their_order() {
        let mut key = Key::default();
        assert_eq!(key.take(told(1, &[1]), 1), Ok(0));
        assert_eq!(key.take(told(1, &[1, 2]), 2), Ok(0));
        assert!(key.take(told(1, &[1, 2, 2, 3]), 3).is_err());
        let mut key = Key::default();
        key.take(told(1, &[1, 2]), 0).unwrap_err();
        key.take(told(1, &[1, 2, 3]), 3).unwrap();
        assert!(key.take(told(1, &[1, 3]), 0).is_err());
    }

    #[test]
    fn an_unsure_call_is_made_at_most_once_and_late() {
        let mut key = Key::default();
        key.take(told(1, &[1]), 1).unwrap();
        key.unsure(2);
        assert_eq!(key.take(told(1, &[1, 3]), 3), Ok(0));
        assert_eq!(key.take(told(1, &[1, 3, 2]), 0), Ok(0));
        assert!(key.take(told(1, &[1, 3, 2, 2]), 0).is_err());
    }

    #[test]
    fn what_is_lost_is_told_and_stays_lost() {
        let mut key = Key::default();
        key.take(told(1, &[1]), 1).unwrap();
        assert_eq!(key.take(told(2, &[2]), 2), Ok(1));
        assert!(key.take(told(1, &[1, 3]), 3).is_err());
        let mut key = Key::default();
        key.take(told(2, &[1]), 1).unwrap();
        assert!(key.take(told(1, &[2]), 2).is_err());
    }
}
