//! The intents of a control. They lie in the store, so that the next leader goes on with them.
use super::{DurableControl, TRIES};
use crate::{keys, Intent, Refused};
use durkenzo_store::{Outcome, Revision, Transaction, WriteError};

/// The most intents that are written or withdrawn at once.
const MOST_AT_ONCE: usize = 64;

impl DurableControl {
    /// Returns all intents that weren't withdrawn.
    ///
    /// # Errors
    ///
    /// As [`Refused`] says. That applies to the calls below, too.
    pub fn intents(&mut self) -> Result<Vec<Intent>, Refused> {
        self.catch_up()?;
        let mut intents = Vec::new();
        for prefix in [keys::DRAINS, keys::DRAINED, keys::HOMES] {
            let reading = self.durable.store().read_all(prefix)?;
            let pairs = reading.pairs.iter();
            intents.extend(pairs.filter_map(|it| Intent::of(&it.key, &it.value)));
        }
        Ok(intents)
    }

    /// Writes the intents to the store. If there is one for the same server or shard already, that one stays. If the
    /// intents may be there in spite of an error, the error is `Unknown`, whatever came last.
    pub fn intend(&mut self, intents: &[Intent]) -> Result<(), Refused> {
        self.catch_up()?;
        let mut intents = intents.chunks(MOST_AT_ONCE);
        let intended = intents.try_for_each(|some| self.intend_some(some.to_vec()));
        intended.map_err(|error| match self.has_stray {
            true => Refused::in_vain(),
            false => error,
        })
    }

    fn intend_some(&mut self, mut left: Vec<Intent>) -> Result<(), Refused> {
        for _ in 0..TRIES {
            let all = Transaction::new().compare(keys::LEADER, self.elected);
            let all = all.with_kept_room();
            let transaction = left.iter().fold(all, |all, it| {
                let all = all.compare(it.key(), Revision::NEVER);
                all.put(it.key(), it.bytes())
            });
            if self.sent(transaction)? {
                return Ok(());
            }
            let keys: Vec<_> = left.iter().map(|it| it.key()).collect();
            let slices: Vec<&[u8]> = keys.iter().map(Vec::as_slice).collect();
            let lies = self.durable.store().read(&slices)?;
            left.retain(|it| lies.get(&it.key()).is_none());
            if left.is_empty() {
                return Ok(());
            }
        }
        Err(Refused::in_vain())
    }

    /// Withdraws the intents, because they are done, or nobody has them any more.
    pub fn withdraw(&mut self, intents: &[Intent]) -> Result<(), Refused> {
        self.catch_up()?;
        let mut intents = intents.chunks(MOST_AT_ONCE);
        intents.try_for_each(|some| self.withdraw_some(some))
    }

    fn withdraw_some(&mut self, intents: &[Intent]) -> Result<(), Refused> {
        for _ in 0..TRIES {
            let all = Transaction::new().compare(keys::LEADER, self.elected);
            let transaction = intents.iter().fold(all, |all, it| all.delete(it.key()));
            if self.sent(transaction)? {
                return Ok(());
            }
        }
        Err(Refused::in_vain())
    }

    /// Sends the transaction. Returns whether it was made. If that isn't known, or the transaction was lost, it must be
    /// sent again.
    fn sent(&mut self, transaction: Transaction) -> Result<bool, Refused> {
        match self.durable.store().make(transaction) {
            Ok(Outcome::Made(_)) => return Ok(true),
            Ok(Outcome::Lost(_)) => {}
            // It may be made after another one of the same keys.
            Err(WriteError::Unknown(_)) => self.has_stray = true,
            Err(error) => return Err(error.into()),
        }
        self.look_at_leader().map(|()| false)
    }
}
