//! Plants bugs in the transactions and readings of a process. It changes them as the driver would if it had the bug.
use crate::bug::Bug;
use crate::flight::Became;
use crate::key::DecodedKey;
use crate::reading;
use crate::simulated_store::SimulatedStore;
use durkenzo_store::{Outcome, Pair, Reading, Revision, Seen, Transaction, WriteError};

/// Returns whether the transaction is one of a shard's server. These compare the head of a log.
fn is_of_server(transaction: &Transaction) -> bool {
    let mut compares = transaction.compares.iter();
    compares.any(|it| it.key.starts_with(b"head/"))
}

/// Returns whether the transaction is a control's command.
fn is_command(transaction: &Transaction) -> bool {
    transaction.puts.iter().any(|it| it.key == b"commands")
}

/// Returns whether a server acks by this transaction.
fn is_telling(transaction: &Transaction) -> bool {
    let mut puts = transaction.puts.iter();
    puts.any(|it| it.key.starts_with(b"ack/"))
}

/// Drops the compares of keys with this prefix.
fn uncompared(mut transaction: Transaction, prefix: &[u8]) -> Transaction {
    transaction
        .compares
        .retain(|it| !it.key.starts_with(prefix));
    transaction
}

impl SimulatedStore {
    /// Returns the transaction that is sent instead of this one.
    pub fn spoilt(&mut self, transaction: Transaction, route: usize) -> Transaction {
        let Some(bug) = self.bug else {
            return transaction;
        };
        match bug {
            Bug::NoRecordCompare => uncompared(transaction, b"record/"),
            Bug::NoHeadCompare => uncompared(transaction, b"head/"),
            Bug::NoLeaderCompare if is_command(&transaction) => uncompared(transaction, b"leader"),
            Bug::NoCommandsCompare => uncompared(transaction, b"commands"),
            Bug::NoServerCompare if is_command(&transaction) => uncompared(transaction, b"server/"),
            Bug::NoTellingCompare if is_telling(&transaction) => {
                uncompared(transaction, b"server/")
            }
            Bug::EarlyDeletion => {
                self.delete_early(&transaction, route);
                transaction
            }
            Bug::ShortBase => short(transaction),
            Bug::KeptIntent => kept(transaction),
            _ => transaction,
        }
    }

    /// Deletes the batches that this part of a base will stand for.
    fn delete_early(&mut self, part: &Transaction, route: usize) {
        let Some(DecodedKey::Part(shard, number, _)) =
            part.puts.first().and_then(|it| DecodedKey::of(&it.key))
        else {
            return;
        };
        let batches = (1..=number).map(|it| format!("batch/{shard:05}/{it:020}").into_bytes());
        let deleted = batches.fold(Transaction::new(), Transaction::delete);
        self.send_for_nobody(deleted, route);
    }

    /// Returns the error that a control is told instead of the outcome of its transaction, if the bug does that.
    pub fn refused(&self, transaction: &Transaction) -> Option<WriteError> {
        let is_so = self.bug == Some(Bug::NoReturn) && has_be_up(transaction);
        is_so.then(|| WriteError::Unavailable("by a bug".to_owned()))
    }

    /// Returns the last values of the servers' keys that are gone, if the bug makes a leader believe that they are
    /// there.
    pub fn gone(&self, prefix: &[u8]) -> Vec<Pair> {
        match self.bug {
            Some(Bug::BlindLeader) if prefix == b"server/" => self.gone_of(prefix),
            _ => Vec::new(),
        }
    }

    /// Returns the changes that a process hears of. The bug may change acks, or leave out that the leader's key is
    /// gone.
    pub fn misheard(&self, seen: Seen) -> Seen {
        match seen {
            Seen::Changes(revision, mut changes) if self.bug == Some(Bug::EarlyAck) => {
                let acks = changes.iter_mut().filter(|it| it.key.starts_with(b"ack/"));
                let told = acks.filter_map(|it| it.value.as_mut()?.get_mut(1..9));
                told.for_each(|it| it.fill(u8::MAX));
                Seen::Changes(revision, changes)
            }
            Seen::Changes(revision, mut changes) if self.bug == Some(Bug::DeafFollower) => {
                changes.retain(|it| it.key != b"leader" || it.value.is_some());
                Seen::Changes(revision, changes)
            }
            seen => seen,
        }
    }

    /// Returns the outcome that is told before the transaction is made, if the bug does that.
    pub fn untrue(&self, transaction: &Transaction) -> Option<Became> {
        let is_told = match self.bug? {
            Bug::EarlyReply => is_of_server(transaction) && transaction.writes(),
            Bug::UnsentRead => is_of_server(transaction) && !transaction.writes(),
            _ => false,
        };
        let writes = u64::from(transaction.writes());
        is_told.then_some(Ok(Outcome::Made(Revision(self.revision() + writes))))
    }

    /// Returns the outcome that is told instead of the transaction's own.
    pub fn told(&self, transaction: &Transaction, became: Became) -> Became {
        let made = Ok(Outcome::Made(Revision(self.revision() + 1)));
        match (self.bug, &became) {
            _ if !is_of_server(transaction) => became,
            (Some(Bug::UnknownAsLost), Err(WriteError::Unknown(why))) => {
                Err(WriteError::Unavailable(why.clone()))
            }
            (Some(Bug::UnknownAsUnheld), Err(WriteError::Unknown(_))) => {
                Ok(Outcome::Lost(Reading::default()))
            }
            (Some(Bug::UnknownAsMade), Err(WriteError::Unknown(_))) => made,
            (Some(Bug::LostAsMade), Ok(Outcome::Lost(_))) => made,
            _ => became,
        }
    }

    /// Returns the reading that a process gets instead of this one.
    pub fn misread(&mut self, keys: &[&[u8]], mut reading: Reading) -> Reading {
        match self.bug {
            Some(Bug::TornReading) => {
                let heads = reading.pairs.iter_mut();
                let heads = heads.filter(|it| it.key.starts_with(b"head/"));
                heads.for_each(|it| one_batch_less(&mut it.value));
            }
            Some(Bug::WrongHead) => {
                let moment = self.revision().saturating_sub(self.chance.below(6));
                let heads = reading.pairs.iter_mut();
                for it in heads.filter(|it| it.key.starts_with(b"head/")) {
                    if let Some(before) = self.pair_at(&it.key, moment) {
                        it.value = before.value;
                    }
                }
            }
            Some(Bug::TornRecords) if keys.contains(&&b"commands"[..]) => {
                let moment = self.revision().saturating_sub(self.chance.below(6));
                let is_commands = |it: &&&[u8]| **it == b"commands";
                let others = keys.iter().filter(|it| !is_commands(it));
                let others = others.filter_map(|it| self.pair_at(it, moment));
                reading.pairs.retain(|it| it.key == b"commands");
                reading.pairs.extend(others);
            }
            _ => {}
        }
        reading
    }
}

/// Drops the deletions of intents.
fn kept(mut transaction: Transaction) -> Transaction {
    let is_intent = |it: &[u8]| DecodedKey::of(it).is_some_and(DecodedKey::is_intent);
    transaction.deletes.retain(|it| !is_intent(it));
    transaction
}

/// Returns whether this transaction marks a server as up again.
fn has_be_up(transaction: &Transaction) -> bool {
    let mut puts = transaction.puts.iter();
    puts.any(|it| {
        let is_state = matches!(DecodedKey::of(&it.key), Some(DecodedKey::State(_)));
        is_state && reading::state(&it.value).is_some_and(|it| it.0 == 0)
    })
}

/// Takes one batch from a head, if it has one after its base.
fn one_batch_less(head: &mut [u8]) {
    if let Some([batches, base, _]) = reading::head(head) {
        if batches > base {
            head[1..9].copy_from_slice(&(batches - 1).to_be_bytes());
        }
    }
}

/// Makes a base claim one batch more than it holds, both in the keys of its parts and in the head that names it.
fn short(mut transaction: Transaction) -> Transaction {
    let names_base = transaction.puts.len() == 1;
    for put in &mut transaction.puts {
        match DecodedKey::of(&put.key) {
            Some(DecodedKey::Part(shard, number, place)) => {
                put.key = format!("base/{shard:05}/{:020}/{place:05}", number + 1).into_bytes();
            }
            Some(DecodedKey::Head(_)) if names_base => {
                if let Some([_, base, _]) = reading::head(&put.value) {
                    put.value[9..17].copy_from_slice(&(base + 1).to_be_bytes());
                }
            }
            _ => {}
        }
    }
    transaction
}
