use crate::{keys, Live};
use durkenzo_store::{LeaseId, Outcome, Revision, Transaction, WriteError};

/// A write of a server's key, with its acks.
pub(super) struct KeyWrite {
    pub(super) server: u16,
    pub(super) live: Live,
    pub(super) acks: Vec<(u16, u64)>,
    /// The revision at which the key was last written before.
    pub(super) before: Revision,
    /// The revision that created it then.
    pub(super) created: Revision,
}

/// The state of a server's key.
pub(super) struct Lying {
    pub(super) revision: Revision,
    pub(super) created: Revision,
}

/// Why a server's key wasn't written: the address of the process that has it, and the state of the key if that is this
/// process.
pub(super) struct Taken {
    pub(super) by: String,
    pub(super) own: Option<Lying>,
}

impl KeyWrite {
    /// Returns the transaction that writes the key under this lease, if the key is as it was before.
    pub(super) fn transaction(&self, lease: LeaseId) -> Transaction {
        let key = keys::server(self.server);
        let write = Transaction::new()
            .compare(key.clone(), self.before)
            .put_under(key.clone(), self.live.bytes(), Some(lease))
            .with_kept_room()
            .or_read(key);
        self.acks.iter().fold(write, |write, (shard, generation)| {
            let ack = keys::ack(*shard, self.server);
            write.put_under(ack, keys::ack_of(*generation), Some(lease))
        })
    }

    /// Returns the state of the key after this outcome of its transaction.
    pub(super) fn judged(
        &self,
        outcome: Result<Outcome, WriteError>,
    ) -> Result<Result<Lying, Taken>, WriteError> {
        let reading = match outcome? {
            Outcome::Made(revision) => {
                let is_new = self.before == Revision::NEVER;
                let created = if is_new { revision } else { self.created };
                return Ok(Ok(Lying { revision, created }));
            }
            Outcome::Lost(reading) => reading,
        };
        let Some(pair) = reading.get(&keys::server(self.server)) else {
            let (revision, created) = (Revision::NEVER, Revision::NEVER);
            return Ok(Err(Taken {
                by: "an address that it doesn't tell".to_owned(),
                own: Some(Lying { revision, created }),
            }));
        };
        let lying = Lying {
            revision: pair.revision,
            created: pair.created,
        };
        let (by, own) = match Live::of(&pair.value, self.live.joined) {
            // The outcome wasn't known, so it isn't known either which acks were told with the key.
            Some(found) if found == self.live && self.acks.is_empty() => return Ok(Ok(lying)),
            Some(found) => {
                let is_own = found.process == self.live.process;
                (found.addresses.servers, is_own.then_some(lying))
            }
            None => ("an address that can't be read".to_owned(), None),
        };
        Ok(Err(Taken { by, own }))
    }
}
