//! The election of the leader (the process that leads), which also makes earlier transactions void.
use super::{DurableControl, WrittenRevisions, TRIES};
use crate::proved::Director;
use crate::{keys, CoreFault, Durable, Refused};
use durkenzo_store::{LeaseId, Outcome, Reading, Revision, Transaction, WriteError};

impl DurableControl {
    /// Has this process elected again if a transaction that was given up may still be made. Earlier transactions
    /// compare the earlier election, so none of them is made from then on. The store is asked once.
    pub(super) fn outdate(&mut self) -> Result<(), Refused> {
        if !self.has_stray {
            return Ok(());
        }
        self.look_at_member()?;
        let lease = match self.durable.member() {
            Some(member) => Some(member.lease().ok_or(Refused::NotLeader)?),
            None => None,
        };
        let elected = elected_after(&self.durable, self.elected, lease)?;
        self.go_on_from(elected.ok_or(Refused::NotLeader)?)
    }

    /// Goes on from a new election: everything must be read again.
    fn go_on_from(&mut self, elected: Revision) -> Result<(), Refused> {
        self.director = director(&self.durable, &self.line, elected)?;
        (self.elected, self.has_stray) = (elected, false);
        (self.is_behind, self.followers, self.told) = (true, None, None);
        self.written = WrittenRevisions::default();
        Ok(())
    }
}

/// Returns the proved control of this process, which was elected at this revision. A process without a server of its
/// own has all servers, so its commands wait for no ack.
pub(super) fn director(
    durable: &Durable,
    line: &str,
    elected: Revision,
) -> Result<Director, Refused> {
    proved(durable, line, elected).map_err(Refused::of)
}

/// Does the same, but returns the code of the fault in the settings.
pub(super) fn proved(
    durable: &Durable,
    line: &str,
    elected: Revision,
) -> Result<Director, CoreFault> {
    let process = durable.process();
    match durable.member() {
        Some(_) => Director::new(line, process, elected),
        None => Director::alone(line, process, elected),
    }
}

/// Writes the leader's key for this process, and returns its revision.
pub(super) fn elect(durable: &Durable) -> Result<Revision, Refused> {
    loop {
        let reading = durable.store().read(&[keys::LEADER])?;
        let before = reading.get(keys::LEADER);
        let before = before.map_or(Revision::NEVER, |it| it.revision);
        let transaction = election(durable, before, None);
        if let Outcome::Made(revision) = durable.store().make(transaction)? {
            return Ok(revision);
        }
    }
}

/// Writes the leader's key for this process if no other one has it, and returns its revision. Returns nothing if
/// another one has it.
///
/// If the key is this process's already, it was elected without learning it, or by a control that has ended. Then it is
/// elected again: earlier transactions aren't made from then on, and don't write the leader's key any more.
pub(super) fn campaigned(durable: &Durable) -> Result<Option<Revision>, Refused> {
    let lease = durable.member().and_then(|it| it.lease());
    let lease = Some(lease.ok_or(Refused::NotLeader)?);
    let mut before = Revision::NEVER;
    for _ in 0..TRIES {
        let transaction = election(durable, before, lease).or_read(keys::LEADER);
        match durable.store().make(transaction)? {
            Outcome::Made(revision) => return Ok(Some(revision)),
            Outcome::Lost(found) => match own_election(durable, &found) {
                Some(own) => before = own,
                None => return Ok(None),
            },
        }
    }
    Err(Refused::in_vain())
}

/// Writes the leader's key for this process if it was last written at this revision, and returns the new revision. If
/// this process was elected by an earlier attempt without learning it, returns the revision of that attempt. Otherwise
/// returns nothing.
fn elected_after(
    durable: &Durable,
    before: Revision,
    lease: Option<LeaseId>,
) -> Result<Option<Revision>, WriteError> {
    let transaction = election(durable, before, lease).or_read(keys::LEADER);
    Ok(match durable.store().make(transaction)? {
        Outcome::Made(revision) => Some(revision),
        Outcome::Lost(found) => own_election(durable, &found),
    })
}

/// Returns the revision at which this process was elected, if the leader's key says so.
fn own_election(durable: &Durable, found: &Reading) -> Option<Revision> {
    let own = keys::leader_of(durable.process());
    let pair = found.get(keys::LEADER).filter(|it| it.value == own);
    pair.map(|it| it.revision)
}

/// Returns the transaction that elects this process, if the leader's key was last written at this revision.
fn election(durable: &Durable, before: Revision, lease: Option<LeaseId>) -> Transaction {
    Transaction::new()
        .compare(keys::LEADER, before)
        .put_under(keys::LEADER, keys::leader_of(durable.process()), lease)
        .with_kept_room()
}
