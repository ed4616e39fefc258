use super::session::Session;
use super::spec::{KeyShards, Spec, Word};
use super::Fault;
use crate::control::is_of_all;
use crate::keyspace::Keyspace;
use crate::memory::CEILING;
use crate::resp::Command;

/// The row of a command, and the shard of its keys.
pub type Keyed = (&'static Spec, u16);

/// The next step for a command.
pub enum Step {
    /// It is done on keys of one shard.
    Data(Keyed),
    /// It is done on keys of several shards, one by one.
    Each(&'static Spec),
    /// It is queued for EXEC, with keys of this shard.
    Queue(Option<u16>),
    /// It is done in another way.
    Other(&'static Spec),
}

impl Step {
    /// Returns the step of the command, or why it is refused.
    // When this is inlined, the compiler builds only the parts of the fault that the caller reads.
    #[inline(always)]
    pub fn of(session: &Session, command: Command<'_>, keyspace: &Keyspace) -> Result<Step, Fault> {
        let is_within = session.transaction.is_some();
        let spec = Spec::queued(command)?;
        if !is_within && spec.lacks_value(command) {
            return Err(Fault::wrong_arity(spec.name));
        }
        if !session.is_known && !spec.is_open() {
            return Err(Fault::NoAuth);
        }
        if spec.is_control() && !session.may_control && !is_of_all(command) {
            return Err(Fault::no_permission(spec.name, command.get(1)));
        }
        check_memory(session, spec)?;
        let shards = spec.shards(command, keyspace)?;
        if is_within && spec.is_queued() {
            spec.check_subcommand(command)?;
            return shards.one().map(Step::Queue);
        }
        Ok(match spec.word {
            Word::Data(_) => match shards {
                KeyShards::One(shard) => Step::Data((spec, shard)),
                KeyShards::Several if spec.split.is_some() => Step::Each(spec),
                KeyShards::Several => return Err(Fault::CrossShard),
                KeyShards::None => Step::Other(spec),
            },
            Word::Talk(_)
            | Word::Multi
            | Word::Exec
            | Word::Discard
            | Word::Scan
            | Word::ScanRange
            | Word::Keys
            | Word::Flush
            | Word::Control => Step::Other(spec),
        })
    }

    /// Returns the command's row and shard if it is done on keys of one shard. Returns nothing otherwise, or if it is
    /// refused.
    pub fn keyed(session: &Session, command: Command<'_>, keyspace: &Keyspace) -> Option<Keyed> {
        match Step::of(session, command, keyspace) {
            Ok(Step::Data(keyed)) => Some(keyed),
            _ => None,
        }
    }
}

/// Refuses a command that may take more memory, if too much is in use. As in Redis, that includes every command that is
/// queued.
#[inline]
fn check_memory(session: &Session, spec: &Spec) -> Result<(), Fault> {
    match &session.transaction {
        None => spec.check_memory(),
        Some(transaction) if spec.is_exec() => transaction.check_memory(),
        Some(_) if spec.is_queued() && CEILING.is_passed() => Err(Fault::MaxMemory),
        Some(_) => Ok(()),
    }
}
