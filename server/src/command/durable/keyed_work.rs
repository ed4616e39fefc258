use super::answers::Answers;
use super::blind_body::BlindBody;
use super::overlay::{changes, loaded};
use super::spelled_request::spell_keyed;
use crate::body::ShardBody;
use crate::command::data;
use crate::command::spec::Spec;
use crate::command::Fault;
use crate::resp::{Command, OwnedCommand, Replies};
use durkenzo_driver::{Begin, Key, MapReply, MapRequest, Numbered, Work, WorkOutcome, WorkStep};
use std::sync::Arc;

/// Returns how the command of this row begins. Its keys must all be of one shard. A command that only reads, or that
/// writes whatever values there are, needs one transaction. All others read first.
fn begin(spec: &Spec, command: Command<'_>) -> Begin {
    let keys = || different(keys_of(spec, command).collect());
    if !spec.effect.writes() {
        return Begin::Read(keys());
    }
    match BlindBody::requests_of(spec, command) {
        Ok(requests) => Begin::Write(requests),
        Err(_) => Begin::Change(keys()),
    }
}

/// Returns the requests by which the command of this row writes, for a command with a client's number.
///
/// # Errors
///
/// If it reads first, because then it isn't the same work each time; if it writes more than a shard keeps note of; or
/// the reason why it is refused whatever values its keys have.
pub(super) fn written_once(spec: &Spec, command: Command<'_>) -> Result<Vec<MapRequest>, Fault> {
    let requests = BlindBody::requests_of(spec, command)?;
    match requests.len() <= Numbered::MOST_REQUESTS {
        true => Ok(requests),
        false => Err(Fault::NotNumbered),
    }
}

/// Returns the command's keys, as often as it names them.
fn keys_of<'a>(spec: &Spec, command: Command<'a>) -> impl Iterator<Item = Key> + use<'a> {
    spec.keys.of(command).map(Key::from)
}

/// Returns the keys, each once.
fn different(mut keys: Vec<Key>) -> Vec<Key> {
    keys.sort_unstable();
    keys.dedup();
    keys
}

/// Returns the keys that these commands read or write, each once.
pub(super) fn keys_of_all<'a>(
    commands: impl Iterator<Item = (&'static Spec, &'a OwnedCommand)>,
) -> Vec<Key> {
    let keys = commands.flat_map(|(spec, it)| keys_of(spec, it.command()));
    different(keys.collect())
}

/// A command whose keys are all of one shard.
pub(super) struct KeyedWork {
    spec: &'static Spec,
    command: OwnedCommand,
    shard: u16,
    begins: BeginKind,
    /// The number that its client gave it, if it did.
    numbered: Option<Numbered>,
    /// The keys whose values were read.
    keys: Vec<Key>,
    /// The answer, if it is known before the writes are made.
    answer: Option<Replies>,
    answers: Arc<Answers>,
    place: usize,
}

#[derive(Clone, Copy, PartialEq, Eq)]
enum BeginKind {
    Read,
    Change,
    Write,
}

impl KeyedWork {
    /// Returns the step of this command. Its answer is the part at this place.
    pub(super) fn step(
        (spec, command): (&'static Spec, OwnedCommand),
        shard: u16,
        answers: Arc<Answers>,
        place: usize,
    ) -> WorkStep {
        let begin = begin(spec, command.command());
        let (begins, keys) = match &begin {
            Begin::Read(keys) => (BeginKind::Read, keys.clone()),
            Begin::Change(keys) => (BeginKind::Change, keys.clone()),
            Begin::Write(_) | Begin::Numbered(..) => (BeginKind::Write, Vec::new()),
            // No command with keys begins like this.
            Begin::Scan(_) | Begin::Keys(_) | Begin::Count | Begin::Opaque(_) => {
                (BeginKind::Write, Vec::new())
            }
        };
        let work = KeyedWork {
            spec,
            command,
            shard,
            begins,
            numbered: None,
            keys,
            answer: None,
            answers,
            place,
        };
        WorkStep {
            begin,
            work: Box::new(work),
        }
    }

    /// Returns the step of this command, which has a number that its client gave. Its answer is the only part.
    ///
    /// # Errors
    ///
    /// If it is refused whatever values its keys have, if it reads them first, or if it writes too much.
    pub(super) fn numbered(
        numbered: Numbered,
        (spec, command): (&'static Spec, OwnedCommand),
        shard: u16,
        answers: Arc<Answers>,
    ) -> Result<WorkStep, Fault> {
        let requests = written_once(spec, command.command())?;
        let work = KeyedWork {
            spec,
            command,
            shard,
            begins: BeginKind::Write,
            numbered: Some(numbered),
            keys: Vec::new(),
            answer: None,
            answers,
            place: 0,
        };
        Ok(WorkStep {
            begin: Begin::Numbered(numbered, requests),
            work: Box::new(work),
        })
    }

    /// Does the command on this body, and answers it.
    fn execute(&self, mut body: impl ShardBody, answer: &mut Replies) {
        data::answer(self.spec, self.command.command(), &mut body, answer);
    }
}

impl Work for KeyedWork {
    fn decide(&mut self, held: Vec<MapReply>) -> Vec<MapRequest> {
        let mut answer = self.answers.part();
        let requests = loaded(&self.keys, &held).map(|mut body| {
            data::answer(self.spec, self.command.command(), &mut body, &mut answer);
            changes(&mut body, &self.keys, &held)
        });
        let requests = requests.unwrap_or_else(|fault| {
            answer.error(fault);
            Vec::new()
        });
        self.answer = Some(answer);
        requests
    }

    fn is_wanted(&self) -> bool {
        self.answers.caller().is_there()
    }

    fn spell(&self) -> Vec<u8> {
        spell_keyed(self.answers.part().protocol, self.numbered, &self.command)
    }

    fn answered(self: Box<Self>, answer: &[u8]) {
        self.answers.bring_bytes(self.place, answer);
    }

    fn end(mut self: Box<Self>, outcome: WorkOutcome) {
        let decided = self.answer.take();
        let mut answer = self.answers.part();
        let done = match outcome {
            Err(why) => Err(Fault::NotDone(self.shard, why)),
            Ok(replies) => match (self.begins, decided) {
                (BeginKind::Change, Some(decided)) => {
                    answer = decided;
                    Ok(())
                }
                (BeginKind::Read, _) => {
                    loaded(&self.keys, &replies).map(|it| self.execute(it, &mut answer))
                }
                (BeginKind::Change, None) | (BeginKind::Write, _) => {
                    self.execute(BlindBody::replied(replies), &mut answer);
                    Ok(())
                }
            },
        };
        if let Err(fault) = done {
            answer.error(fault);
        }
        self.answers.bring(self.place, answer);
    }
}
