use super::data;
use super::spec::{Effect, Spec, Word};
use super::Fault;
use crate::body::ShardBody;
use crate::resp::{number, Command, Replies};

/// How a command with keys of several shards is split: into one command for each key.
#[derive(Clone, Copy, Debug, PartialEq, Eq)]
pub struct Split {
    /// The name of the command that does one key.
    part: &'static str,
    /// How the answers of the parts become its answer.
    pub joined: Combine,
}

/// How the answers for single keys become one answer.
#[derive(Clone, Copy, Debug, PartialEq, Eq)]
pub enum Combine {
    /// They are numbers, and the answer is their sum.
    Sum,
    /// They are values, and the answer lists them, one for each key.
    Values,
    /// They are `OK`, and so is the answer.
    Ok,
}

/// How far a command has come that goes over several keys or shards one by one.
#[derive(Clone, Copy, Debug, Default, PartialEq, Eq)]
pub struct KeysDone {
    /// How many of them are done.
    pub done: usize,
    /// The sum of their answers.
    count: usize,
}

impl Split {
    /// Makes the split of a command that counts keys: this command counts one.
    pub(super) const fn count(part: &'static str) -> Split {
        let joined = Combine::Sum;
        Split { part, joined }
    }

    /// Makes the split of a command that returns the keys' values: this command returns one.
    pub(super) const fn values(part: &'static str) -> Split {
        let joined = Combine::Values;
        Split { part, joined }
    }

    /// Makes the split of a command that writes keys: this command writes one.
    pub(super) const fn ok(part: &'static str) -> Split {
        let joined = Combine::Ok;
        Split { part, joined }
    }

    /// Returns the row of the command that does one key.
    pub fn part(self) -> Result<&'static Spec, Fault> {
        Spec::named(self.part.as_bytes()).ok_or(Fault::CrossShard)
    }
}

/// A command that is done key by key, each under a permit of its own.
#[derive(Clone, Copy, Debug)]
pub struct SplitCommand<'a> {
    spec: &'static Spec,
    part: &'static Spec,
    joined: Combine,
    command: Command<'a>,
}

impl<'a> SplitCommand<'a> {
    /// Makes the split command, whose keys are of several shards.
    ///
    /// # Errors
    ///
    /// If all its keys must be of one shard.
    pub fn new(spec: &'static Spec, command: Command<'a>) -> Result<SplitCommand<'a>, Fault> {
        let split = spec.split.ok_or(Fault::CrossShard)?;
        Ok(SplitCommand {
            spec,
            part: split.part()?,
            joined: split.joined,
            command,
        })
    }

    /// Writes the beginning of the answer, before those of the keys. Refuses the command if a value is too long.
    pub fn begin(&self, replies: &mut Replies) -> Result<(), Fault> {
        match self.joined {
            Combine::Ok => data::check_values(self.spec.name, self.command),
            Combine::Values => {
                replies.array(self.spec.keys.of(self.command).count());
                Ok(())
            }
            Combine::Sum => Ok(()),
        }
    }

    /// Returns the next key, unless all are done.
    pub fn next_key(&self, progress: KeysDone) -> Option<&'a [u8]> {
        let index = self.place(progress);
        (index < self.command.len()).then(|| self.command.get(index))
    }

    /// Does the next key, whose value must be short enough.
    pub fn execute_next(
        &self,
        body: &mut dyn ShardBody,
        progress: &mut KeysDone,
        replies: &mut Replies,
    ) -> Result<(), Fault> {
        let (first, mark) = (self.place(*progress), replies.mark());
        // The argument before the key stands in for the part's name, which no command reads.
        let part = self
            .command
            .within(first - 1, first + self.spec.keys.step());
        self.part.execute(part, body, replies)?;
        match self.joined {
            Combine::Values => {}
            Combine::Ok => replies.take_back(mark),
            Combine::Sum => {
                progress.count += count_of(replies.since(mark));
                replies.take_back(mark);
            }
        }
        progress.done += 1;
        Ok(())
    }

    /// Writes the end of the answer.
    pub fn end(&self, progress: KeysDone, replies: &mut Replies) {
        match self.joined {
            Combine::Ok => replies.ok(),
            Combine::Values => {}
            Combine::Sum => replies.count(progress.count),
        }
    }

    /// Returns whether it has written a key, so that nobody is told that nothing has changed.
    pub fn has_written(&self, progress: KeysDone) -> bool {
        has_written(self.spec.effect, self.joined, progress)
    }

    /// Returns the progress to keep while the command waits. Values that it would answer are read anew.
    pub fn kept(&self, progress: KeysDone) -> KeysDone {
        match self.joined {
            Combine::Values => KeysDone::default(),
            Combine::Sum | Combine::Ok => progress,
        }
    }

    /// Returns the place of the next key.
    fn place(&self, progress: KeysDone) -> usize {
        1 + progress.done * self.spec.keys.step()
    }
}

impl Spec {
    /// Returns the refusal of a command of this row that has come so far; or nothing if nothing has changed.
    pub fn in_part(&self, progress: KeysDone) -> Option<Fault> {
        let is_in_part = match self.word {
            Word::Flush => return (progress.done > 0).then_some(Fault::FlushedInPart),
            Word::Data(_) => self
                .split
                .is_some_and(|it| has_written(self.effect, it.joined, progress)),
            Word::Talk(_)
            | Word::Multi
            | Word::Exec
            | Word::Discard
            | Word::Scan
            | Word::ScanRange
            | Word::Keys
            | Word::Control => false,
        };
        is_in_part.then_some(Fault::InPart)
    }
}

fn has_written(effect: Effect, joined: Combine, progress: KeysDone) -> bool {
    effect.writes()
        && match joined {
            Combine::Sum => progress.count > 0,
            Combine::Values | Combine::Ok => progress.done > 0,
        }
}

/// Returns the number in the answer, or 0.
pub fn count_of(answer: &[u8]) -> usize {
    let digits = answer.strip_prefix(b":");
    let digits = digits.and_then(|it| it.strip_suffix(b"\r\n"));
    let count = digits.and_then(number::parse);
    count.and_then(|it| it.try_into().ok()).unwrap_or(0)
}
