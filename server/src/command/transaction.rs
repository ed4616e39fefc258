use super::data;
use super::session::Session;
use super::spec::{AnswerSize, Need, Spec, TalkWord, Word};
use super::talk;
use super::unanswered::Unanswered;
use super::Fault;
use crate::body::{ShardBody, MAX_TEXT};
use crate::cluster::Cluster;
use crate::memory::{self, CEILING};
use crate::resp::{Command, OwnedCommand, Replies, MAX_ARGUMENTS, MAX_COMMAND};

/// The most bytes of an answer that is a value, including its length.
const MOST_OF_VALUE: usize = MAX_TEXT + 16;

/// Commands that EXEC does at once. Their keys are all of one shard.
#[derive(Debug, Default)]
pub struct MultiTransaction {
    /// Its commands, with their rows.
    commands: Vec<(&'static Spec, OwnedCommand)>,
    shard: Option<u16>,
    size: usize,
    is_aborted: bool,
    /// The greatest need for memory among its commands.
    need: Option<Need>,
}

impl MultiTransaction {
    /// Adds a command with keys of this shard, if it has any.
    pub fn push(&mut self, command: Command<'_>, shard: Option<u16>) -> Result<(), Fault> {
        let spec = Spec::queued(command)?;
        let size = self.size + command.size();
        if self.commands.len() >= MAX_ARGUMENTS || size > MAX_COMMAND {
            return Err(Fault::QueueFull);
        }
        if self.shard.is_some() && shard.is_some() && self.shard != shard {
            return Err(Fault::CrossShard);
        }
        memory::reserve(&mut self.commands, 1)?;
        self.commands.push((spec, OwnedCommand::copied(command)?));
        self.shard = self.shard.or(shard);
        self.size = size;
        self.need = self.need.max(Some(spec.need()));
        Ok(())
    }

    /// Has EXEC execute nothing, because a command was refused.
    pub fn abort(&mut self) {
        self.is_aborted = true;
        self.commands = Vec::new();
    }

    /// Returns whether a command was refused.
    pub fn is_aborted(&self) -> bool {
        self.is_aborted
    }

    /// Refuses EXEC if its data may take more memory and too much is in use.
    pub fn check_memory(&self) -> Result<(), Fault> {
        match self.need() == Need::Growth && !self.is_aborted && CEILING.is_passed() {
            true => Err(Fault::ExecMaxMemory),
            false => Ok(()),
        }
    }

    /// Returns how many commands there are.
    pub fn len(&self) -> u64 {
        self.commands.len() as u64
    }

    /// Returns the memory that they need over a store.
    pub fn need(&self) -> Need {
        self.need.unwrap_or(Need::Texts)
    }

    /// Returns how many bytes their arguments have in all.
    pub fn size(&self) -> usize {
        self.size
    }

    /// Returns all commands.
    pub fn commands(&self) -> impl Iterator<Item = &OwnedCommand> {
        self.commands.iter().map(|it| &it.1)
    }

    /// Returns the commands with keys, and their rows.
    pub fn data(&self) -> impl Iterator<Item = (&'static Spec, &OwnedCommand)> {
        let commands = self.commands.iter().map(|it| (it.0, &it.1));
        commands.filter(|it| it.0.is_data())
    }

    /// Returns how many arguments the commands with keys have. No more than these can be keys.
    pub fn arguments(&self) -> usize {
        self.data().map(|it| it.1.command().len() - 1).sum()
    }

    /// Returns the most texts in the answers to the commands with keys.
    pub fn texts_told(&self) -> usize {
        let told = self.data().map(|(spec, it)| (spec, it.command()));
        let told = told.filter(|(spec, it)| ReplySize::of(spec, *it) != ReplySize::Short);
        told.map(|(spec, it)| spec.texts(it)).sum()
    }

    /// Returns the shard of all keys, if there are any.
    pub fn shard(&self) -> Option<u16> {
        self.shard
    }

    /// Does all commands, whose keys are all in the shard of this body, and answers them in one reply.
    pub fn execute(
        &self,
        mut body: Option<&mut (dyn ShardBody + 'static)>,
        session: &mut Session,
        cluster: &Cluster,
        replies: &mut Replies,
    ) {
        let (first, mut is_full) = (replies.mark(), false);
        replies.array(self.commands.len());
        let left = (0..self.commands.len()).rev();
        for ((spec, command), left) in self.commands.iter().zip(left) {
            replies.owe(left);
            let (command, mark) = (command.command(), replies.mark());
            let size = ReplySize::of(spec, command);
            is_full |= size == ReplySize::OfValue && !replies.has_room(first, MOST_OF_VALUE);
            let done = match (spec.word, &mut body) {
                _ if is_full && size != ReplySize::Short => Err(Fault::ReplyTooLarge.into()),
                (Word::Data(_), Some(body)) => {
                    data::answer(spec, command, *body, replies);
                    Ok(())
                }
                (Word::Talk(word), body) => {
                    self.note_keys(word, body, cluster);
                    talk::answer(word, command, session, cluster, replies)
                }
                // None of these can be queued.
                (Word::Data(_), None)
                | (
                    Word::Multi
                    | Word::Exec
                    | Word::Discard
                    | Word::Scan
                    | Word::ScanRange
                    | Word::Keys
                    | Word::Flush
                    | Word::Control,
                    _,
                ) => Err(Fault::NotQueued.into()),
            };
            is_full |= replies.is_too_large(first);
            let done = match replies.are_whole() {
                Err(refused) => Err(Fault::from(refused).into()),
                Ok(()) if size == ReplySize::OfRead && replies.is_too_large(first) => {
                    Err(Fault::ReplyTooLarge.into())
                }
                Ok(()) => done,
            };
            if let Err(Unanswered::Fault(fault)) = done {
                replies.take_back(mark);
                fault.answer(replies);
            }
        }
    }

    /// Notes how many keys there are now, before a command that tells it.
    fn note_keys(
        &self,
        word: TalkWord,
        body: &mut Option<&mut (dyn ShardBody + 'static)>,
        cluster: &Cluster,
    ) {
        use TalkWord::*;
        let is_told = match word {
            DbSize | Info => true,
            Acl | Auth | Client | Command | Config | Echo | Hello | Ping | Quit | Reset
            | Select | Time => false,
        };
        if let (true, Some(shard), Some(body)) = (is_told, self.shard, body) {
            cluster.storage.note_keys(shard, body.keys());
        }
    }
}

/// How large an answer may be. If the whole reply is full, this decides whether a command is still done.
#[derive(Clone, Copy, PartialEq, Eq)]
enum ReplySize {
    /// It is always done, and answered truly: if it changes something, nobody must be told that it didn't.
    Short,
    /// It changes something, and is answered with the old value. It is done only if there is room for the largest
    /// value.
    OfValue,
    /// It changes nothing, so its answer can be taken back.
    OfRead,
}

impl ReplySize {
    fn of(spec: &Spec, command: Command<'_>) -> ReplySize {
        if spec.is_data() && !spec.effect.writes() {
            return ReplySize::OfRead;
        }
        match spec.answer {
            AnswerSize::Short => ReplySize::Short,
            AnswerSize::Value => ReplySize::OfValue,
            AnswerSize::ValueWith(option) => {
                match (3..command.len()).any(|it| command.is(it, option)) {
                    true => ReplySize::OfValue,
                    false => ReplySize::Short,
                }
            }
            AnswerSize::Values | AnswerSize::Any => ReplySize::OfRead,
        }
    }
}
