use super::data::Execute;
use super::split::Split;
use super::subcommands::Subcommands;
use super::table::FIRST_TABLE;
use super::{BadKey, Fault};
use crate::body::{ShardBody, MAX_KEY};
use crate::keyspace::Keyspace;
use crate::memory::CEILING;
use crate::resp::{Command, Replies};

/// Which arguments of a command are keys.
#[derive(Clone, Copy, Debug, PartialEq, Eq)]
pub enum Keys {
    /// None.
    None,
    /// The first.
    First,
    /// All.
    All,
    /// Every second one, from the first on, each followed by a value.
    Pairs,
}

impl Keys {
    /// Returns the place of the first key, the place of the last one (counted from -1 for the last argument), and the
    /// step between them, as Redis tells them.
    pub fn places(self) -> (i64, i64, i64) {
        match self {
            Keys::None => (0, 0, 0),
            Keys::First => (1, 1, 1),
            Keys::All => (1, -1, 1),
            Keys::Pairs => (1, -1, 2),
        }
    }

    /// Returns how many arguments belong to a key: two if a value follows it.
    pub fn step(self) -> usize {
        match self {
            Keys::None | Keys::First | Keys::All => 1,
            Keys::Pairs => 2,
        }
    }

    /// Returns the places of the command's keys, in their order.
    pub fn places_in(self, command: Command<'_>) -> impl Iterator<Item = usize> {
        let most = match self {
            Keys::None => 0,
            Keys::First => 1,
            Keys::All | Keys::Pairs => usize::MAX,
        };
        (1..command.len()).step_by(self.step()).take(most)
    }

    /// Returns the command's keys, in their order, as often as it names them.
    pub fn of(self, command: Command<'_>) -> impl Iterator<Item = &[u8]> {
        self.places_in(command).map(move |it| command.get(it))
    }
}

/// The shards of a command's keys.
#[derive(Clone, Copy, Debug, PartialEq, Eq)]
pub enum KeyShards {
    /// It has no keys.
    None,
    /// All keys are of this shard.
    One(u16),
    /// The keys are of several shards.
    Several,
}

impl KeyShards {
    /// Returns the shard of all keys, if there are any. Refuses keys of several shards.
    pub fn one(self) -> Result<Option<u16>, Fault> {
        match self {
            KeyShards::None => Ok(None),
            KeyShards::One(shard) => Ok(Some(shard)),
            KeyShards::Several => Err(Fault::CrossShard),
        }
    }
}

/// The operation of a command.
#[derive(Clone, Copy, Debug)]
pub enum Word {
    /// Reads or writes keys of one shard, with this function.
    Data(Execute),
    /// Answers without a shard.
    Talk(TalkWord),
    /// Begins a transaction.
    Multi,
    /// Executes the transaction.
    Exec,
    /// Discards the transaction.
    Discard,
    /// Goes over all keys.
    Scan,
    /// Returns pairs of a range of keys.
    ScanRange,
    /// Returns all keys that match.
    Keys,
    /// Deletes all keys.
    Flush,
    /// Asks the control, or a server.
    Control,
}

/// A command that needs no shard.
#[derive(Clone, Copy, Debug, PartialEq, Eq)]
#[allow(missing_docs)]
pub enum TalkWord {
    Acl,
    Auth,
    Client,
    Command,
    Config,
    DbSize,
    Echo,
    Hello,
    Info,
    Ping,
    Quit,
    Reset,
    Select,
    Time,
}

/// A command's effect on the values of keys.
#[derive(Clone, Copy, Debug, PartialEq, Eq)]
pub enum Effect {
    /// It changes no value.
    Reads,
    /// It changes values, but they take no more memory.
    Frees,
    /// It changes values, which may take more memory. Redis calls this `denyoom`.
    Grows,
}

/// The memory that a command needs over a store.
#[derive(Clone, Copy, Debug, PartialEq, Eq, PartialOrd, Ord)]
pub enum Need {
    /// Memory for its own bytes: it deletes, and reads nothing.
    Bytes,
    /// Also memory for the texts that it reads.
    Texts,
    /// Also memory for the growth of its shard.
    Growth,
}

impl Effect {
    /// Returns whether the command changes values of keys.
    pub fn writes(self) -> bool {
        match self {
            Effect::Reads => false,
            Effect::Frees | Effect::Grows => true,
        }
    }

    /// Returns Redis' flags of a command with keys.
    pub fn flags(self) -> &'static [&'static str] {
        match self {
            Effect::Reads => &["readonly"],
            Effect::Frees => &["write"],
            Effect::Grows => &["write", "denyoom"],
        }
    }
}

/// The possible size of a command's answer, unless it is an error.
#[derive(Clone, Copy, Debug, PartialEq, Eq)]
pub enum AnswerSize {
    /// A number or a few words.
    Short,
    /// As large as a value.
    Value,
    /// As large as a value if the command has this option; otherwise short.
    ValueWith(&'static str),
    /// As large as the values of all its keys.
    Values,
    /// As large as the words that it repeats, or as the list that it tells.
    Any,
}

/// Whether a transaction may have a command.
#[derive(Clone, Copy, Debug, PartialEq, Eq)]
pub enum InMulti {
    /// It may not, because it ends the connection or the transaction as in Redis, or goes over several shards.
    Never,
    /// It may in memory mode only.
    InMemory,
    /// It may.
    Always,
}

/// A row of the table of commands: a command's form, operation and answer.
#[derive(Debug)]
pub struct Spec {
    /// Its name, in small letters.
    pub name: &'static str,
    /// The number of its arguments, including the name. If it is negative, the command takes at least so many.
    pub arity: i64,
    /// Which of them are keys.
    pub keys: Keys,
    /// Its effect on the values of keys.
    pub effect: Effect,
    /// Whether it never reads the values of its keys. Then they need no memory, however many they are.
    pub is_blind: bool,
    /// How large its answer may be.
    pub answer: AnswerSize,
    /// How it is done if its keys are of several shards, if that is possible.
    pub split: Option<Split>,
    /// Whether a transaction may have it.
    pub queued: InMulti,
    /// Its operation.
    pub word: Word,
    /// The first version of the table that has it.
    pub since: u16,
}

impl Spec {
    /// Makes the row of a command with keys, which this function does.
    pub(super) const fn data(
        name: &'static str,
        arity: i64,
        keys: Keys,
        effect: Effect,
        answer: AnswerSize,
        execute: Execute,
    ) -> Spec {
        Spec {
            keys,
            effect,
            answer,
            queued: InMulti::Always,
            ..Spec::other(name, arity, Word::Data(execute))
        }
    }

    /// Makes the row of a command that needs no shard.
    pub(super) const fn talk(
        name: &'static str,
        arity: i64,
        answer: AnswerSize,
        queued: InMulti,
        word: TalkWord,
    ) -> Spec {
        Spec {
            answer,
            queued,
            ..Spec::other(name, arity, Word::Talk(word))
        }
    }

    /// Makes the row of any other command.
    pub(super) const fn other(name: &'static str, arity: i64, word: Word) -> Spec {
        Spec {
            name,
            arity,
            keys: Keys::None,
            effect: Effect::Reads,
            is_blind: false,
            answer: AnswerSize::Any,
            split: None,
            queued: InMulti::Never,
            word,
            since: FIRST_TABLE,
        }
    }

    /// Returns the row, with this effect on keys that the command doesn't name.
    pub(super) const fn effect(self, effect: Effect) -> Spec {
        Spec { effect, ..self }
    }

    /// Returns the row, for a command that never reads the values of its keys.
    pub(super) const fn blind(self) -> Spec {
        Spec {
            is_blind: true,
            ..self
        }
    }

    /// Returns the row, for a command that is split like this if its keys are of several shards.
    pub(super) const fn split(self, split: Split) -> Spec {
        Spec {
            split: Some(split),
            ..self
        }
    }

    /// Returns the row, for a command that this version of the table added.
    pub(super) const fn since(self, since: u16) -> Spec {
        Spec { since, ..self }
    }
}

impl Spec {
    /// Returns the row of the command. Refuses an unknown command, and one with another number of arguments.
    pub fn of(command: Command<'_>) -> Result<&'static Spec, Fault> {
        let spec = Spec::queued(command)?;
        match spec.lacks_value(command) {
            true => Err(Fault::wrong_arity(spec.name)),
            false => Ok(spec),
        }
    }

    /// Returns the row of a command that may be queued. A missing value of a key isn't refused until the command is
    /// executed.
    #[inline(always)]
    pub fn queued(command: Command<'_>) -> Result<&'static Spec, Fault> {
        let spec = Spec::named(command.get(0)).ok_or_else(|| Fault::unknown_command(command))?;
        let count = command.len() as i64;
        let is_well = match spec.arity {
            least if least < 0 => count >= -least,
            exact => count == exact,
        };
        match is_well {
            true => Ok(spec),
            false if spec.is_exec() => Err(Fault::ExecArity),
            false => Err(Fault::wrong_arity(spec.name)),
        }
    }

    /// Returns whether the last key of the command lacks its value, if keys have values.
    #[inline]
    pub fn lacks_value(&self, command: Command<'_>) -> bool {
        self.keys == Keys::Pairs && command.len() % 2 == 0
    }

    /// Returns whether it executes a transaction.
    pub fn is_exec(&self) -> bool {
        matches!(self.word, Word::Exec)
    }

    /// Returns whether it asks the control, or a server.
    pub fn is_control(&self) -> bool {
        matches!(self.word, Word::Control)
    }

    /// Returns whether it reads or writes keys of one shard.
    pub fn is_data(&self) -> bool {
        matches!(self.word, Word::Data(_))
    }

    /// Does the command of this row, whose keys are all in the shard of this body, and answers it.
    ///
    /// # Errors
    ///
    /// If the command is refused. The caller must take back the answer so far.
    #[inline]
    pub fn execute(
        &self,
        command: Command<'_>,
        body: &mut dyn ShardBody,
        replies: &mut Replies,
    ) -> Result<(), Fault> {
        match self.word {
            Word::Data(execute) => execute(command, body, replies),
            Word::Talk(_)
            | Word::Multi
            | Word::Exec
            | Word::Discard
            | Word::Scan
            | Word::ScanRange
            | Word::Keys
            | Word::Flush
            | Word::Control => Err(Fault::NoKeys),
        }
    }

    /// Refuses a command whose data may take more memory, if too much is in use.
    #[inline]
    pub fn check_memory(&self) -> Result<(), Fault> {
        match self.effect == Effect::Grows && CEILING.is_passed() {
            true => Err(Fault::MaxMemory),
            false => Ok(()),
        }
    }

    /// Refuses a command whose subcommand doesn't exist, or takes another number of arguments.
    pub fn check_subcommand(&self, command: Command<'_>) -> Result<(), Fault> {
        match self.word {
            Word::Talk(word) => Subcommands::of(word).map_or(Ok(()), |it| it.check(command)),
            Word::Data(_)
            | Word::Multi
            | Word::Exec
            | Word::Discard
            | Word::Scan
            | Word::ScanRange
            | Word::Keys
            | Word::Flush
            | Word::Control => Ok(()),
        }
    }

    /// Returns the shards of the command's keys. Refuses a key that is too long, or empty.
    #[inline]
    pub fn shards(&self, command: Command<'_>, keyspace: &Keyspace) -> Result<KeyShards, BadKey> {
        match self.keys {
            Keys::None => Ok(KeyShards::None),
            Keys::First => shard_of(command.get(1), keyspace).map(KeyShards::One),
            Keys::All | Keys::Pairs => shards_of_all(self.keys.of(command), keyspace),
        }
    }

    /// Returns the most texts that the command reads, at least 1.
    pub fn texts(&self, command: Command<'_>) -> usize {
        match self.is_blind {
            true => 1,
            false => self.keys.of(command).count().max(1),
        }
    }

    /// Returns the memory that it needs over a store.
    pub fn need(&self) -> Need {
        match self.effect {
            Effect::Grows => Need::Growth,
            Effect::Frees if self.is_blind => Need::Bytes,
            Effect::Frees | Effect::Reads => Need::Texts,
        }
    }

    /// Returns whether a client that gave no password may send it.
    #[inline]
    pub fn is_open(&self) -> bool {
        use TalkWord::*;
        match self.word {
            Word::Talk(Auth | Hello | Quit | Reset) => true,
            Word::Talk(
                Acl | Client | Command | Config | DbSize | Echo | Info | Ping | Select | Time,
            )
            | Word::Data(_)
            | Word::Multi
            | Word::Exec
            | Word::Discard
            | Word::Scan
            | Word::ScanRange
            | Word::Keys
            | Word::Flush
            | Word::Control => false,
        }
    }

    /// Returns whether it may be queued in a transaction.
    pub fn is_queued(&self) -> bool {
        self.queued != InMulti::Never
    }
}

/// Returns the shards of these keys. Refuses a key that is too long, or empty.
fn shards_of_all<'a>(
    keys: impl Iterator<Item = &'a [u8]>,
    keyspace: &Keyspace,
) -> Result<KeyShards, BadKey> {
    let mut shards = KeyShards::None;
    for key in keys {
        let shard = shard_of(key, keyspace)?;
        shards = match shards {
            KeyShards::None => KeyShards::One(shard),
            KeyShards::One(other) if other != shard => KeyShards::Several,
            shards => shards,
        };
    }
    Ok(shards)
}

/// Returns the shard of the key, which must be a valid key.
#[inline]
pub fn shard_of(key: &[u8], keyspace: &Keyspace) -> Result<u16, BadKey> {
    match key.len() {
        1..=MAX_KEY => Ok(keyspace.shard_of(key)),
        _ => Err(BadKey),
    }
}
