//! The encoding of works for another process: the client's version of the protocol, the kind of work, and its commands
//! as a client sends them.
use super::answers::Answers;
use super::join::Join;
use super::keyed_work::{keys_of_all, KeyedWork};
use super::query::Query;
use super::shard_visit::ShardVisit;
use super::stored_exec::StoredExec;
use crate::cluster::Cluster;
use crate::command::spec::{KeyShards, Spec};
use crate::command::table::{FIRST_TABLE, TABLE};
use crate::command::transaction::MultiTransaction;
use crate::command::Fault;
use crate::io::ReplyAddress;
use crate::keyspace::Keyspace;
use crate::memory::CEILING;
use crate::resp::{Command, OwnedCommand, Protocol};
use durkenzo_driver::{Numbered, WorkStep};
use std::sync::Arc;

/// The kind of a work. Its byte follows the version.
#[derive(Clone, Copy, Debug, PartialEq, Eq)]
enum WorkKind {
    /// A command with keys of one shard.
    Keyed,
    /// A command with keys of one shard, with its client's number.
    Numbered,
    /// The commands of EXEC.
    Exec,
    /// A query of a shard's keys.
    Query,
}

impl WorkKind {
    const ALL: [WorkKind; 4] = [
        WorkKind::Keyed,
        WorkKind::Numbered,
        WorkKind::Exec,
        WorkKind::Query,
    ];

    /// Returns the byte of this kind.
    fn byte(self) -> u8 {
        match self {
            WorkKind::Keyed => b'k',
            WorkKind::Numbered => b'n',
            WorkKind::Exec => b't',
            WorkKind::Query => b'l',
        }
    }

    /// Splits the bytes of a work into the version, the kind and the rest. Returns nothing if the kind is unknown.
    fn of(bytes: &[u8]) -> Option<(u8, WorkKind, &[u8])> {
        let ([version, byte], rest) = bytes.split_first_chunk()?;
        let kind = WorkKind::ALL.into_iter().find(|it| it.byte() == *byte)?;
        Some((*version, kind, rest))
    }
}

/// Returns the bytes of a command with keys of one shard.
pub(super) fn spell_keyed(
    protocol: Protocol,
    numbered: Option<Numbered>,
    command: &OwnedCommand,
) -> Vec<u8> {
    let mut bytes = vec![version_of(protocol)];
    match numbered {
        None => bytes.push(WorkKind::Keyed.byte()),
        Some(Numbered { client, number }) => {
            bytes.push(WorkKind::Numbered.byte());
            bytes.extend(client.to_be_bytes());
            bytes.extend(number.to_be_bytes());
        }
    }
    bytes.extend(command.spell());
    bytes
}

/// Returns the bytes of EXEC's commands.
pub(super) fn spell_exec(protocol: Protocol, transaction: &MultiTransaction) -> Vec<u8> {
    let mut bytes = vec![version_of(protocol), WorkKind::Exec.byte()];
    for command in transaction.commands() {
        bytes.extend(command.spell());
    }
    bytes
}

/// Returns the bytes of a query of a shard's keys.
pub(super) fn spell_query(protocol: Protocol, query: &Query) -> Vec<u8> {
    let mut bytes = vec![version_of(protocol), WorkKind::Query.byte()];
    bytes.extend(query.spell());
    bytes
}

fn version_of(protocol: Protocol) -> u8 {
    match protocol {
        Protocol::Two => 2,
        Protocol::Three => 3,
    }
}

/// Returns the step of another process's work on this shard, which is answered there. Returns nothing if the bytes are
/// malformed.
pub fn step_of_spelled(
    bytes: &[u8],
    shard: u16,
    keyspace: &Keyspace,
    cluster: &Arc<Cluster>,
    reply_to: ReplyAddress,
) -> Option<WorkStep> {
    let (version, kind, rest) = WorkKind::of(bytes)?;
    let protocol = match version {
        2 => Protocol::Two,
        3 => Protocol::Three,
        _ => return None,
    };
    let answers = |reply_to| Answers::new(1, 1, protocol, Join::InOrder, reply_to);
    match kind {
        WorkKind::Keyed => {
            let command = command_of(rest, shard, keyspace)?;
            Some(KeyedWork::step(command, shard, answers(reply_to), 0))
        }
        WorkKind::Numbered => {
            let (numbered, rest) = number_of(rest)?;
            let command = command_of(rest, shard, keyspace)?;
            KeyedWork::numbered(numbered, command, shard, answers(reply_to)).ok()
        }
        WorkKind::Exec => {
            let transaction = transaction_of(rest, shard, keyspace)?;
            let keys = keys_of_all(transaction.data());
            let answers = answers(reply_to);
            Some(StoredExec::step(
                transaction,
                cluster.clone(),
                shard,
                keys,
                answers,
            ))
        }
        WorkKind::Query => {
            let query = Query::spelled(rest)?;
            Some(ShardVisit::told_to(query, shard, protocol, reply_to))
        }
    }
}

/// Returns whether the work with these bytes has its client's number, by which it may have been done before.
pub fn is_numbered(bytes: &[u8]) -> bool {
    matches!(WorkKind::of(bytes), Some((_, WorkKind::Numbered, _)))
}

/// Returns the row of each command of the work with these bytes; nothing in place of a command that isn't known.
fn specs_of(bytes: &[u8]) -> impl Iterator<Item = Option<&'static Spec>> + '_ {
    let mut rest = commands_of(bytes);
    std::iter::from_fn(move || {
        let named = |it: Command<'_>| Spec::named(it.get(0));
        let (spec, end) = OwnedCommand::of_first_spelled(rest, named)?;
        rest = &rest[end..];
        Some(spec)
    })
}

/// Returns the first version of the table of commands that has all commands of the work with these bytes.
pub fn table_of_spelled(bytes: &[u8]) -> u16 {
    let tables = specs_of(bytes).map(|it| it.map_or(TABLE, |it| it.since));
    tables.max().unwrap_or(FIRST_TABLE)
}

/// Refuses the work with these bytes if its data may take more memory and too much is in use.
pub fn check_memory_of(bytes: &[u8]) -> Result<(), Fault> {
    if !CEILING.is_passed() {
        return Ok(());
    }
    let refused = specs_of(bytes).flatten().try_for_each(Spec::check_memory);
    let is_exec = matches!(WorkKind::of(bytes), Some((_, WorkKind::Exec, _)));
    refused.map_err(|fault| match is_exec {
        true => Fault::ExecMaxMemory,
        false => fault,
    })
}

/// Returns the commands of the work with these bytes, one behind the other; or no bytes if it has none.
fn commands_of(bytes: &[u8]) -> &[u8] {
    let found = WorkKind::of(bytes).and_then(|(_, kind, rest)| match kind {
        WorkKind::Keyed | WorkKind::Exec => Some(rest),
        WorkKind::Numbered => number_of(rest).map(|it| it.1),
        WorkKind::Query => None,
    });
    found.unwrap_or_default()
}

/// Returns the number that a client gave, and what follows it.
fn number_of(bytes: &[u8]) -> Option<(Numbered, &[u8])> {
    let (client, rest) = bytes.split_first_chunk()?;
    let (number, rest) = rest.split_first_chunk()?;
    let (client, number) = (u64::from_be_bytes(*client), u64::from_be_bytes(*number));
    Some((Numbered { client, number }, rest))
}

/// Returns the command, if all its keys are of this shard.
fn command_of(
    bytes: &[u8],
    shard: u16,
    keyspace: &Keyspace,
) -> Option<(&'static Spec, OwnedCommand)> {
    let command = OwnedCommand::spelled(bytes)?;
    let spec = Spec::of(command.command()).ok()?;
    let shards = spec.shards(command.command(), keyspace).ok()?;
    (shards == KeyShards::One(shard)).then_some((spec, command))
}

/// Returns the transaction, if all its keys are of this shard.
fn transaction_of(bytes: &[u8], shard: u16, keyspace: &Keyspace) -> Option<Box<MultiTransaction>> {
    let (mut transaction, mut rest) = (Box::<MultiTransaction>::default(), bytes);
    while !rest.is_empty() {
        let (command, end) = OwnedCommand::first_spelled(rest)?;
        let spec = Spec::queued(command.command()).ok()?;
        let shards = spec.shards(command.command(), keyspace).ok()?;
        let of = shards.one().ok()?;
        if !spec.is_queued() || of.is_some_and(|it| it != shard) {
            return None;
        }
        transaction.push(command.command(), of).ok()?;
        rest = &rest[end..];
    }
    transaction.shard().is_some().then_some(transaction)
}

#[cfg(test)]
mod tests {
    use super::*;
    use crate::chance::Chance;
    use crate::configuration::Configuration;
    use crate::keyspace::Rule;
    use durkenzo_driver::Begin;

    fn command(words: &[&str]) -> OwnedCommand {
        let mut bytes = format!("*{}\r\n", words.len());
        for word in words {
            bytes += &format!("${}\r\n{word}\r\n", word.len());
        }
        OwnedCommand::spelled(bytes.as_bytes()).unwrap()
    }

    struct Place {
        keyspace: Keyspace,
        cluster: Arc<Cluster>,
    }

    impl Place {
        fn new() -> Place {
            let rule = Rule::Bounds(vec![Vec::new(), b"m".to_vec()]);
            let keyspace = Keyspace::new(&rule).unwrap();
            let cluster = Cluster::in_memory(Configuration::new(rule)).unwrap();
            let cluster = Arc::new(cluster);
            Place { keyspace, cluster }
        }

        fn step(&self, bytes: &[u8], shard: u16) -> Option<WorkStep> {
            let reply_to = ReplyAddress::process(|_| {});
            step_of_spelled(bytes, shard, &self.keyspace, &self.cluster, reply_to)
        }
    }

    #[test]
    fn works_are_read_as_they_were_spelled() {
        let place = Place::new();
        let numbered = Numbered {
            client: 5,
            number: 9,
        };
        let mut transaction = MultiTransaction::default();
        for words in [
            &["INCR", "b"][..],
            &["PING"],
            &["SET", "a", "x\r\ny"],
            &["MSET", "a", "1", "b"],
        ] {
            let command = command(words);
            let shard = (command.command().len() > 1).then_some(0);
            transaction.push(command.command(), shard).unwrap();
        }
        let spelled = [
            spell_keyed(Protocol::Two, None, &command(&["GET", "a"])),
            spell_keyed(Protocol::Three, Some(numbered), &command(&["INCR", "a"])),
            spell_exec(Protocol::Three, &transaction),
        ];
        for bytes in &spelled {
            let step = place.step(bytes, 0).unwrap();
            assert_eq!(&step.work.spell(), bytes);
            assert_eq!(table_of_spelled(bytes), FIRST_TABLE);
            assert!(place.step(bytes, 1).is_none());
        }
        let listing = spell_query(Protocol::Two, &Query::Count);
        assert_eq!(place.step(&listing, 1).unwrap().work.spell(), listing);
        assert_eq!(table_of_spelled(&listing), FIRST_TABLE);
        let newer = command(&["GETDEL", "a"]);
        transaction.push(newer.command(), Some(0)).unwrap();
        for bytes in [
            spell_keyed(Protocol::Two, None, &newer),
            spell_keyed(Protocol::Two, Some(numbered), &newer),
            spell_exec(Protocol::Two, &transaction),
        ] {
            assert_eq!(table_of_spelled(&bytes), 2);
        }
        let newest = command(&["SETRANGE", "a", "0", "x"]);
        transaction.push(newest.command(), Some(0)).unwrap();
        for bytes in [
            spell_keyed(Protocol::Two, None, &newest),
            spell_exec(Protocol::Two, &transaction),
        ] {
            assert_eq!(table_of_spelled(&bytes), 3);
        }
        // The commands by which FLUSHDB deletes at other processes are older than FLUSHDB.
        let deletion = spell_keyed(Protocol::Two, None, &command(&["DEL", "a", "b"]));
        assert_eq!(table_of_spelled(&deletion), FIRST_TABLE);
        let of_all = spelled.iter().chain([&listing]);
        let kinds: Vec<_> = of_all.map(|it| WorkKind::of(it).unwrap().1).collect();
        assert_eq!(kinds, WorkKind::ALL);
        let begin = place.step(&spelled[1], 0).unwrap().begin;
        assert!(matches!(begin, Begin::Numbered(it, _) if it == numbered));
    }

    #[test]
    fn what_is_no_work_is_refused() {
        let place = Place::new();
        let wrong = [
            b"".to_vec(),
            b"\x02".to_vec(),
            b"\x02k".to_vec(),
            b"\x02t".to_vec(),
            b"\x04k*2\r\n$3\r\nGET\r\n$1\r\na\r\n".to_vec(),
            b"\x02x*2\r\n$3\r\nGET\r\n$1\r\na\r\n".to_vec(),
            b"\x02k*2\r\n$3\r\nGET\r\n$1\r\na\r\n ".to_vec(),
            b"\x02kGET a\r\n".to_vec(),
            b"\x02k*1\r\n$4\r\nPING\r\n".to_vec(),
            b"\x02t*1\r\n$4\r\nPING\r\n".to_vec(),
            b"\x02t*1\r\n$4\r\nEXEC\r\n".to_vec(),
            spell_keyed(Protocol::Two, None, &command(&["MGET", "a", "z"])),
        ];
        for bytes in wrong {
            assert!(place.step(&bytes, 0).is_none(), "{bytes:?}");
        }
        // Only a command that writes without reading first can be numbered.
        let numbered = Numbered {
            client: 1,
            number: 1,
        };
        for words in [&["APPEND", "a", "x"][..], &["GET", "a"]] {
            let bytes = spell_keyed(Protocol::Two, Some(numbered), &command(words));
            assert!(place.step(&bytes, 0).is_none(), "{words:?}");
        }
    }

    #[test]
    fn spoilt_bytes_are_a_work_or_none() {
        let (place, mut chance) = (Place::new(), Chance::new(7_046_029_254_386_353_131));
        let whole = spell_keyed(Protocol::Two, None, &command(&["SET", "a", "text"]));
        for _ in 0..20_000 {
            let mut bytes = whole.clone();
            for _ in 0..=chance.below(3) {
                let at = chance.below(bytes.len());
                bytes[at] ^= 1 << chance.below(8);
            }
            drop(place.step(&bytes, 0));
        }
    }
}
