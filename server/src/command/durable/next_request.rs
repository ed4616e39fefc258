use super::flush::Flush;
use super::key_scan::KeyScan;
use super::keyed_work::{keys_of_all, written_once};
use super::keys_walk::MOST_LANES;
use super::range_scan::RangeScan;
use super::shard_request::CommandPart;
use super::ShardRequest;
use crate::body::{MAX_KEY, MAX_PAIRS, MAX_TEXT};
use crate::command::cursors::{Cursors, OwnCursors};
use crate::command::found_keys::{FoundKeys, MOST_FOUND};
use crate::command::reader::Reader;
use crate::command::session::Session;
use crate::command::spec::{shard_of, InMulti, Keys, Need, Spec, TalkWord, Word};
use crate::command::step::Step;
use crate::command::transaction::MultiTransaction;
use crate::command::wanted::{check_flush, cursor_of, WantedRange, WantedScan};
use crate::command::Fault;
use crate::keyspace::Keyspace;
use crate::memory::{self, NoRoom};
use crate::resp::{number, Command, OwnedCommand, Protocol};
use durkenzo_driver::Numbered;
use std::collections::HashSet;

/// The most texts that are read at once, so that others get their turn on the shard, and answers have a bound. One
/// command may read more.
const MOST_AT_ONCE: usize = 128;
/// The most copies of a command's arguments and read texts that are in memory at once while it is done.
const COPIES: usize = 3;
/// How much memory must be free besides, because stores end if memory is refused to them. A command by which data may
/// grow needs more.
const LEAST_OF_READS: usize = 8 << 20;
const LEAST_OF_WRITES: usize = 24 << 20;
/// The most arguments that a transaction's commands have, beside their names.
const MOST_ARGUMENTS: usize = 4_096;

/// Returns what the next commands ask of shards whose data outlives the process, and advances behind these commands.
/// Returns nothing if the next command asks nothing of shards. Refuses the commands that exist only in memory mode.
pub fn next_request(
    reader: &mut Reader<'_>,
    session: &mut Session,
    (keyspace, cursors): (&Keyspace, &Cursors),
    protocol: Protocol,
) -> Result<Option<ShardRequest>, Fault> {
    let Some(command) = reader.peek().ok().filter(|it| !it.is_empty()) else {
        return Ok(None);
    };
    // If it is refused, the caller finds the refusal again.
    let asked = match Step::of(session, command, keyspace).ok() {
        Some(Step::Data((spec, shard))) => {
            let commands = run_of(spec, shard, reader, session, keyspace)?;
            return Ok(Some(ShardRequest::keyed(protocol, shard, commands)));
        }
        Some(Step::Each(spec)) => each(spec, command, keyspace, protocol)?,
        Some(Step::Queue(_)) => {
            may_queue(command)?;
            return Ok(None);
        }
        Some(Step::Other(spec)) => {
            let asked = asked_by(spec, command, session, (keyspace, cursors), protocol)?;
            match asked {
                Some(asked) => asked,
                None => return Ok(None),
            }
        }
        None => return Ok(None),
    };
    reader.advance();
    Ok(Some(asked))
}

/// Returns the next command, and those behind it as long as they are of the same shard and read few texts in all.
fn run_of(
    mut spec: &'static Spec,
    shard: u16,
    reader: &mut Reader<'_>,
    session: &Session,
    keyspace: &Keyspace,
) -> Result<Vec<(&'static Spec, OwnedCommand)>, Fault> {
    let (mut commands, mut texts) = (Vec::new(), 0);
    while let Ok(command) = reader.peek() {
        texts += spec.texts(command);
        if texts > MOST_AT_ONCE && !commands.is_empty() {
            break;
        }
        match copied(spec, command, texts) {
            Ok(copied) => commands.push((spec, copied)),
            Err(refused) if commands.is_empty() => return Err(refused.into()),
            Err(_) => break,
        }
        reader.advance();
        let next = reader.peek().ok();
        match next.and_then(|it| Step::keyed(session, it, keyspace)) {
            Some((next, other)) if other == shard => spec = next,
            _ => break,
        }
    }
    Ok(commands)
}

/// Returns a copy of the command, if there is enough memory to do it with all commands that are asked at once. Together
/// they read so many texts.
fn copied(spec: &Spec, command: Command<'_>, texts: usize) -> Result<OwnedCommand, NoRoom> {
    let texts = texts.min(MOST_AT_ONCE);
    memory::has_pieces(room_for(spec.need(), command.size(), texts))?;
    OwnedCommand::copied(command)
}

/// Returns how much memory must be free for commands of so many bytes, which have this need and read so many texts.
fn room_for(need: Need, bytes: usize, texts: usize) -> usize {
    let read = texts * MAX_TEXT;
    match need {
        Need::Bytes => COPIES * bytes,
        Need::Texts => LEAST_OF_READS + COPIES * (bytes + read),
        Need::Growth => LEAST_OF_WRITES + COPIES * (bytes + read),
    }
}

/// Returns how much memory must be free for the commands of EXEC. It reads the text of each of their keys, even if a
/// command only writes it. Its answer has the texts that the commands ask for, up to the size of a reply.
fn room_for_exec(transaction: &MultiTransaction) -> usize {
    let told = transaction.texts_told().min(MOST_AT_ONCE);
    let texts = keys_of_all(transaction.data()).len().max(told);
    room_for(transaction.need(), transaction.size(), texts)
}

/// Returns the command of this row by its keys, which are of several shards.
fn each(
    spec: &'static Spec,
    command: Command<'_>,
    keyspace: &Keyspace,
    protocol: Protocol,
) -> Result<ShardRequest, Fault> {
    let split = spec.split.ok_or(Fault::CrossShard)?;
    let parts = match spec.keys {
        Keys::Pairs => pairs(split.part()?, command, keyspace)?,
        Keys::None | Keys::First | Keys::All => keys(split.part()?, command, keyspace)?,
    };
    let texts = spec.texts(command).min(MOST_AT_ONCE);
    memory::has_pieces(room_for(spec.need(), command.size(), texts))?;
    Ok(ShardRequest::each(protocol, (spec, split), parts))
}

/// Returns the command of this row for each of the keys by itself.
fn keys(
    part: &'static Spec,
    command: Command<'_>,
    keyspace: &Keyspace,
) -> Result<Vec<CommandPart>, Fault> {
    let of_key = |key| {
        let command = OwnedCommand::of(&[part.name.as_bytes(), key]);
        Ok::<_, Fault>((shard_of(key, keyspace)?, part, command))
    };
    command.from(1).iter().map(of_key).collect()
}

/// Returns the command of this row for each key with its value. Parts may be done in any order, so each key has one,
/// with its last value.
fn pairs(
    part: &'static Spec,
    command: Command<'_>,
    keyspace: &Keyspace,
) -> Result<Vec<CommandPart>, Fault> {
    let (mut parts, mut written) = (Vec::new(), HashSet::new());
    for place in (1..command.len()).step_by(2).rev() {
        let (key, text) = (command.get(place), command.get(place + 1));
        if text.len() > MAX_TEXT {
            return Err(Fault::TooLong);
        }
        if written.insert(key) {
            let command = OwnedCommand::of(&[part.name.as_bytes(), key, text]);
            parts.push((shard_of(key, keyspace)?, part, command));
        }
    }
    parts.reverse();
    Ok(parts)
}

/// Returns what a command that isn't bound to one shard by its keys asks of shards, as EXEC does.
fn asked_by(
    spec: &Spec,
    command: Command<'_>,
    session: &mut Session,
    (keyspace, cursors): (&Keyspace, &Cursors),
    protocol: Protocol,
) -> Result<Option<ShardRequest>, Fault> {
    match spec.word {
        // In a transaction no command goes over all shards. The refusal is made elsewhere.
        Word::Scan | Word::ScanRange | Word::Keys | Word::Flush
            if session.transaction.is_some() =>
        {
            Ok(None)
        }
        Word::Scan => scan(command, (cursors, session.cursors()), keyspace, protocol).map(Some),
        Word::ScanRange => range(command, keyspace, protocol).map(Some),
        Word::Keys => key_list(command, protocol).map(Some),
        Word::Flush => flush(command, keyspace, protocol).map(Some),
        Word::Talk(TalkWord::DbSize) => Ok(Some(ShardRequest::count(protocol))),
        Word::Control if command.is(1, "AT") => Err(Fault::NotDurable("sm at")),
        Word::Control if command.is(1, "CALL") => {
            called(command, session, keyspace, protocol).map(Some)
        }
        Word::Exec => {
            let is_of_a_shard =
                |it: &mut Box<MultiTransaction>| !it.is_aborted() && it.shard().is_some();
            let Some(transaction) = session.transaction.take_if(is_of_a_shard) else {
                return Ok(None);
            };
            let shard = transaction.shard().unwrap_or_default();
            if transaction.arguments() > MOST_ARGUMENTS {
                return Err(Fault::QueueOfMany(MOST_ARGUMENTS));
            }
            memory::has_pieces(room_for_exec(&transaction))?;
            Ok(Some(ShardRequest::exec(protocol, shard, transaction)))
        }
        // These ask nothing of shards.
        Word::Data(_) | Word::Talk(_) | Word::Multi | Word::Discard | Word::Control => Ok(None),
    }
}

/// Returns the walk of SCAN, from its cursor on.
fn scan(
    command: Command<'_>,
    (cursors, own): (&Cursors, &OwnCursors),
    keyspace: &Keyspace,
    protocol: Protocol,
) -> Result<ShardRequest, Fault> {
    memory::has_pieces(COPIES * MAX_PAIRS * MAX_TEXT)?;
    let cursor = cursor_of(command)?;
    let wanted = WantedScan::of(command)?;
    let next = cursors.position(cursor, own).ok_or(Fault::BadCursor)?;
    let walk = KeyScan::new(wanted, next, keyspace.shards(), own.clone());
    Ok(ShardRequest::walk(protocol, Box::new(walk)))
}

/// Returns the walk of SCANRANGE.
fn range(
    command: Command<'_>,
    keyspace: &Keyspace,
    protocol: Protocol,
) -> Result<ShardRequest, Fault> {
    memory::has_pieces(COPIES * MAX_PAIRS * MAX_TEXT)?;
    let walk = RangeScan::new(&WantedRange::of(command)?, keyspace);
    Ok(ShardRequest::walk(protocol, Box::new(walk)))
}

/// Returns the search of KEYS.
fn key_list(command: Command<'_>, protocol: Protocol) -> Result<ShardRequest, Fault> {
    let keys = MOST_FOUND + MOST_LANES * MAX_PAIRS;
    memory::has_pieces(LEAST_OF_READS + COPIES * keys * MAX_KEY)?;
    Ok(ShardRequest::keys(protocol, FoundKeys::new(command)?))
}

/// Returns the walk of FLUSHDB.
fn flush(
    command: Command<'_>,
    keyspace: &Keyspace,
    protocol: Protocol,
) -> Result<ShardRequest, Fault> {
    check_flush(command)?;
    memory::has_pieces(COPIES * MAX_PAIRS * MAX_KEY)?;
    Ok(ShardRequest::walk(
        protocol,
        Box::new(Flush::new(keyspace.shards())),
    ))
}

/// Returns the request of `SM CALL client number COMMAND ..`, which does the command once, however often it is sent.
fn called(
    command: Command<'_>,
    session: &Session,
    keyspace: &Keyspace,
    protocol: Protocol,
) -> Result<ShardRequest, Fault> {
    if session.transaction.is_some() {
        return Err(Fault::NotQueued);
    }
    let of = |place| number::parse(command.get(place)).and_then(|it| u64::try_from(it).ok());
    let (Some(client @ 1..=Numbered::LAST_CLIENT), Some(number @ 1..)) = (of(2), of(3)) else {
        return Err(Fault::BadNumber);
    };
    let inner = command.from(4);
    let spec = Spec::of(inner)?;
    spec.check_memory()?;
    let Some(shard) = spec.shards(inner, keyspace)?.one()? else {
        return Err(Fault::NotNumbered);
    };
    written_once(spec, inner)?;
    let numbered = Numbered { client, number };
    let command = copied(spec, inner, spec.texts(inner))?;
    Ok(ShardRequest::numbered(
        protocol,
        shard,
        numbered,
        (spec, command),
    ))
}

/// Checks that a transaction may have the command: that is one with keys, or one that needs no shard.
fn may_queue(command: Command<'_>) -> Result<(), Fault> {
    match Spec::queued(command)?.queued {
        InMulti::Always => Ok(()),
        InMulti::Never | InMulti::InMemory => {
            Err(Fault::NotDurable("a transaction of this command"))
        }
    }
}

#[cfg(test)]
mod tests {
    use super::*;
    use crate::keyspace::Rule;
    use crate::resp::Arguments;

    /// Returns the parts of a line. Keys from m on are of another shard than those before.
    fn told(line: &str) -> String {
        let keyspace = Keyspace::new(&Rule::Bounds(vec![Vec::new(), b"m".to_vec()])).unwrap();
        let mut arguments = Arguments::default();
        let mut reader = Reader::new(line.as_bytes(), &mut arguments);
        let command = reader.peek().unwrap();
        let spec = Spec::of(command).unwrap();
        let of = if spec.keys == Keys::Pairs {
            pairs
        } else {
            keys
        };
        let parts = of(spec.split.unwrap().part().unwrap(), command, &keyspace).unwrap();
        let parts = parts.iter().map(|(shard, _, it)| {
            let words: Vec<_> = it.command().iter().map(String::from_utf8_lossy).collect();
            format!("{shard} {}", words.join(" "))
        });
        parts.collect::<Vec<_>>().join(", ")
    }

    #[test]
    fn each_key_is_set_once_and_counted_as_often_as_it_is_named() {
        let sets = told("MSET k 1 a 4 z 2 k 3\n");
        assert_eq!(sets, "0 set a 4, 1 set z 2, 0 set k 3");
        let counts = told("TOUCH k z k\n");
        assert_eq!(counts, "0 exists k, 1 exists z, 0 exists k");
        assert_eq!(told("MGET k z\n"), "0 get k, 1 get z");
    }

    #[test]
    fn what_reads_before_it_deletes_has_room_for_what_it_reads() {
        let room = |name: &str| {
            let spec = Spec::named(name.as_bytes()).unwrap();
            room_for(spec.need(), 10, 1)
        };
        assert_eq!(room("getdel"), room("get"));
        assert!(room("del") == COPIES * 10 && room("get") > MAX_TEXT);
        assert!(room("set") > room("get"));
        let needed = |lines: &[&[&str]]| {
            let mut transaction = MultiTransaction::default();
            for words in lines {
                let command = OwnedCommand::of(words);
                transaction.push(command.command(), Some(0)).unwrap();
            }
            transaction.need()
        };
        let (del, getdel) = (&["DEL", "a"][..], &["GETDEL", "a"][..]);
        assert_eq!(needed(&[del, del]), Need::Bytes);
        assert_eq!(needed(&[del, getdel]), Need::Texts);
        assert_eq!(needed(&[getdel, del, &["INCR", "a"]]), Need::Growth);
    }

    #[test]
    fn exec_has_room_for_the_texts_that_its_commands_have() {
        let texts = |lines: &[Vec<String>]| {
            let mut transaction = MultiTransaction::default();
            for words in lines {
                let words: Vec<&[u8]> = words.iter().map(|it| it.as_bytes()).collect();
                let command = OwnedCommand::of(&words);
                transaction.push(command.command(), Some(0)).unwrap();
            }
            let (need, size) = (transaction.need(), transaction.size());
            let more = room_for_exec(&transaction) - room_for(need, size, 0);
            more / (COPIES * MAX_TEXT)
        };
        let line = |line: &str| line.split(' ').map(str::to_owned).collect::<Vec<_>>();
        let keys = |front: &str, count: usize, behind: &str| {
            let keys: String = (0..count).map(|it| format!(" k{it}{behind}")).collect();
            line(&format!("{front}{keys}"))
        };
        assert_eq!(texts(&[line("GET a"), line("SET b 1"), line("PING")]), 2);
        assert_eq!(texts(&vec![line("SET a 1"); 40]), 1);
        // A text that is written over is read, too.
        assert_eq!(texts(&[keys("MSET", 60, " v")]), 60);
        assert_eq!(texts(&[keys("MGET", 300, ""), keys("MGET", 300, "")]), 300);
        assert_eq!(texts(&vec![line("GET a"); 500]), MOST_AT_ONCE);
    }

    /// Returns how many of many such lines are asked at once.
    fn taken(line: &str) -> usize {
        let keyspace = Keyspace::new(&Rule::Hash(1)).unwrap();
        let (cursors, mut session) = (Cursors::default(), Session::new(1, true));
        let (lines, mut arguments) = (line.repeat(200), Arguments::default());
        let mut reader = Reader::new(lines.as_bytes(), &mut arguments);
        let over = (&keyspace, &cursors);
        let asked = next_request(&mut reader, &mut session, over, Protocol::Two).unwrap();
        assert!(asked.is_some());
        reader.at() / line.len()
    }

    #[test]
    fn what_is_asked_at_once_reads_few_texts() {
        let many = format!("MGET{}\n", " a".repeat(127));
        for (line, count) in [
            ("GET a\n", 128),
            ("DEL a b\n", 128),
            ("MGET a a a a\n", 32),
            ("EXISTS a b c\n", 42),
            (many.as_str(), 1),
        ] {
            assert_eq!(taken(line), count, "{line}");
        }
    }
}
