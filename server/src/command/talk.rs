//! Commands that need no shard.
use super::glob::Pattern;
use super::info;
use super::role::Role;
use super::session::Session;
use super::spec::{Spec, TalkWord, Word};
use super::subcommands::Subcommands;
use super::table::COMMANDS;
use super::unanswered::Unanswered;
use super::Fault;
use crate::body::{MAX_KEY, MAX_TEXT};
use crate::cluster::Cluster;
use crate::memory::CEILING;
use crate::resp::{number, Command, Protocol, Replies};
use std::time::SystemTime;

/// The version of Redis whose protocol and errors these are.
pub const REDIS_VERSION: &str = "7.0.0";

/// Answers the command, or returns why it is refused.
pub fn answer(
    word: TalkWord,
    command: Command<'_>,
    session: &mut Session,
    cluster: &Cluster,
    replies: &mut Replies,
) -> Result<(), Unanswered> {
    if let Some(subcommands) = Subcommands::of(word) {
        subcommands.check(command)?;
        if command.is(1, "HELP") {
            subcommands.help(replies);
            return Ok(());
        }
    }
    match word {
        TalkWord::Ping => ping(command, replies)?,
        TalkWord::Echo => replies.bulk(command.get(1)),
        TalkWord::Select => select(command, replies)?,
        TalkWord::Time => time(SystemTime::now(), replies),
        TalkWord::DbSize => {
            // If keys aren't counted here, shards were asked before the command came here.
            replies.count(cluster.storage.all_keys().unwrap_or(0) as usize);
        }
        TalkWord::Acl => who_am_i(command, session, replies)?,
        TalkWord::Auth => auth(command, session, cluster, replies)?,
        TalkWord::Hello => hello(command, session, cluster, replies)?,
        TalkWord::Client => client(command, session, replies)?,
        TalkWord::Command => describe(command, replies)?,
        TalkWord::Config => config(command, cluster, replies)?,
        TalkWord::Info => replies.text(&info::told(command, cluster)),
        TalkWord::Reset => {
            *session = session.renewed(&cluster.configuration.safety);
            replies.protocol = Protocol::Two;
            replies.simple("RESET");
        }
        TalkWord::Quit => {
            replies.ok();
            return Err(Unanswered::End);
        }
    }
    Ok(())
}

fn ping(command: Command<'_>, replies: &mut Replies) -> Result<(), Fault> {
    match command.len() {
        1 => replies.simple("PONG"),
        2 => replies.bulk(command.get(1)),
        _ => return Err(Fault::WrongArity("ping".into())),
    }
    Ok(())
}

fn select(command: Command<'_>, replies: &mut Replies) -> Result<(), Fault> {
    match number::parse(command.get(1)) {
        Some(0) => replies.ok(),
        Some(_) => return Err(Fault::BadDatabase),
        None => return Err(Fault::NotInteger),
    }
    Ok(())
}

/// Writes the seconds since 1970, and the microseconds since the last full second, as texts.
fn time(now: SystemTime, replies: &mut Replies) {
    let since = now
        .duration_since(SystemTime::UNIX_EPOCH)
        .unwrap_or_default();
    replies.array(2);
    replies.bulk(since.as_secs().to_string().as_bytes());
    replies.bulk(since.subsec_micros().to_string().as_bytes());
}

/// Returns whether the command gives a password.
pub fn gives_password(word: TalkWord, command: Command<'_>) -> bool {
    match word {
        TalkWord::Auth => true,
        TalkWord::Hello => command.len() > 2,
        TalkWord::Acl
        | TalkWord::Client
        | TalkWord::Command
        | TalkWord::Config
        | TalkWord::DbSize
        | TalkWord::Echo
        | TalkWord::Info
        | TalkWord::Ping
        | TalkWord::Quit
        | TalkWord::Reset
        | TalkWord::Select
        | TalkWord::Time => false,
    }
}

/// Logs the client in, if the user is a role and the password is that role's.
fn let_in(
    user: &[u8],
    password: &[u8],
    session: &mut Session,
    cluster: &Cluster,
) -> Result<(), Fault> {
    let (safety, guesses) = (&cluster.configuration.safety, &cluster.guesses);
    // Only a command outside of a transaction can be put off.
    let (may_guess, now) = (std::mem::take(&mut session.may_guess), cluster.now());
    if !may_guess && !session.wait_of_guess(guesses, now).is_zero() {
        return Err(Fault::TooSoon);
    }
    // A client that was logged in before stays so, in its old role.
    let role = Role::named(user).filter(|it| it.is_opened_by(password, safety));
    let Some(role) = role else {
        session.note_wrong_guess(guesses, now);
        return Err(Fault::WrongPassword);
    };
    if !session.is_known && cluster.known_clients() >= cluster.configuration.most_clients {
        return Err(Fault::ManyClients);
    }
    session.is_known = true;
    session.role = role;
    session.may_control = role.may_control(safety);
    Ok(())
}

/// ACL WHOAMI.
fn who_am_i(command: Command<'_>, session: &Session, replies: &mut Replies) -> Result<(), Fault> {
    if !command.is(1, "WHOAMI") {
        return Err(Fault::unknown_subcommand("ACL", command.get(1)));
    }
    replies.bulk(session.role.name().as_bytes());
    Ok(())
}

fn auth(
    command: Command<'_>,
    session: &mut Session,
    cluster: &Cluster,
    replies: &mut Replies,
) -> Result<(), Fault> {
    match command.len() {
        2 if cluster.configuration.safety.password.is_none() => return Err(Fault::NoPassword),
        2 => let_in(b"default", command.get(1), session, cluster)?,
        3 => let_in(command.get(1), command.get(2), session, cluster)?,
        _ => return Err(Fault::Syntax),
    }
    replies.ok();
    Ok(())
}

fn hello(
    command: Command<'_>,
    session: &mut Session,
    cluster: &Cluster,
    replies: &mut Replies,
) -> Result<(), Fault> {
    let protocol = match command.len() {
        1 => replies.protocol,
        _ => version(command.get(1))?,
    };
    let mut index = 2;
    while index < command.len() {
        if command.is(index, "AUTH") && index + 2 < command.len() {
            let (user, password) = (command.get(index + 1), command.get(index + 2));
            let_in(user, password, session, cluster)?;
            index += 3;
        } else if command.is(index, "SETNAME") && index + 1 < command.len() {
            set_name(command.get(index + 1), session)?;
            index += 2;
        } else {
            return Err(Fault::hello_option(command.get(index)));
        }
    }
    if !session.is_known {
        return Err(Fault::NoAuth);
    }
    replies.protocol = protocol;
    greet(session, replies);
    Ok(())
}

/// Returns the version of the protocol with this number.
fn version(written: &[u8]) -> Result<Protocol, Fault> {
    match number::parse(written) {
        Some(2) => Ok(Protocol::Two),
        Some(3) => Ok(Protocol::Three),
        Some(_) => Err(Fault::BadProtocol),
        None => Err(Fault::NoProtocol),
    }
}

fn greet(session: &Session, replies: &mut Replies) {
    replies.map(7);
    for (name, text) in [
        ("server", "redis"),
        ("version", REDIS_VERSION),
        ("mode", "standalone"),
        ("role", "master"),
    ] {
        replies.bulk(name.as_bytes());
        replies.bulk(text.as_bytes());
    }
    replies.bulk(b"proto");
    replies.number(match replies.protocol {
        Protocol::Two => 2,
        Protocol::Three => 3,
    });
    replies.bulk(b"id");
    replies.count(session.id as usize);
    replies.bulk(b"modules");
    replies.array(0);
}

fn set_name(name: &[u8], session: &mut Session) -> Result<(), Fault> {
    let is_well = name.len() <= MAX_KEY && name.iter().all(|it| (b'!'..=b'~').contains(it));
    if !is_well {
        return Err(Fault::BadName);
    }
    session.name = (!name.is_empty()).then(|| name.into());
    Ok(())
}

fn client(command: Command<'_>, session: &mut Session, replies: &mut Replies) -> Result<(), Fault> {
    match command.get(1).to_ascii_uppercase().as_slice() {
        b"ID" => replies.count(session.id as usize),
        b"GETNAME" => match &session.name {
            Some(name) => replies.bulk(name),
            None => replies.null(),
        },
        b"SETNAME" => {
            set_name(command.get(2), session)?;
            replies.ok();
        }
        b"SETINFO" | b"NO-EVICT" | b"NO-TOUCH" => replies.ok(),
        other => return Err(Fault::unknown_subcommand("CLIENT", other)),
    }
    Ok(())
}

/// COMMAND: tells of all commands, how many there are, or some of them.
fn describe(command: Command<'_>, replies: &mut Replies) -> Result<(), Fault> {
    match command.get(1).to_ascii_uppercase().as_slice() {
        b"" => {
            replies.array(COMMANDS.len());
            COMMANDS.iter().for_each(|it| describe_one(it, replies));
        }
        b"COUNT" => replies.count(COMMANDS.len()),
        b"DOCS" => replies.map(0),
        b"LIST" => {
            replies.array(COMMANDS.len());
            COMMANDS
                .iter()
                .for_each(|it| replies.bulk(it.name.as_bytes()));
        }
        b"INFO" => {
            let names = command.from(2);
            replies.array(names.len());
            for name in names.iter() {
                match Spec::named(name) {
                    Some(spec) => describe_one(spec, replies),
                    None => replies.null(),
                }
            }
        }
        other => return Err(Fault::unknown_subcommand("COMMAND", other)),
    }
    Ok(())
}

/// Describes a command as Redis does: name, arity, flags, and the first key, the last key and the step between keys.
fn describe_one(spec: &Spec, replies: &mut Replies) {
    let flags = match spec.word {
        Word::Data(_) | Word::Scan | Word::ScanRange | Word::Keys | Word::Flush => {
            spec.effect.flags()
        }
        Word::Talk(_) | Word::Multi | Word::Exec | Word::Discard | Word::Control => &["fast"],
    };
    let (first, last, step) = spec.keys.places();
    replies.array(6);
    replies.bulk(spec.name.as_bytes());
    replies.number(spec.arity);
    replies.array(flags.len());
    flags.iter().for_each(|it| replies.simple(it));
    [first, last, step]
        .into_iter()
        .for_each(|it| replies.number(it));
}

/// CONFIG GET, for the parameters that clients and redis-benchmark read.
fn config(command: Command<'_>, cluster: &Cluster, replies: &mut Replies) -> Result<(), Fault> {
    if !command.is(1, "GET") {
        return Err(Fault::unknown_subcommand("CONFIG", command.get(1)));
    }
    let known = [
        ("appendonly", "no".to_owned()),
        ("databases", "1".to_owned()),
        ("maxclients", cluster.configuration.most_clients.to_string()),
        ("maxmemory", CEILING.most().to_string()),
        ("maxmemory-policy", "noeviction".to_owned()),
        ("proto-max-bulk-len", MAX_TEXT.to_string()),
        ("save", String::new()),
        ("timeout", "0".to_owned()),
    ];
    let mut are_asked = [false; 8];
    for written in command.iter().skip(2) {
        let pattern = Pattern::new(&written.to_ascii_lowercase())?;
        let each = are_asked.iter_mut().zip(&known);
        each.for_each(|(is_asked, it)| *is_asked |= pattern.is_match(it.0.as_bytes()));
    }
    let found = known.iter().zip(are_asked).filter(|it| it.1);
    let found: Vec<_> = found.map(|it| it.0).collect();
    replies.map(found.len());
    for (name, value) in found {
        replies.bulk(name.as_bytes());
        replies.bulk(value.as_bytes());
    }
    Ok(())
}
