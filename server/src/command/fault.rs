use super::found_keys::{MOST_FOUND, MOST_SEEN, MOST_SEEN_BYTES};
use super::glob::{LongPattern, MAX_PATTERN};
use crate::body::{BodyRefusal, MAX_KEY, MAX_TEXT};
use crate::memory::NoRoom;
use crate::resp::{Command, Oversized, Replies, MAX_REPLY};
use crate::wait::Wait;
use durkenzo::AdmitFault;
use durkenzo_driver::{NotDone, Numbered};
use std::error::Error;
use std::fmt;

/// The most bytes of a client's words that an error repeats.
const MOST_SHOWN: usize = 128;

/// Why a command is refused. If Redis has the case, the fault has Redis' words.
#[derive(Clone, Debug, PartialEq, Eq)]
pub enum Fault {
    /// There is no such command. The fault has its name and its arguments, cut.
    UnknownCommand(Shown, Shown),
    /// The command takes another number of arguments.
    WrongArity(String),
    /// The command has no such subcommand.
    UnknownSubcommand(&'static str, Shown),
    /// The command has too many arguments or bytes.
    Oversized(Oversized),
    /// An option is unknown, or can't be combined with another one.
    Syntax,
    /// The option would make keys expire, and keys don't expire here.
    NoExpiry,
    /// A number is malformed, or doesn't fit into 64 bits.
    NotInteger,
    /// A sum doesn't fit into 64 bits.
    Overflow,
    /// A number that may have a fraction is malformed, or out of range.
    NotFloat,
    /// A sum of such numbers would be infinite, or isn't a number.
    InfiniteSum,
    /// The place of a byte is below 0.
    BadOffset,
    /// KEYS would return more keys, or look at more, than it may.
    ManyKeys,
    /// FLUSHDB deleted the keys of some shards, but not those of others.
    FlushedInPart,
    /// The negative of a number doesn't fit into 64 bits.
    NoOpposite,
    /// A text would be too long.
    TooLong,
    /// A pattern is too long.
    LongPattern,
    /// Memory was refused, and nothing has changed.
    NoMemory,
    /// More memory is in use than allowed.
    MaxMemory,
    /// More memory is in use than allowed, so EXEC discards the transaction.
    ExecMaxMemory,
    /// A key is too long, or empty.
    BadKey,
    /// The keys of one transaction, or of a command for a server, are of several shards.
    CrossShard,
    /// The reply would be too long.
    ReplyTooLarge,
    /// The cursor of SCAN wasn't given lately.
    BadCursor,
    /// MULTI within a transaction.
    NestedMulti,
    /// EXEC or DISCARD without MULTI. The fault has the command's name.
    NoMulti(&'static str),
    /// EXEC has an argument, so the transaction is discarded.
    ExecArity,
    /// A command was refused when it was queued, so the transaction isn't executed.
    Aborted,
    /// The command isn't for transactions.
    NotQueued,
    /// The transaction has too many commands or bytes.
    QueueFull,
    /// The transaction's commands have more arguments than this, over data that outlives the process.
    QueueOfMany(usize),
    /// The transaction makes more writes than this, over data that outlives the process.
    QueueOfWrites(usize),
    /// The client must give the password first.
    NoAuth,
    /// The password isn't the server's.
    WrongPassword,
    /// A transaction gives a password again, although wrong ones were given lately.
    TooSoon,
    /// As many clients have logged in as allowed.
    ManyClients,
    /// The client gave a password, but the server has none.
    NoPassword,
    /// The client's role may not send the command. The fault has the command's name.
    NoPermission(String),
    /// There is only database 0.
    BadDatabase,
    /// The version of the protocol isn't supported.
    BadProtocol,
    /// The version of the protocol isn't a number.
    NoProtocol,
    /// HELLO has no such option, or the option lacks its argument. The fault has the option, cut.
    HelloOption(Shown),
    /// A client's name has spaces or other bytes that aren't allowed in names.
    BadName,
    /// There is no such server.
    UnknownServer,
    /// A command for a server has no keys.
    NoKeys,
    /// A command with keys of several shards, or with many writes, can't have a number.
    NotNumbered,
    /// A command that doesn't write, or that reads first, can't have a number. The fault has its name.
    NotBlind(&'static str),
    /// The client's number, or the number of its request, is out of bounds.
    BadNumber,
    /// The command exists only in memory mode.
    NotDurable(&'static str),
    /// A shard whose data outlives the process didn't do the command, or may not have done it.
    NotDone(u16, NotDone),
    /// A command with keys of several shards wasn't done with all of them. With others it was done, or may have been.
    InPart,
    /// The board refuses the admission, and waiting doesn't help.
    NotAdmitted(AdmitFault),
}

impl Fault {
    /// Returns the fault that the command takes another number of arguments.
    #[cold]
    pub fn wrong_arity(name: &str) -> Fault {
        Fault::WrongArity(name.into())
    }

    /// Returns the fault that there is no such command.
    #[cold]
    pub fn unknown_command(command: Command<'_>) -> Fault {
        let mut shown = Vec::new();
        for argument in command.from(1).iter() {
            if shown.len() >= MOST_SHOWN {
                break;
            }
            let argument = Shown::of(argument, MOST_SHOWN - shown.len());
            shown.extend([b"'", argument.bytes(), b"' "].concat());
        }
        Fault::UnknownCommand(Shown::of(command.get(0), MOST_SHOWN), shown.into())
    }

    /// Returns the fault that the client's role may not send this subcommand.
    pub fn no_permission(name: &str, word: &[u8]) -> Fault {
        let word = Shown::of(word, MOST_SHOWN);
        Fault::NoPermission(format!("{name}|{word}").to_ascii_lowercase())
    }

    /// Returns the fault that HELLO has no such option, or that the option lacks its argument.
    pub fn hello_option(option: &[u8]) -> Fault {
        Fault::HelloOption(Shown::of(option, MOST_SHOWN))
    }

    /// Returns the fault that the command has no such subcommand.
    pub fn unknown_subcommand(name: &'static str, word: &[u8]) -> Fault {
        Fault::UnknownSubcommand(name, Shown::of(word, MOST_SHOWN))
    }

    /// Writes the fault as an answer, with the client's own words as they came.
    pub fn answer(&self, replies: &mut Replies) {
        let told = match self {
            Fault::UnknownCommand(name, shown) => {
                let behind = b"', with args beginning with: ";
                [
                    b"ERR unknown command '",
                    name.bytes(),
                    behind,
                    shown.bytes(),
                ]
                .concat()
            }
            Fault::UnknownSubcommand(name, word) => {
                let behind = format!("'. Try {name} HELP.");
                let front = b"ERR unknown subcommand '";
                [front, word.bytes(), behind.as_bytes()].concat()
            }
            Fault::HelloOption(option) => {
                [b"ERR Syntax error in HELLO option '", option.bytes(), b"'"].concat()
            }
            other => return replies.error(other),
        };
        replies.error_bytes(&told);
    }
}

/// A client's words as an error repeats them, cut.
#[derive(Clone, Debug, PartialEq, Eq)]
pub struct Shown(Box<[u8]>);

impl Shown {
    /// Returns the first bytes, at most so many, and none from a zero byte on, as in Redis.
    fn of(bytes: &[u8], most: usize) -> Shown {
        let front = &bytes[..bytes.len().min(most)];
        let end = front.iter().position(|it| *it == 0);
        Shown(front[..end.unwrap_or(front.len())].into())
    }

    fn bytes(&self) -> &[u8] {
        &self.0
    }
}

impl From<Vec<u8>> for Shown {
    fn from(bytes: Vec<u8>) -> Shown {
        Shown(bytes.into())
    }
}

/// Bytes that aren't UTF-8 are shown with replacement characters.
impl fmt::Display for Shown {
    fn fmt(&self, f: &mut fmt::Formatter<'_>) -> fmt::Result {
        f.write_str(&String::from_utf8_lossy(&self.0))
    }
}

/// A key is too long, or empty.
#[derive(Clone, Copy, Debug, PartialEq, Eq)]
pub struct BadKey;

impl From<BadKey> for Fault {
    fn from(_: BadKey) -> Fault {
        Fault::BadKey
    }
}

impl From<NoRoom> for Fault {
    fn from(_: NoRoom) -> Fault {
        Fault::NoMemory
    }
}

impl From<Oversized> for Fault {
    fn from(why: Oversized) -> Fault {
        match why {
            Oversized::Arguments | Oversized::Bytes => Fault::Oversized(why),
            Oversized::Memory => Fault::NoMemory,
        }
    }
}

impl From<LongPattern> for Fault {
    fn from(_: LongPattern) -> Fault {
        Fault::LongPattern
    }
}

impl From<BodyRefusal> for Fault {
    fn from(refusal: BodyRefusal) -> Fault {
        match refusal {
            BodyRefusal::WrongKind => Fault::NotInteger,
            BodyRefusal::TooLong => Fault::TooLong,
            BodyRefusal::Overflow => Fault::Overflow,
            BodyRefusal::NoMemory => Fault::NoMemory,
        }
    }
}

/// Returns the name of a fault, without the fields that follow it.
pub fn name_of(fault: &impl fmt::Debug) -> String {
    let shown = format!("{fault:?}");
    shown.split('(').next().unwrap_or_default().to_owned()
}

const CROSS_SHARD: &str =
    "CROSSSHARD a transaction, as a command behind SM AT, is of one shard, and these keys are of several: \
     give them one {tag} where keys go by hash";
const IN_PART: &str =
    "UNKNOWN some of these keys are written, or may be, and others aren't: read before you try again";
const FLUSHED_IN_PART: &str =
    "UNKNOWN some keys are deleted, or may be, and others aren't: send FLUSHDB again";
const NO_EXPIRY: &str = "NOEXPIRY keys don't expire here: SET takes no EX, PX, EXAT and PXAT";
const QUEUE_FULL: &str =
    "QUEUEFULL a transaction has at most 1024 commands, of 1 MiB in all: send it in parts";
const QUEUE_OF: &str =
    "QUEUEFULL nothing has changed, as where data outlives the process a transaction";
const NO_PROTOCOL: &str = "ERR Protocol version is not an integer or out of range";
const NO_PASSWORD: &str =
    "ERR AUTH <password> called without any password configured for the default user. \
     Are you sure your configuration is correct?";
const BAD_NAME: &str = "ERR Client names cannot contain spaces, newlines or special characters.";
const NO_MEMORY: &str = "OOM memory was refused, and nothing has changed: try again";
const MAX_MEMORY: &str = "OOM command not allowed when used memory > 'maxmemory'.";
const EXEC_MAX_MEMORY: &str =
    "EXECABORT Transaction discarded because of: OOM command not allowed when used memory > 'maxmemory'.";
const UNKNOWN_SERVER: &str =
    "REFUSED UnknownServer: there is no server of that number; try: SM SERVERS lists them";
const NUMBERED: &str =
    "with keys of one shard it takes SET without options, MSET of 8 keys, DEL or UNLINK of 16, INCR, INCRBY, DECR, \
     DECRBY";
const EXEC_ARITY: &str =
    "EXECABORT Transaction discarded because of: wrong number of arguments for 'exec' command";
const ABORTED: &str = "EXECABORT Transaction discarded because of previous errors.";
const TOO_SOON: &str =
    "ERR wrong passwords were given lately, so this one isn't looked at: give it outside of a transaction";
const WRONG_PASSWORD: &str = "WRONGPASS invalid username-password pair or user is disabled.";

impl fmt::Display for Fault {
    fn fmt(&self, f: &mut fmt::Formatter<'_>) -> fmt::Result {
        let text = match self {
            Fault::InPart => IN_PART,
            Fault::Syntax => "ERR syntax error",
            Fault::NoExpiry => NO_EXPIRY,
            Fault::NotInteger => "ERR value is not an integer or out of range",
            Fault::Overflow => "ERR increment or decrement would overflow",
            Fault::NotFloat => "ERR value is not a valid float",
            Fault::InfiniteSum => "ERR increment would produce NaN or Infinity",
            Fault::BadOffset => "ERR offset is out of range",
            Fault::FlushedInPart => FLUSHED_IN_PART,
            Fault::NoOpposite => "ERR decrement would overflow",
            Fault::NoMemory => NO_MEMORY,
            Fault::MaxMemory => MAX_MEMORY,
            Fault::ExecMaxMemory => EXEC_MAX_MEMORY,
            Fault::CrossShard => CROSS_SHARD,
            Fault::BadCursor => "ERR invalid cursor",
            Fault::NestedMulti => "ERR MULTI calls can not be nested",
            Fault::ExecArity => EXEC_ARITY,
            Fault::Aborted => ABORTED,
            Fault::NotQueued => "ERR Command not allowed inside a transaction",
            Fault::QueueFull => QUEUE_FULL,
            Fault::NoAuth => "NOAUTH Authentication required.",
            Fault::WrongPassword => WRONG_PASSWORD,
            Fault::TooSoon => TOO_SOON,
            Fault::ManyClients => "ERR max number of clients reached",
            Fault::NoPassword => NO_PASSWORD,
            Fault::BadDatabase => "ERR DB index is out of range",
            Fault::BadProtocol => "NOPROTO unsupported protocol version",
            Fault::NoProtocol => NO_PROTOCOL,
            Fault::BadName => BAD_NAME,
            Fault::UnknownServer => UNKNOWN_SERVER,
            Fault::NoKeys => "ERR SM AT takes a command with keys of one shard",
            other => return composed(f, other),
        };
        f.write_str(text)
    }
}

/// Writes a fault whose words depend on its fields.
fn composed(f: &mut fmt::Formatter<'_>, fault: &Fault) -> fmt::Result {
    match fault {
        Fault::UnknownCommand(name, shown) => unknown(f, name, shown),
        Fault::WrongArity(name) => wrong_arity(f, name),
        Fault::UnknownSubcommand(name, word) => unknown_subcommand(f, name, word),
        Fault::NoPermission(name) => no_permission(f, name),
        Fault::NoMulti(name) => write!(f, "ERR {name} without MULTI"),
        Fault::HelloOption(option) => write!(f, "ERR Syntax error in HELLO option '{option}'"),
        Fault::NotAdmitted(fault) => not_admitted(f, *fault),
        Fault::NotDurable(name) => write!(
            f,
            "NOTDURABLE {name} doesn't exist if data outlives the process"
        ),
        Fault::NotDone(shard, why) => not_done(f, *shard, why),
        Fault::TooLong => write!(f, "TOOLONG a value has at most {MAX_TEXT} bytes"),
        Fault::LongPattern => write!(f, "TOOLONG a pattern has at most {MAX_PATTERN} bytes"),
        Fault::ManyKeys => write!(
            f,
            "TOOLARGE KEYS gives at most {MOST_FOUND} keys, and looks at {MOST_SEEN}, or at {MOST_SEEN_BYTES} bytes: \
             use SCAN"
        ),
        Fault::BadKey => write!(f, "BADKEY a key has 1 to {MAX_KEY} bytes"),
        Fault::Oversized(why) => write!(f, "TOOLARGE {why}: send it in parts"),
        Fault::ReplyTooLarge => write!(f, "TOOLARGE a reply has at most {MAX_REPLY} bytes"),
        Fault::QueueOfMany(most) => {
            let are = "'s commands with keys have at most";
            write!(f, "{QUEUE_OF}{are} {most} arguments: send it in parts")
        }
        Fault::QueueOfWrites(most) => {
            let may = "and a key may take two";
            write!(
                f,
                "{QUEUE_OF} makes at most {most} writes, {may}: send it in parts"
            )
        }
        Fault::NotBlind(name) => {
            let why = "with these arguments doesn't write without reading first";
            write!(
                f,
                "NOTNUMBERED {name} {why}, so SM CALL can't make it once: {NUMBERED}"
            )
        }
        Fault::NotNumbered => write!(f, "NOTNUMBERED SM CALL makes no other: {NUMBERED}"),
        Fault::BadNumber => bad_number(f),
        other => write!(f, "ERR {}", name_of(other)),
    }
}

fn unknown(f: &mut fmt::Formatter<'_>, name: &Shown, shown: &Shown) -> fmt::Result {
    let behind = "with args beginning with";
    write!(f, "ERR unknown command '{name}', {behind}: {shown}")
}

fn bad_number(f: &mut fmt::Formatter<'_>) -> fmt::Result {
    let last = Numbered::LAST_CLIENT;
    let written = "BADNUMBER it is written SM CALL client number COMMAND ..";
    write!(
        f,
        "{written}: give each client one of 1 to {last} of its own"
    )?;
    f.write_str(
        ", and its commands rising numbers from 1 on; who takes one over goes on above the last",
    )
}

fn wrong_arity(f: &mut fmt::Formatter<'_>, name: &str) -> fmt::Result {
    let hint = if name == "sm" {
        ": SM HELP lists its words"
    } else {
        ""
    };
    write!(
        f,
        "ERR wrong number of arguments for '{name}' command{hint}"
    )
}

fn no_permission(f: &mut fmt::Formatter<'_>, name: &str) -> fmt::Result {
    let this = "NOPERM this user has no permissions to run";
    write!(f, "{this} the '{name}' command")
}

fn unknown_subcommand(f: &mut fmt::Formatter<'_>, name: &str, word: &Shown) -> fmt::Result {
    write!(f, "ERR unknown subcommand '{word}'. Try {name} HELP.")
}

/// Writes why a shard whose data outlives the process didn't do the command, and the advice.
fn not_done(f: &mut fmt::Formatter<'_>, shard: u16, why: &NotDone) -> fmt::Result {
    match why {
        NotDone::Paused => write!(f, "{}", Wait::Paused(shard)),
        NotDone::Away(server) => write!(f, "{}", Wait::Unreachable(shard, *server)),
        NotDone::Vacant => write!(f, "{}", Wait::Vacant(shard)),
        NotDone::Busy => write!(f, "{}", Wait::Busy(shard)),
        NotDone::Crowded => write!(f, "SHARDBUSY nothing has changed: {why}: try again"),
        NotDone::Damaged(_) => write!(f, "SHARDDAMAGED shard {shard}: {why}: restore the folder"),
        NotDone::Full(_) => write!(
            f,
            "STOREFULL nothing has changed, and reads go on: {why}: make room by SM COMPACT, and in \
             a folder by DEL before"
        ),
        NotDone::TooLarge(_) => write!(f, "TOOLARGE nothing has changed: {why}: send it in parts"),
        NotDone::NotMade(_) => write!(f, "STOREDOWN nothing has changed: {why}"),
        // Clients know this name from Redis, and try again.
        NotDone::Unread => write!(
            f,
            "LOADING nothing has changed: the server of shard {shard} hasn't read it yet: try again"
        ),
        NotDone::Unknown(_) => write!(f, "UNKNOWN {why}: read before you try again"),
        // Another process asks again.
        NotDone::Moved(_) => write!(f, "{}", Wait::Busy(shard)),
        NotDone::Passed => write!(
            f,
            "PASSED {why}: this one won't be, and whether it was isn't kept"
        ),
        NotDone::TooManyClients => write!(f, "TOOMANYCLIENTS nothing has changed: {why}"),
        NotDone::Stopped => write!(f, "STOPPING nothing has changed: {why}"),
    }
}

/// Writes why the board refuses the admission, and the advice.
fn not_admitted(f: &mut fmt::Formatter<'_>, fault: AdmitFault) -> fmt::Result {
    let advice = match fault {
        AdmitFault::Vacant(_) => "SM PLACE gives the shard an owner",
        AdmitFault::Paused(_) => "SM RESUME k",
        AdmitFault::NotExecutor(_) | AdmitFault::NotYet(_) => {
            "SM LOOK k tells the owner, of the shard k that SM KEY key tells"
        }
        AdmitFault::Admitted(_) | AdmitFault::Raced(_) | AdmitFault::Holding => "try again",
        AdmitFault::Spent(_) => "start anew with a greater ceiling",
        AdmitFault::UnknownShard => "SM SHARDS lists them",
        AdmitFault::BadServer => "SM SERVERS lists them",
        _ => "SM SHARDS tells how all stand",
    };
    write!(f, "REFUSED {}: {fault}; try: {advice}", name_of(&fault))
}

impl Error for Fault {}
