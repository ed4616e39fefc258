use durkenzo::ChangeFault;
use std::error::Error;
use std::fmt;
use std::io;

/// Why a dump isn't written or read. The server's data stays as it is.
#[derive(Debug)]
pub enum DumpFault {
    /// The system refuses it.
    File(io::Error),
    /// The name has a folder, or characters that aren't allowed in names.
    BadName,
    /// The file isn't a dump.
    Foreign,
    /// There is a file with the name of the dump to be written, and it isn't a dump.
    Taken,
    /// The file has another version.
    Version,
    /// The file ends too early, has other bytes than were written, or has a generation that no server reaches.
    Torn,
    /// The file has other servers or shards than this server. The fault says how to begin a server for it.
    Other(String),
    /// This shard can't have that stand.
    Stand(u16, ChangeFault),
    /// Memory was refused.
    NoMemory,
}

impl DumpFault {
    /// Returns the name.
    pub fn name(&self) -> &'static str {
        match self {
            DumpFault::File(_) => "BadFile",
            DumpFault::BadName => "BadName",
            DumpFault::Foreign => "ForeignFile",
            DumpFault::Taken => "NameTaken",
            DumpFault::Version => "BadVersion",
            DumpFault::Torn => "TornFile",
            DumpFault::Other(_) => "OtherShards",
            DumpFault::Stand(..) => "BadStand",
            DumpFault::NoMemory => "NoMemory",
        }
    }

    /// Returns the advice.
    pub fn advice(&self) -> &'static str {
        match self {
            DumpFault::File(_) => "--folder names the folder of such files",
            DumpFault::BadName => "name a file in the folder that --folder names",
            DumpFault::Foreign | DumpFault::Version => {
                "name a file that SM DUMP of this version wrote"
            }
            DumpFault::Taken => "take another name",
            DumpFault::Torn => "name an earlier file",
            DumpFault::Other(_) | DumpFault::Stand(..) => "begin a server so, and load it there",
            DumpFault::NoMemory => "load it where there is more",
        }
    }
}

impl fmt::Display for DumpFault {
    fn fmt(&self, f: &mut fmt::Formatter<'_>) -> fmt::Result {
        match self {
            DumpFault::File(error) => write!(f, "{error}"),
            DumpFault::BadName => f.write_str(
                "a file's name has letters, digits, -, _ and ., and begins with none of - and .",
            ),
            DumpFault::Foreign => f.write_str("it isn't a dump of this server"),
            DumpFault::Taken => f.write_str("something of that name is there that isn't a dump"),
            DumpFault::Version => f.write_str("it has another version"),
            DumpFault::Torn => f.write_str("it is cut, or was changed"),
            DumpFault::Other(how) => write!(f, "it is of a server with {how}"),
            DumpFault::Stand(shard, fault) => {
                write!(f, "shard {shard} can't stand so here: {fault}")
            }
            DumpFault::NoMemory => f.write_str("memory was refused"),
        }
    }
}

impl Error for DumpFault {
    fn source(&self) -> Option<&(dyn Error + 'static)> {
        match self {
            DumpFault::File(error) => Some(error),
            _ => None,
        }
    }
}

impl From<io::Error> for DumpFault {
    fn from(error: io::Error) -> DumpFault {
        match error.kind() {
            io::ErrorKind::UnexpectedEof => DumpFault::Torn,
            _ => DumpFault::File(error),
        }
    }
}
