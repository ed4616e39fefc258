//! The state of servers and shards, for whoever looks.
use durkenzo::Record;
use serde::Serialize;
use std::fmt;

/// The state of a shard.
#[derive(Clone, Debug, Serialize)]
pub struct ShardStatus {
    /// Its number.
    pub shard: u16,
    /// The name of its stand.
    pub stand: &'static str,
    /// Its owner, or 0.
    pub owner: u16,
    /// Its next or previous owner, or 0.
    pub other: u16,
    /// Whether a server is admitted to it now.
    pub is_admitted: bool,
    /// How many steps its history has.
    pub generation: u64,
    /// How many keys it has, if they are counted.
    pub keys: Option<u64>,
}

impl ShardStatus {
    /// Makes the status of a shard with this record.
    pub fn new(shard: u16, record: Record, keys: Option<u64>) -> ShardStatus {
        ShardStatus {
            shard,
            stand: record.stand.name(),
            owner: record.owner().unwrap_or(0),
            other: record.other().unwrap_or(0),
            is_admitted: record.admitted,
            generation: record.generation,
            keys,
        }
    }

    /// Returns its line, with its number and its keys.
    fn line(&self) -> String {
        format!("{} {self} {}", self.shard, counted(self.keys))
    }
}

/// Returns a count, or a dash if it isn't counted.
fn counted(count: Option<u64>) -> String {
    count.map_or_else(|| "-".to_owned(), |it| it.to_string())
}

/// Written as scripts are answered by `look`.
impl fmt::Display for ShardStatus {
    fn fmt(&self, f: &mut fmt::Formatter<'_>) -> fmt::Result {
        let ShardStatus {
            stand,
            owner,
            other,
            generation,
            ..
        } = self;
        let admitted = if self.is_admitted { "admitted" } else { "idle" };
        write!(f, "{stand} {owner} {other} {admitted} {generation}")
    }
}

/// The state of a server.
#[derive(Clone, Debug, Serialize)]
pub struct ServerStatus {
    /// Its number.
    pub server: u16,
    /// How far its restart has come.
    pub standing: &'static str,
    /// Its domain. The servers that fail together have the same one.
    pub domain: u16,
    /// How many shards it owns.
    pub shards: usize,
    /// How often it was admitted to a shard, if that is counted.
    pub admissions: Option<u64>,
    /// The present step of its restart, if one is under way.
    pub doing: Option<String>,
    /// Its process, if each server has one.
    pub process: Option<ProcessStatus>,
}

/// The state of a server's process, if each server has one.
#[derive(Clone, Debug, Serialize)]
pub struct ProcessStatus {
    /// Its number among all processes that ever began, if it is there; otherwise 0.
    pub number: u64,
    /// Whether it leads.
    pub leads: bool,
    /// The revision up to which it follows records.
    pub followed: u64,
    /// The address at which other processes reach it.
    pub servers: String,
    /// The address at which clients reach it.
    pub clients: String,
}

impl fmt::Display for ProcessStatus {
    fn fmt(&self, f: &mut fmt::Formatter<'_>) -> fmt::Result {
        let ProcessStatus {
            number,
            leads,
            followed,
            servers,
            clients,
        } = self;
        let leads = match (number, leads) {
            (0, _) => "gone",
            (_, true) => "leads",
            (_, false) => "follows",
        };
        let told = |address: &String| match address.is_empty() {
            true => "-".to_owned(),
            false => address.clone(),
        };
        let (servers, clients) = (told(servers), told(clients));
        write!(f, "{number} {leads} {followed} {servers} {clients}")
    }
}

impl fmt::Display for ServerStatus {
    fn fmt(&self, f: &mut fmt::Formatter<'_>) -> fmt::Result {
        let ServerStatus {
            server,
            standing,
            domain,
            shards,
            admissions,
            doing,
            process,
        } = self;
        let (doing, admissions) = (doing.as_deref().unwrap_or("-"), counted(*admissions));
        write!(f, "{server} {standing} {domain} {shards} {admissions} ")?;
        if let Some(process) = process {
            write!(f, "{process} ")?;
        }
        f.write_str(doing)
    }
}

/// The columns of a shard's line, in their order.
const SHARD_COLUMNS: &str = "shard stand owner other admitted generation keys";
/// The columns of a server's line, before and behind those of its process, if each server has one.
const SERVER_COLUMNS: [&str; 2] = ["server standing domain shards admissions", "doing"];
const PROCESS_COLUMNS: &str = "process leads followed servers clients";

/// The state of everything.
#[derive(Clone, Debug, Serialize)]
pub struct Snapshot {
    /// Each server, by number.
    pub servers: Vec<ServerStatus>,
    /// Each shard, by number.
    pub shards: Vec<ShardStatus>,
    /// Where data lies.
    pub data: &'static str,
}

impl Snapshot {
    /// Returns the names of the columns, and then a line for each shard.
    pub fn shard_lines(&self) -> Vec<String> {
        let lines = self.shards.iter().map(ShardStatus::line);
        std::iter::once(SHARD_COLUMNS.to_owned())
            .chain(lines)
            .collect()
    }

    /// Returns the names of the columns, and then a line for each server.
    pub fn server_lines(&self) -> Vec<String> {
        let [first, last] = SERVER_COLUMNS;
        let names = match self.servers.iter().any(|it| it.process.is_some()) {
            true => format!("{first} {PROCESS_COLUMNS} {last}"),
            false => format!("{first} {last}"),
        };
        let lines = self.servers.iter().map(ToString::to_string);
        std::iter::once(names).chain(lines).collect()
    }
}

#[cfg(test)]
mod tests {
    use super::*;

    fn server(process: Option<ProcessStatus>) -> ServerStatus {
        ServerStatus {
            server: 1,
            standing: "up",
            domain: 1,
            shards: 2,
            admissions: None,
            doing: None,
            process,
        }
    }

    #[test]
    fn each_value_has_a_name() {
        let process = ProcessStatus {
            number: 3,
            leads: true,
            followed: 9,
            servers: "a:1".to_owned(),
            clients: String::new(),
        };
        let shard = ShardStatus {
            shard: 0,
            stand: "Serving",
            owner: 1,
            other: 0,
            is_admitted: false,
            generation: 1,
            keys: Some(0),
        };
        for process in [None, Some(process)] {
            let snapshot = Snapshot {
                servers: vec![server(process)],
                shards: vec![shard.clone()],
                data: "",
            };
            for lines in [snapshot.server_lines(), snapshot.shard_lines()] {
                let counts: Vec<_> = lines.iter().map(|it| it.split(' ').count()).collect();
                assert!(counts.len() == 2 && counts[0] == counts[1], "{lines:?}");
            }
        }
    }
}
