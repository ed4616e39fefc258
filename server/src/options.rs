//! The command line.
use crate::dump::USUAL_FOLDER as DUMPS;
use crate::join::JoinOptions;
use crate::memory::Bytes;
use crate::safety::SafetyOptions;
use crate::{NAME, VERSION};
use clap::{ArgGroup, Parser, ValueEnum};
use durkenzo_store::Sync;
use std::net::IpAddr;
use std::path::PathBuf;

const NETWORK: &str = "Network";
const SHARDS: &str = "Servers and shards";
const DATA: &str = "Data";
const THREADS: &str = "Threads and waiting";
const LOG: &str = "Log";
const PROVED: &str =
    "In the repository ./sm serve takes --proved too: it proves the library first, where that wasn't done.";

/// A server for Redis clients. Its data is in memory only, unless --data names a folder, or --etcd the members of etcd.
///
/// Each key belongs to a shard, and each shard is executed by one of several servers. These are all in this process,
/// or, with --etcd, each in its own. Servers restart in turn, and shards move between them: `redis-cli -p 7379 sm help`
/// tells how.
#[derive(Clone, Debug, Parser)]
#[command(
    name = NAME,
    version = VERSION,
    args_override_self = true,
    verbatim_doc_comment,
    after_help = PROVED,
    group = ArgGroup::new("stored").args(["data", "etcd"])
)]
pub struct Options {
    /// Address to listen at
    #[arg(long, value_name = "ADDRESS", default_value = "127.0.0.1", help_heading = NETWORK)]
    pub bind: IpAddr,

    /// Port for Redis clients; 0 takes a free one, which is logged
    #[arg(long, value_name = "PORT", default_value_t = 7379, help_heading = NETWORK)]
    pub port: u16,

    /// Port of the page, /metrics, /live and /ready, which ask for no password; 0 means none
    #[arg(long, value_name = "PORT", default_value_t = 7380, help_heading = NETWORK)]
    pub http_port: u16,

    /// Address of the page [default: as --bind, but 127.0.0.1 if clients need a password and no certificate]
    #[arg(long, value_name = "ADDRESS", help_heading = NETWORK)]
    pub http_bind: Option<IpAddr>,

    /// Most connections at a time, at least 1; fewer if the system lets the process open fewer files
    #[arg(
        long,
        value_name = "COUNT",
        default_value_t = 20_000,
        value_parser = clap::value_parser!(u32).range(1..),
        help_heading = NETWORK
    )]
    pub max_clients: u32,

    /// Who may connect, and what they may do
    #[command(flatten)]
    pub safety: SafetyOptions,

    /// Settings file in the form of scripts, whose capacities, groups and caps also apply [default: none]
    #[arg(
        long,
        value_name = "FILE",
        conflicts_with_all = ["servers", "domains", "ranges", "bounds", "shards", "restarts"],
        help_heading = SHARDS
    )]
    pub settings: Option<PathBuf>,

    /// Number of servers, 1 to 4095
    #[arg(
        long,
        value_name = "COUNT",
        default_value_t = 4,
        value_parser = clap::value_parser!(u16).range(1..=4095),
        help_heading = SHARDS
    )]
    pub servers: u16,

    /// Number of domains, to which servers are assigned in turn; one server of each may be away [default: as servers]
    #[arg(
        long,
        value_name = "COUNT",
        value_parser = clap::value_parser!(u16).range(1..=4095),
        help_heading = SHARDS
    )]
    pub domains: Option<u16>,

    /// Servers that may be away for a restart at once
    #[arg(long, value_name = "COUNT", default_value_t = 1, help_heading = SHARDS)]
    pub restarts: u16,

    /// Number of shards, 1 to 4096, if keys go to them by hash
    #[arg(
        long,
        value_name = "COUNT",
        default_value_t = 64,
        value_parser = clap::value_parser!(u16).range(1..=4096),
        conflicts_with_all = ["ranges", "bounds"],
        help_heading = SHARDS
    )]
    pub shards: u16,

    /// Number of key ranges, even from a to z, each a shard [default: none]
    ///
    /// Neighbours are in one shard, as transactions need it, and SCANRANGE asks few shards. But keys that begin alike,
    /// like those of one program, are all in one shard.
    #[arg(
        long,
        value_name = "COUNT",
        value_parser = clap::value_parser!(u16).range(1..=676),
        conflicts_with = "bounds",
        help_heading = SHARDS,
        verbatim_doc_comment
    )]
    pub ranges: Option<u16>,

    /// Keys at which ranges begin, beside the first, which begins with the empty one [default: none]
    #[arg(long, value_name = "KEY,..", value_delimiter = ',', help_heading = SHARDS)]
    pub bounds: Vec<String>,

    /// Keys go to shards by hash, even if ranges are given; there are as many shards as ranges
    ///
    /// This is the default if neither ranges, bounds nor settings are given. Keys that begin alike are spread, and keys
    /// with the same {tag} are in one shard. SCANRANGE returns the same, in order, but asks all shards.
    #[arg(long, help_heading = SHARDS, verbatim_doc_comment)]
    pub hash: bool,

    /// No shard has an owner at the start, until SM ASSIGN or SM PLACE; otherwise servers take turns
    #[arg(long, help_heading = SHARDS)]
    pub vacant: bool,

    /// Folder in which data outlives the process [default: none]
    ///
    /// If there is no folder, it is made. It keeps the shards and servers with which it was made.
    #[arg(long, value_name = "FOLDER", help_heading = DATA)]
    pub data: Option<PathBuf>,

    /// When an answered write is on the disk: always before the answer, within a second, or when the system writes it
    #[arg(long, value_name = "always|second|no", default_value = "always", requires = "data", help_heading = DATA)]
    pub sync: Sync,

    /// Most batches of a shard's log before a base replaces them, or more if the base is large; the next start reads it
    #[arg(
        long,
        value_name = "COUNT",
        default_value_t = 4_096,
        value_parser = clap::value_parser!(u64).range(1..),
        requires = "stored",
        help_heading = DATA
    )]
    pub log_batches: u64,

    /// Bytes of memory above which commands are refused whose data may take more, as 100mb; 0 means no limit
    #[arg(long, value_name = "BYTES", default_value_t = Bytes(0), help_heading = DATA)]
    pub max_memory: Bytes,

    /// Folder of the files of SM DUMP and SM LOAD; the first dump makes it
    #[arg(long, value_name = "FOLDER", default_value = DUMPS, help_heading = DATA)]
    pub folder: PathBuf,

    /// Which server of several processes this is
    #[command(flatten)]
    pub join: JoinOptions,

    /// Threads for clients, 1 to 64 [default: one less than processors, at most 4]
    #[arg(
        long,
        value_name = "COUNT",
        value_parser = clap::value_parser!(u16).range(1..=64),
        help_heading = THREADS
    )]
    pub threads: Option<u16>,

    /// How long a thread polls for requests before it sleeps, if they came soon lately and polling answers sooner; 0
    /// means not at all
    #[arg(long, value_name = "MICROSECONDS", default_value_t = 50, help_heading = THREADS)]
    pub busy_poll: u64,

    /// Tries to get a shard that another thread has, before other connections have their turn
    #[arg(long, value_name = "COUNT", default_value_t = 64, help_heading = THREADS)]
    pub spins: u32,

    /// How long a command waits for a paused shard before it is refused
    #[arg(long, value_name = "MILLISECONDS", default_value_t = 1_000, help_heading = THREADS)]
    pub wait: u64,

    /// Pause between the steps of a migration, so that one can be watched
    #[arg(long, value_name = "MILLISECONDS", default_value_t = 0, help_heading = THREADS)]
    pub pace: u64,

    /// The most time that a stop takes while clients send, or read their answers; with --etcd shards go to others for
    /// as long before
    #[arg(long, value_name = "MILLISECONDS", default_value_t = 2_000, help_heading = THREADS)]
    pub grace: u64,

    /// Least level to log: error, warn, info, debug, trace; or filters of tracing
    #[arg(long, value_name = "LEVEL", default_value = "info", help_heading = LOG)]
    pub log: String,

    /// Form of the log, on standard error
    #[arg(long, value_name = "FORM", value_enum, default_value_t = LogFormat::Text, help_heading = LOG)]
    pub log_format: LogFormat,
}

/// The form of the log.
#[derive(Clone, Copy, Debug, PartialEq, Eq, ValueEnum)]
pub enum LogFormat {
    /// A line for people
    Text,
    /// A JSON object a line
    Json,
}
