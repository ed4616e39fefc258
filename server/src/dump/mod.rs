//! A dump: a file with the content and the stand of all shards.
//!
//! It begins with the line `durkenzo-dump 1`, and a line of JSON with its number of servers and the rule that assigns
//! keys to shards. Each shard follows: a line `shard NUMBER STAND OWNER OTHER GENERATION PAIRS`, and its pairs in the
//! order of their keys. A pair is `text LENGTH LENGTH`, a line feed, the key and the text and a line feed, or `count
//! LENGTH COUNT`, a line feed, the key and a line feed. Last comes the line `end SHARDS PAIRS CHECKSUM`. The checksum
//! is of all bytes before that line, in 16 hexadecimal digits.
mod checksum;
mod fault;
mod head;
mod reader;
mod restore;
mod writer;

pub use fault::DumpFault;
pub use head::{DumpHead, ShardHead};
pub use reader::{read, Loaded};
pub use restore::restore;
pub use writer::{shard_text, DumpFile};

/// The first bytes of each dump, before its version.
const MAGIC: &str = "durkenzo-dump ";
/// The default folder of dumps.
pub const USUAL_FOLDER: &str = "durkenzo-dumps";

/// The version that is written and read.
const VERSION: &str = "1";
