//! The parsers.
mod dump;
mod etcd;
mod fleet;
mod frames;
mod greetings;
mod log;
mod pattern;
mod pieces;
mod records;
mod resp;
mod sent;
mod settings;
mod sqlite;

pub use dump::DumpBytes;
pub use etcd::EtcdAnswers;
pub use fleet::FleetFrames;
pub use frames::Frames;
pub use greetings::Greetings;
pub use log::Log;
pub use pattern::ScanPatterns;
pub use records::StoreValues;
pub use resp::Resp;
pub use sent::SentBytes;
pub use settings::SettingsLine;
pub use sqlite::SqliteFile;
