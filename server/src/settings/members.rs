//! The members of a line of settings, which docs/SETTINGS.md describes: those that the server writes, and those that it
//! reads. The library checks and keeps all of them.
use serde::{Deserialize, Serialize};
use serde_json::Value;

/// All members, sorted by name, because stores are opened by the bytes of the line.
#[derive(Clone, Debug, Serialize)]
pub(super) struct SettingsMembers {
    pub(super) bounds: Vec<String>,
    pub(super) ceiling: u64,
    pub(super) domains: Vec<DomainRow>,
    pub(super) groups: Vec<GroupRow>,
    pub(super) kept: u32,
    pub(super) ops: u16,
    pub(super) servers: Vec<ServerRow>,
    pub(super) shards: Vec<ShardRow>,
    pub(super) version: u8,
    pub(super) workers: u8,
}

#[derive(Clone, Copy, Debug, Serialize)]
pub(super) struct DomainRow {
    pub(super) domain: u16,
    pub(super) down: u16,
}

#[derive(Clone, Copy, Debug, Serialize)]
pub(super) struct GroupRow {
    pub(super) down: u16,
    pub(super) limit: u16,
}

#[derive(Clone, Copy, Debug, Serialize)]
pub(super) struct ServerRow {
    pub(super) capacity: u32,
    pub(super) domain: u16,
    pub(super) id: u16,
}

#[derive(Clone, Copy, Debug, Serialize)]
pub(super) struct ShardRow {
    pub(super) cap: u8,
    pub(super) group: u16,
    pub(super) load: u32,
}

/// The members that the server itself needs.
#[derive(Clone, Debug, Default, Deserialize)]
pub(super) struct ReadMembers {
    pub(super) bounds: Vec<String>,
    pub(super) servers: Vec<ReadServerRow>,
    pub(super) ops: u16,
    pub(super) ceiling: u64,
    /// The first version has no domains.
    #[serde(default)]
    domains: Value,
}

#[derive(Clone, Copy, Debug, Deserialize)]
pub(super) struct ReadServerRow {
    pub(super) id: u16,
    pub(super) domain: u16,
}

impl ReadMembers {
    /// Parses the members, or returns why the text is malformed. If two members have the same name, the last one
    /// counts, as in the library.
    pub(super) fn of(text: &str) -> Result<ReadMembers, serde_json::Error> {
        serde_json::from_value(serde_json::from_str(text)?)
    }

    /// Returns how many rows of domains there are.
    pub(super) fn domain_count(&self) -> usize {
        self.domains.as_array().map_or(0, Vec::len)
    }
}
