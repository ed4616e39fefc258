use crate::keys;

/// The number in the key of a spread. It lies among those of drains, because servers are numbered from 1 on.
const NO_SERVER: u16 = 0;

/// The first byte at an intent's key.
const VERSION: u8 = 1;

/// An intent of the control: work with which each leader goes on, or what it heeds, and that no record or state tells.
#[derive(Clone, Copy, Debug, PartialEq, Eq)]
pub enum Intent {
    /// The server's shards go elsewhere.
    Drain(u16),
    /// Servers get as many shards as others.
    Spread,
    /// The shard comes home to the server, which it left for a restart of that server.
    Home(u16, u16),
    /// The server was drained: no shard goes there unless somebody asks for that.
    Drained(u16),
}

impl Intent {
    /// Returns its key.
    pub(crate) fn key(self) -> Vec<u8> {
        match self {
            Intent::Drain(server) => keys::drain(server),
            Intent::Spread => keys::drain(NO_SERVER),
            Intent::Home(shard, _) => keys::home(shard),
            Intent::Drained(server) => keys::drained(server),
        }
    }

    /// Returns the bytes at its key.
    pub(crate) fn bytes(self) -> Vec<u8> {
        match self {
            Intent::Drain(_) | Intent::Spread | Intent::Drained(_) => vec![VERSION],
            Intent::Home(_, server) => [&[VERSION][..], &server.to_be_bytes()].concat(),
        }
    }

    /// Returns the intent with this key and these bytes, if they are valid.
    pub(crate) fn of(key: &[u8], bytes: &[u8]) -> Option<Intent> {
        let (version, rest) = bytes.split_first()?;
        if *version != VERSION {
            return None;
        }
        if let Some(shard) = keys::shard_of_home(key) {
            let server = rest.try_into().ok().map(u16::from_be_bytes)?;
            return Some(Intent::Home(shard, server));
        }
        let intent = match keys::server_of_drain(key) {
            Some(NO_SERVER) => Intent::Spread,
            Some(server) => Intent::Drain(server),
            None => Intent::Drained(keys::server_of_drained(key)?),
        };
        rest.is_empty().then_some(intent)
    }
}
