use crate::request::get_bytes;
use crate::{Key, MapReply};
use durkenzo_store::Revision;

/// A key that is read if there is no other key, so that the transaction compares whether the keys are still the same.
const ANY: &[u8] = &[0];

/// The keys that a server has listed. They are those after all requests up to the head at this revision.
pub(crate) struct KeyList {
    server: u16,
    logged: Revision,
    found: Found,
}

/// The result of a listing.
pub(crate) enum Found {
    /// Keys, whose values the round reads.
    Pairs(Vec<Key>),
    Keys(Vec<Key>),
    Count(u64),
}

impl KeyList {
    pub(crate) fn new(server: u16, logged: Revision, found: Found) -> KeyList {
        KeyList {
            server,
            logged,
            found,
        }
    }

    /// Returns the bytes of requests that read the values of the listed keys. If there are none, returns those of one
    /// request, by which the server says who executes.
    pub(crate) fn requests(list: Option<&KeyList>) -> Vec<Vec<u8>> {
        match list.map(|it| &it.found) {
            Some(Found::Pairs(keys)) if !keys.is_empty() => {
                keys.iter().map(|it| get_bytes(it)).collect()
            }
            Some(Found::Pairs(_) | Found::Keys(_) | Found::Count(_)) | None => vec![get_bytes(ANY)],
        }
    }

    /// Returns whether this server made the list, and still has the head of that revision.
    pub(crate) fn is_by(&self, server: u16, logged: Option<Revision>) -> bool {
        self.is_of(server) && Some(self.logged) == logged
    }

    /// Returns whether this server made the list.
    pub(crate) fn is_of(&self, server: u16) -> bool {
        self.server == server
    }

    /// Returns the replies to the step, from the replies to its requests.
    pub(crate) fn told(self, replies: Vec<MapReply>) -> Vec<MapReply> {
        match self.found {
            Found::Count(count) => vec![MapReply::Count(count as i64)],
            Found::Keys(keys) => keys.into_iter().map(MapReply::Key).collect(),
            Found::Pairs(keys) => {
                let pairs = keys.into_iter().zip(replies);
                let pairs = pairs.filter(|it| it.1 != MapReply::Nothing);
                pairs
                    .map(|(key, held)| MapReply::Pair(key, Box::new(held)))
                    .collect()
            }
        }
    }
}
