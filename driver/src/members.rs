use crate::Addresses;
use durkenzo_store::Revision;
use std::collections::BTreeMap;
use std::ops::Deref;

/// A server that is there, as its key tells.
#[derive(Clone, Debug, PartialEq, Eq)]
pub struct Live {
    /// The number of its process.
    pub process: u64,
    /// The revision up to which it follows the records.
    pub followed: Revision,
    /// The revision at which it joined: that of its key's creation under the present lease.
    pub joined: Revision,
    /// Its addresses.
    pub addresses: Addresses,
}

/// The servers that are there.
#[derive(Clone, Debug, Default, PartialEq, Eq)]
pub struct Members(BTreeMap<u16, Live>);

impl Members {
    /// Returns the revision at which the server joined, if it is there. Another process with its name, or the same one
    /// under another lease, joined at another revision.
    pub fn joined_of(&self, server: u16) -> Option<Revision> {
        self.0.get(&server).map(|it| it.joined)
    }

    /// Notes that the server is there, or isn't any more.
    pub(crate) fn note(&mut self, server: u16, live: Option<Live>) {
        match live {
            Some(live) => drop(self.0.insert(server, live)),
            None => drop(self.0.remove(&server)),
        }
    }
}

impl Deref for Members {
    type Target = BTreeMap<u16, Live>;

    fn deref(&self) -> &BTreeMap<u16, Live> {
        &self.0
    }
}

impl<const N: usize> From<[(u16, Live); N]> for Members {
    fn from(members: [(u16, Live); N]) -> Members {
        Members(BTreeMap::from(members))
    }
}

/// The version of the bytes at a server's key.
const VERSION: u8 = 1;

impl Live {
    /// Returns the bytes at its key: a version, both numbers, and each address behind its length.
    pub(crate) fn bytes(&self) -> Vec<u8> {
        let mut bytes = vec![VERSION];
        bytes.extend(self.process.to_be_bytes());
        bytes.extend(self.followed.0.to_be_bytes());
        for address in [&self.addresses.servers, &self.addresses.clients] {
            let cut = &address.as_bytes()[..address.len().min(usize::from(u16::MAX))];
            bytes.extend((cut.len() as u16).to_be_bytes());
            bytes.extend(cut);
        }
        bytes
    }

    /// Reads the bytes of a server, at a key that was created at this revision. Returns nothing if they are malformed.
    pub(crate) fn of(bytes: &[u8], created: Revision) -> Option<Live> {
        let (version, rest) = bytes.split_first()?;
        let (process, rest) = rest.split_first_chunk()?;
        let (followed, rest) = rest.split_first_chunk()?;
        let (servers, rest) = address(rest)?;
        let (clients, rest) = address(rest)?;
        (*version == VERSION && rest.is_empty()).then(|| Live {
            process: u64::from_be_bytes(*process),
            followed: Revision(u64::from_be_bytes(*followed)),
            joined: created,
            addresses: Addresses { servers, clients },
        })
    }
}

fn address(bytes: &[u8]) -> Option<(String, &[u8])> {
    let (length, rest) = bytes.split_first_chunk()?;
    let (text, rest) = rest.split_at_checked(usize::from(u16::from_be_bytes(*length)))?;
    Some((String::from_utf8(text.to_vec()).ok()?, rest))
}

#[cfg(test)]
mod tests {
    use super::*;

    #[test]
    fn what_lies_at_a_key_is_read_again() {
        let live = Live {
            process: 7,
            followed: Revision(1 << 40),
            joined: Revision(5),
            addresses: Addresses {
                servers: "[::1]:7000".to_owned(),
                clients: String::new(),
            },
        };
        let (bytes, joined) = (live.bytes(), live.joined);
        assert_eq!(Live::of(&bytes, joined), Some(live));
        assert_eq!(Live::of(&bytes[1..], joined), None);
        assert_eq!(Live::of(&[&bytes[..], b"x"].concat(), joined), None);
    }
}
