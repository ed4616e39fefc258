use crate::Revision;

/// A key in the store.
#[derive(Clone, Debug, PartialEq, Eq)]
pub struct Pair {
    /// The key.
    pub key: Vec<u8>,
    /// Its value.
    pub value: Vec<u8>,
    /// The revision of the transaction that wrote it last.
    pub revision: Revision,
    /// The revision of the transaction that created it. It stays until the key is deleted.
    pub created: Revision,
}

/// The keys in the store at one moment.
#[derive(Clone, Debug, Default, PartialEq, Eq)]
pub struct Reading {
    /// The moment.
    pub revision: Revision,
    /// The keys that were asked for and exist, in the order of the request.
    pub pairs: Vec<Pair>,
}

impl Reading {
    /// Returns the pair of this key, if it exists.
    pub fn get(&self, key: &[u8]) -> Option<&Pair> {
        self.pairs.iter().find(|it| it.key == key)
    }
}
