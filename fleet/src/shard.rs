/// A shard and its fencing token, as this process knows them.
#[derive(Clone, Copy, Debug, PartialEq, Eq)]
pub struct Shard {
    number: u16,
    fence: u64,
}

impl Shard {
    pub(crate) fn new(number: u16, fence: u64) -> Shard {
        Shard { number, fence }
    }

    /// Returns the shard's number, from 0.
    pub fn number(self) -> u16 {
        self.number
    }

    /// Returns the fencing token. It is a revision of the store that never goes back, and only one process executes
    /// under it. If a database refuses writes with a smaller token, it keeps out each late process, including an
    /// earlier process of the same server.
    pub fn fence(self) -> u64 {
        self.fence
    }
}
