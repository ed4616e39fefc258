/// The name of a copy of a body. The names that a server chooses rise, even from one of its processes to the next. So a
/// late request for an earlier copy is recognized.
#[derive(Clone, Copy, Debug, PartialEq, Eq)]
pub(crate) struct CopyName {
    /// The server that chose the name. This is the next owner if it fetches the copy, or else the owner.
    pub(crate) server: u16,
    /// The revision of the server's key at that time.
    pub(crate) joined: u64,
    /// How many copies its process had named before.
    pub(crate) count: u64,
}

impl CopyName {
    /// Returns whether the same server chose both names, and chose this one later.
    pub(crate) fn is_later_than(self, other: CopyName) -> bool {
        let age = |it: CopyName| (it.joined, it.count);
        self.server == other.server && age(self) > age(other)
    }
}

#[cfg(test)]
mod tests {
    use super::*;

    #[test]
    fn names_rise_from_process_to_process_and_are_of_one_server() {
        let name = |server, joined, count| CopyName {
            server,
            joined,
            count,
        };
        let first = name(2, 5, 7);
        assert!(name(2, 5, 8).is_later_than(first) && name(2, 6, 0).is_later_than(first));
        assert!(!first.is_later_than(first) && !name(2, 4, 9).is_later_than(first));
        assert!(!name(3, 6, 9).is_later_than(first));
    }
}
