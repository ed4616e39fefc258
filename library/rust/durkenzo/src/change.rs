// By tools/library-codes, the changes of library/codes.txt:

/// A change of a shard's stand.
#[derive(Clone, Copy, Debug, PartialEq, Eq)]
pub enum Change {
    /// Gives a vacant shard this owner.
    Assign(u16),
    /// Begins a migration of the shard to this server.
    PrepareAddShard(u16),
    /// Makes the owner stop executing, and forward to the next owner.
    PrepareDropShard,
    /// Makes the next owner the owner; the previous owner forwards to it.
    AddShard,
    /// Ends the migration: the previous owner drops the shard.
    DropShard,
    /// Gives up a migration, if the next owner isn't the owner yet.
    Cancel,
    /// Pauses the shard: no server executes its requests.
    Pause,
    /// Makes the owner of a paused shard execute again.
    Resume,
    /// Gives a paused shard this owner.
    Reassign(u16),
}

impl Change {
    /// Returns its number, its word and the server that it names.
    fn row(self) -> (u8, &'static str, Option<u16>) {
        match self {
            Change::Assign(server) => (1, "assign", Some(server)),
            Change::PrepareAddShard(server) => (2, "prepare_add", Some(server)),
            Change::PrepareDropShard => (3, "prepare_drop", None),
            Change::AddShard => (4, "add", None),
            Change::DropShard => (5, "drop", None),
            Change::Cancel => (6, "cancel", None),
            Change::Pause => (7, "pause", None),
            Change::Resume => (8, "resume", None),
            Change::Reassign(server) => (9, "reassign", Some(server)),
        }
    }

    /// Returns all changes by their numbers from 1, for this server if they name one.
    fn all(server: u16) -> [Change; 9] {
        [
            Change::Assign(server),
            Change::PrepareAddShard(server),
            Change::PrepareDropShard,
            Change::AddShard,
            Change::DropShard,
            Change::Cancel,
            Change::Pause,
            Change::Resume,
            Change::Reassign(server),
        ]
    }
}
// End of them.

impl Change {
    /// Returns the change of this number from 1 to 9, as `durkenzo.h` has it, for this server if the change names one.
    /// Returns `None` for other numbers.
    pub fn of_number(number: u8, server: u16) -> Option<Change> {
        let place = usize::from(number).checked_sub(1)?;
        Change::all(server).get(place).copied()
    }

    /// Returns the change of this word of scripts, in small letters. Returns `None` if there is no such change, or if
    /// it names a server and none is given.
    pub fn of_word(word: &str, server: Option<u16>) -> Option<Change> {
        let changes = Change::all(server.unwrap_or(0));
        let found = changes.into_iter().find(|it| it.word() == word)?;
        (server.is_some() || found.server().is_none()).then_some(found)
    }

    /// Returns its number from 1 to 9, as `durkenzo.h` has it.
    pub fn number(self) -> u8 {
        self.row().0
    }

    /// Returns its word in scripts, as `prepare_add`.
    pub fn word(self) -> &'static str {
        self.row().1
    }

    /// Returns the server that it names, if it names one.
    pub fn server(self) -> Option<u16> {
        self.row().2
    }

    /// Returns its number and its server as calls take them: server 0 if it names none.
    pub(crate) fn parts(self) -> (u8, u16) {
        (self.number(), self.server().unwrap_or(0))
    }
}

#[cfg(test)]
mod tests {
    use super::Change;

    #[test]
    fn a_change_is_found_by_its_number_and_by_its_word() {
        for (number, change) in (1..).zip(Change::all(7)) {
            assert_eq!(change.number(), number);
            assert_eq!(Change::of_number(number, 7), Some(change));
            assert_eq!(Change::of_word(change.word(), Some(7)), Some(change));
            let without = Some(change).filter(|it| it.server().is_none());
            assert_eq!(Change::of_word(change.word(), None), without);
        }
        assert_eq!(
            (Change::of_number(0, 7), Change::of_number(10, 7)),
            (None, None)
        );
        assert_eq!(Change::of_word("ASSIGN", Some(7)), None);
    }
}
