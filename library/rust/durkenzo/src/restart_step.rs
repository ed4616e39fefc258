// By tools/library-codes, the restarts of library/codes.txt:

/// A step of a server's restart.
#[derive(Clone, Copy, Debug, PartialEq, Eq)]
pub enum RestartStep {
    /// Asks for a restart of the server.
    Ask,
    /// Approves the restart, within the caps.
    Approve,
    /// Notes that the server was stopped, if it serves no shard any more.
    Stopped,
    /// Notes that the server is up again, or that its restart is given up.
    Back,
    /// Notes that the server failed.
    Fail,
}

impl RestartStep {
    /// All steps, by their numbers from 1.
    const ALL: [RestartStep; 5] = [
        RestartStep::Ask,
        RestartStep::Approve,
        RestartStep::Stopped,
        RestartStep::Back,
        RestartStep::Fail,
    ];

    /// Returns its number and its word.
    fn row(self) -> (u8, &'static str) {
        match self {
            RestartStep::Ask => (1, "ask"),
            RestartStep::Approve => (2, "approve"),
            RestartStep::Stopped => (3, "stopped"),
            RestartStep::Back => (4, "back"),
            RestartStep::Fail => (5, "fail"),
        }
    }
}
// End of them.

impl RestartStep {
    /// Returns the step with this number in `durkenzo.h`, from 1 to 5. Returns `None` for other numbers.
    pub fn of_number(number: u8) -> Option<RestartStep> {
        let place = usize::from(number).checked_sub(1)?;
        RestartStep::ALL.get(place).copied()
    }

    /// Returns the step with this word in scripts, in small letters, if there is one.
    pub fn of_word(word: &str) -> Option<RestartStep> {
        RestartStep::ALL.into_iter().find(|it| it.word() == word)
    }

    /// Returns its number in `durkenzo.h`, from 1 to 5.
    pub fn number(self) -> u8 {
        self.row().0
    }

    /// Returns its word in scripts, for example `approve`.
    pub fn word(self) -> &'static str {
        self.row().1
    }
}

#[cfg(test)]
mod tests {
    use super::RestartStep;

    #[test]
    fn a_step_is_found_by_its_number_and_by_its_word() {
        for (number, step) in (1..).zip(RestartStep::ALL) {
            assert_eq!(step.number(), number);
            assert_eq!(RestartStep::of_number(number), Some(step));
            assert_eq!(RestartStep::of_word(step.word()), Some(step));
        }
        assert_eq!(
            (RestartStep::of_number(0), RestartStep::of_number(6)),
            (None, None)
        );
        assert_eq!(RestartStep::of_word("ASK"), None);
    }
}
