use durkenzo_control::links::{put_text, Fields, Reason, WireFault};
use durkenzo_driver::NotDone;
use durkenzo_store::Revision;

/// Why a work isn't done, as one process tells another.
#[derive(Clone, Debug, PartialEq, Eq)]
pub struct WireReason(pub NotDone);

impl Reason for WireReason {
    fn stopped() -> WireReason {
        WireReason(NotDone::Stopped)
    }

    fn moved(revision: Revision) -> WireReason {
        WireReason(NotDone::Moved(revision))
    }

    fn unknown(why: String) -> WireReason {
        WireReason(NotDone::Unknown(why))
    }

    fn looks_again(&self) -> Option<Revision> {
        match &self.0 {
            NotDone::Moved(revision) => Some(*revision),
            NotDone::Stopped => Some(Revision::NEVER),
            NotDone::Paused
            | NotDone::Vacant
            | NotDone::Away(_)
            | NotDone::Busy
            | NotDone::Crowded
            | NotDone::Damaged(_)
            | NotDone::Full(_)
            | NotDone::TooLarge(_)
            | NotDone::Unread
            | NotDone::NotMade(_)
            | NotDone::Unknown(_)
            | NotDone::Passed
            | NotDone::TooManyClients => None,
        }
    }

    fn code(&self) -> u8 {
        match &self.0 {
            NotDone::Paused => 1,
            NotDone::Vacant => 2,
            NotDone::Away(_) => 3,
            // Processes of 0.1.0 don't know the second reason. To clients both are a busy shard.
            NotDone::Busy | NotDone::Crowded => 4,
            NotDone::Damaged(_) => 5,
            NotDone::Full(_) => 6,
            // Processes of 0.1.0 tell both by one number, and a text.
            NotDone::NotMade(_) | NotDone::Unread => 7,
            NotDone::Unknown(_) => 8,
            NotDone::Moved(_) => 9,
            NotDone::Passed => 10,
            NotDone::TooManyClients => 11,
            NotDone::Stopped => 12,
            NotDone::TooLarge(_) => 13,
        }
    }

    fn write(&self, out: &mut Vec<u8>) {
        match &self.0 {
            NotDone::Away(server) => out.extend(server.to_be_bytes()),
            NotDone::Moved(revision) => out.extend(revision.0.to_be_bytes()),
            NotDone::Damaged(text)
            | NotDone::Full(text)
            | NotDone::TooLarge(text)
            | NotDone::NotMade(text)
            | NotDone::Unknown(text) => put_text(out, text),
            NotDone::Unread => put_text(out, &self.0.to_string()),
            NotDone::Paused
            | NotDone::Vacant
            | NotDone::Busy
            | NotDone::Crowded
            | NotDone::Passed
            | NotDone::TooManyClients
            | NotDone::Stopped => {}
        }
    }

    fn read(code: u8, mut details: Fields<'_>) -> Result<WireReason, WireFault> {
        let why = match code {
            1 => NotDone::Paused,
            2 => NotDone::Vacant,
            3 => NotDone::Away(details.short()?),
            4 => NotDone::Busy,
            5 => NotDone::Damaged(details.text()?),
            6 => NotDone::Full(details.text()?),
            7 => not_made(details.text()?),
            8 => NotDone::Unknown(details.text()?),
            9 => NotDone::Moved(Revision(details.long()?)),
            10 => NotDone::Passed,
            11 => NotDone::TooManyClients,
            12 => NotDone::Stopped,
            13 => NotDone::TooLarge(details.text()?),
            code => return Err(WireFault::Answer(code)),
        };
        details.end().map(|()| WireReason(why))
    }
}

/// Returns the reason with this text: the shard isn't read yet, or something else wasn't done.
fn not_made(text: String) -> NotDone {
    match text == NotDone::Unread.to_string() {
        true => NotDone::Unread,
        false => NotDone::NotMade(text),
    }
}

#[cfg(test)]
mod tests {
    use super::*;
    use durkenzo_control::links::{Frame, RequestOutcome, MAX_REASON};

    fn written(why: NotDone) -> Vec<u8> {
        let (mut bytes, outcome) = (Vec::new(), RequestOutcome::NotDone(WireReason(why)));
        Frame::Outcome(3, outcome).write(7, &mut bytes);
        bytes
    }

    fn read(bytes: &[u8]) -> Result<NotDone, WireFault> {
        match Frame::<WireReason>::read(bytes)?.unwrap() {
            (7, Frame::Outcome(3, RequestOutcome::NotDone(reason)), _) => Ok(reason.0),
            other => panic!("{other:?}"),
        }
    }

    #[test]
    fn a_reason_that_was_written_is_read() {
        let text = || "why it isn't".to_owned();
        for why in [
            NotDone::Paused,
            NotDone::Vacant,
            NotDone::Away(7),
            NotDone::Busy,
            NotDone::Damaged(text()),
            NotDone::Full(String::new()),
            NotDone::TooLarge(text()),
            NotDone::NotMade(text()),
            NotDone::Unread,
            NotDone::Unknown(text()),
            NotDone::Moved(Revision(1 << 50)),
            NotDone::Passed,
            NotDone::TooManyClients,
            NotDone::Stopped,
        ] {
            assert_eq!(read(&written(why.clone())), Ok(why));
        }
    }

    #[test]
    fn codes_are_those_of_the_versions_before() {
        let head = |code: u8, details: &[u8]| [&[0, 3, code][..], details].concat();
        for (why, wanted) in [
            (NotDone::Busy, head(4, &[])),
            (NotDone::Crowded, head(4, &[])),
            (NotDone::Away(258), head(3, &[1, 2])),
            (NotDone::NotMade("no".to_owned()), head(7, b"no")),
            (NotDone::Moved(Revision(5)), head(9, &5u64.to_be_bytes())),
            (NotDone::Stopped, head(12, &[])),
        ] {
            assert_eq!(written(why)[13..], wanted);
        }
    }

    #[test]
    fn a_reason_that_is_none_is_refused() {
        let mut stopped = written(NotDone::Stopped);
        *stopped.last_mut().unwrap() = 99;
        assert_eq!(read(&stopped), Err(WireFault::Answer(99)));
        *stopped.last_mut().unwrap() = 3;
        assert_eq!(read(&stopped), Err(WireFault::TooShort));
        let mut busy = written(NotDone::Full("x".to_owned()));
        busy[15] = 4;
        assert_eq!(read(&busy), Err(WireFault::TooMuch));
        let long = written(NotDone::Full("x".repeat(2 * MAX_REASON)));
        assert_eq!(read(&long), Ok(NotDone::Full("x".repeat(MAX_REASON))));
    }
}
