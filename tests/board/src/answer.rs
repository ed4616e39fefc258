use sm_service::{ApplyFault, Reply};

/// What the sample service answers.
#[derive(Clone, Copy, Debug, PartialEq)]
pub(crate) enum Answer<'a> {
    Nothing,
    Done,
    Text(&'a [u8]),
    Count(i64),
    /// A scan found so many pairs.
    Pairs(usize),
    WrongKind,
    Overflow,
    TooLong,
    /// The request isn't applied.
    Refused(ApplyFault),
}

/// What the service answered.
pub(crate) fn answer_of(reply: &Result<Reply, ApplyFault>) -> Answer<'_> {
    match reply {
        Ok(Reply::Nothing) => Answer::Nothing,
        Ok(Reply::Done) => Answer::Done,
        Ok(Reply::Text(text)) => Answer::Text(text.as_bytes()),
        Ok(Reply::Count(count)) => Answer::Count(*count),
        Ok(Reply::Pairs(pairs)) => Answer::Pairs(pairs.as_slice().len()),
        Ok(Reply::WrongKind) => Answer::WrongKind,
        Ok(Reply::Overflow) => Answer::Overflow,
        Ok(Reply::TooLong) => Answer::TooLong,
        Err(fault) => Answer::Refused(*fault),
    }
}
