use super::glob::Pattern;
use super::Fault;
use crate::body::{MAX_KEY, MAX_PAIRS};
use crate::resp::{number, Command, Replies};

/// How many keys a SCAN looks at by default, as in Redis.
const USUAL_COUNT: i64 = 10;
/// The most keys that a SCAN looks at.
const MOST_COUNT: i64 = 1_000;

/// The arguments of SCAN.
#[derive(Debug)]
pub(super) struct WantedScan {
    pattern: Option<Pattern>,
    /// How many keys it looks at.
    pub(super) count: usize,
    /// Whether it asks for keys of another type than Redis' strings. There are none.
    is_none: bool,
}

/// The arguments of SCANRANGE.
pub(super) struct WantedRange<'a> {
    pub(super) low: &'a [u8],
    /// The upper bound, if there is one.
    pub(super) high: Option<&'a [u8]>,
    /// The most pairs that are wanted.
    pub(super) most: usize,
}

impl WantedScan {
    /// Parses the arguments, or returns why they are refused.
    pub(super) fn of(command: Command<'_>) -> Result<WantedScan, Fault> {
        let (mut pattern, mut count, mut is_none) = (None, USUAL_COUNT, false);
        for index in (2..command.len()).step_by(2) {
            if index + 1 == command.len() {
                return Err(Fault::Syntax);
            }
            let value = command.get(index + 1);
            if command.is(index, "MATCH") {
                pattern = Some(Pattern::new(value)?);
            } else if command.is(index, "COUNT") {
                count = number::parse(value).ok_or(Fault::NotInteger)?;
                if count < 1 {
                    return Err(Fault::Syntax);
                }
            } else if command.is(index, "TYPE") {
                is_none = !value.eq_ignore_ascii_case(b"string");
            } else {
                return Err(Fault::Syntax);
            }
        }
        let count = count.min(MOST_COUNT) as usize;
        Ok(WantedScan {
            pattern,
            count,
            is_none,
        })
    }

    /// Returns whether a key that was found is in the answer.
    pub(super) fn takes(&self, key: &[u8]) -> bool {
        !self.is_none && self.pattern.as_ref().is_none_or(|it| it.is_match(key))
    }
}

impl<'a> WantedRange<'a> {
    /// Parses the arguments, or returns why they are refused.
    pub(super) fn of(command: Command<'a>) -> Result<WantedRange<'a>, Fault> {
        let (low, high) = (command.get(1), command.get(2));
        if low.len().max(high.len()) > MAX_KEY {
            return Err(Fault::BadKey);
        }
        let most = number::parse(command.get(3)).ok_or(Fault::NotInteger)?;
        let most = usize::try_from(most).unwrap_or(0).min(MAX_PAIRS);
        let high = (!high.is_empty()).then_some(high);
        Ok(WantedRange { low, high, most })
    }
}

/// Refuses a FLUSHDB with words other than those that say when memory is given back. Here it is given back at once.
pub(super) fn check_flush(command: Command<'_>) -> Result<(), Fault> {
    let is_known = ["SYNC", "ASYNC"].iter().any(|it| command.is(1, it));
    match command.len() == 1 || command.len() == 2 && is_known {
        true => Ok(()),
        false => Err(Fault::Syntax),
    }
}

/// Returns the cursor of a SCAN.
pub(super) fn cursor_of(command: Command<'_>) -> Result<u64, Fault> {
    let cursor = std::str::from_utf8(command.get(1)).ok();
    cursor
        .and_then(|it| it.parse().ok())
        .ok_or(Fault::BadCursor)
}

/// Answers a SCAN with its keys and the cursor behind them.
pub(super) fn answer(cursor: u64, keys: &[Box<[u8]>], replies: &mut Replies) {
    replies.array(2);
    replies.bulk(cursor.to_string().as_bytes());
    replies.array(keys.len());
    keys.iter().for_each(|it| replies.bulk(it));
}
