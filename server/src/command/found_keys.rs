use super::glob::Pattern;
use super::Fault;
use crate::memory;
use crate::resp::{Command, Replies};

/// The most keys that KEYS returns, and the most keys that it looks at.
pub const MOST_FOUND: usize = 10_000;
pub const MOST_SEEN: usize = 1_000_000;
/// The most bytes that KEYS looks at, because in memory it reads the values, too. That takes as long as to look at so
/// many short keys.
pub const MOST_SEEN_BYTES: usize = 512 << 20;

/// The keys that KEYS has found.
#[derive(Debug)]
pub(super) struct FoundKeys {
    pattern: Pattern,
    found: Vec<Box<[u8]>>,
    seen: usize,
    seen_bytes: usize,
}

impl FoundKeys {
    /// Makes an empty result for this command. Refuses the command if its pattern is too long.
    pub(super) fn new(command: Command<'_>) -> Result<FoundKeys, Fault> {
        Ok(FoundKeys {
            pattern: Pattern::new(command.get(1))?,
            found: Vec::new(),
            seen: 0,
            seen_bytes: 0,
        })
    }

    /// Adds those of these keys that match. So many bytes were read for them.
    ///
    /// # Errors
    ///
    /// If the keys are more than an answer may have, if more was read than allowed, or if memory is refused.
    pub(super) fn add(&mut self, keys: Vec<Box<[u8]>>, bytes: usize) -> Result<(), Fault> {
        self.seen += keys.len();
        self.seen_bytes += bytes;
        memory::reserve(&mut self.found, keys.len())?;
        let matching = keys.into_iter().filter(|it| self.pattern.is_match(it));
        self.found.extend(matching);
        let is_long = self.seen > MOST_SEEN || self.seen_bytes > MOST_SEEN_BYTES;
        match self.found.len() > MOST_FOUND || is_long {
            true => Err(Fault::ManyKeys),
            false => Ok(()),
        }
    }

    /// Writes the answer.
    pub(super) fn answer(&self, replies: &mut Replies) {
        replies.array(self.found.len());
        self.found.iter().for_each(|it| replies.bulk(it));
    }
}

#[cfg(test)]
mod tests {
    use super::*;
    use crate::resp::OwnedCommand;

    #[test]
    fn more_keys_than_an_answer_may_have_are_refused() {
        let keys = |front: &str, count: usize| {
            let keys = (0..count).map(|it| format!("{front}{it}").into_bytes().into());
            keys.collect::<Vec<Box<[u8]>>>()
        };
        let of = |pattern: &str| FoundKeys::new(OwnedCommand::of(&["KEYS", pattern]).command());
        let mut found = of("a*").unwrap();
        assert_eq!(found.add(keys("a", MOST_FOUND), 0), Ok(()));
        assert_eq!(found.add(keys("b", 9), 0), Ok(()));
        assert_eq!(found.add(keys("a", 1), 0), Err(Fault::ManyKeys));
        let mut none = of("b*").unwrap();
        for _ in 0..MOST_SEEN / MOST_FOUND {
            assert_eq!(none.add(keys("a", MOST_FOUND), 0), Ok(()));
        }
        assert_eq!(none.add(keys("a", 1), 0), Err(Fault::ManyKeys));
        let mut large = of("b*").unwrap();
        assert_eq!(large.add(keys("a", 1), MOST_SEEN_BYTES), Ok(()));
        assert_eq!(large.add(keys("a", 1), 1), Err(Fault::ManyKeys));
        let mut replies = Replies::default();
        none.answer(&mut replies);
        assert_eq!(replies.unsent(), b"*0\r\n");
    }
}
