use std::vec::IntoIter;

/// Values with their keys.
pub(crate) type KeyedParts = Vec<(Vec<u8>, Vec<u8>)>;

/// The parts of a base that are being written, each with its key.
pub(crate) struct BaseParts {
    waiting: IntoIter<(Vec<u8>, Vec<u8>)>,
    under_way: usize,
    has_failed: bool,
}

impl BaseParts {
    /// Makes the list of these parts. None of them is written yet.
    pub(crate) fn new(parts: KeyedParts) -> BaseParts {
        BaseParts {
            waiting: parts.into_iter(),
            under_way: 0,
            has_failed: false,
        }
    }

    /// Returns the next part, which is under way from now on. Returns nothing if none is left, or if one wasn't
    /// written.
    pub(crate) fn next(&mut self) -> Option<(Vec<u8>, Vec<u8>)> {
        if self.has_failed {
            return None;
        }
        let next = self.waiting.next()?;
        self.under_way += 1;
        Some(next)
    }

    /// Notes the end of a part. Once none is under way and none comes, returns whether all were written.
    pub(crate) fn end(&mut self, is_written: bool) -> Option<bool> {
        self.under_way -= 1;
        self.has_failed |= !is_written;
        let is_over = self.under_way == 0 && (self.has_failed || self.waiting.len() == 0);
        is_over.then_some(!self.has_failed)
    }
}

#[cfg(test)]
mod tests {
    use super::*;

    fn parts(count: u8) -> BaseParts {
        BaseParts::new((0..count).map(|it| (vec![it], vec![])).collect())
    }

    #[test]
    fn it_is_told_once_that_all_are_written() {
        let mut parts = parts(3);
        assert!(parts.next().is_some() && parts.next().is_some());
        assert_eq!(parts.end(true), None);
        assert_eq!(parts.next().unwrap().0, [2]);
        assert!(parts.next().is_none());
        assert_eq!((parts.end(true), parts.end(true)), (None, Some(true)));
    }

    #[test]
    fn after_one_that_fails_no_other_begins() {
        let mut parts = parts(3);
        assert!(parts.next().is_some() && parts.next().is_some());
        assert_eq!(parts.end(false), None);
        assert!(parts.next().is_none());
        assert_eq!(parts.end(true), Some(false));
    }
}
