use std::collections::TryReserveError;

/// The most bytes of lines that wait, which is about 2,000 lines.
const MOST_BYTES: usize = 256 << 10;

/// Lines, one behind the other, and how many more were dropped because there was no room.
#[derive(Debug)]
pub(super) struct Lines {
    bytes: Vec<u8>,
    count: u64,
    dropped: u64,
}

impl Lines {
    /// Makes an empty list, with memory for as many lines as may wait. No memory is needed when they come.
    pub(super) fn reserved() -> Result<Lines, TryReserveError> {
        let mut bytes = Vec::new();
        bytes.try_reserve_exact(MOST_BYTES)?;
        Ok(Lines {
            bytes,
            count: 0,
            dropped: 0,
        })
    }

    /// Takes a line if there is room, and returns whether there was. Once a line was dropped, all later ones are, so
    /// that all missing lines are in one place.
    pub(super) fn push(&mut self, line: &[u8]) -> bool {
        let room = self.bytes.capacity() - self.bytes.len();
        if self.dropped > 0 || line.len() > room {
            self.dropped += 1;
            return false;
        }
        self.bytes.extend_from_slice(line);
        self.count += 1;
        true
    }

    /// Returns the bytes of all lines.
    pub(super) fn bytes(&self) -> &[u8] {
        &self.bytes
    }

    /// Returns how many lines there are.
    pub(super) fn count(&self) -> u64 {
        self.count
    }

    /// Returns how many lines were dropped behind them.
    pub(super) fn dropped(&self) -> u64 {
        self.dropped
    }

    /// Returns whether there is nothing to write, and nothing to report.
    pub(super) fn is_empty(&self) -> bool {
        self.count == 0 && self.dropped == 0
    }

    /// Forgets all lines, and keeps their memory.
    pub(super) fn clear(&mut self) {
        self.bytes.clear();
        (self.count, self.dropped) = (0, 0);
    }
}

#[cfg(test)]
mod tests {
    use super::*;

    #[test]
    fn lines_are_dropped_in_one_place() {
        let mut lines = Lines::reserved().unwrap();
        let long = vec![b'x'; lines.bytes.capacity() - 1];
        assert!(lines.push(&long) && !lines.push(b"ab"));
        assert_eq!((lines.count(), lines.dropped()), (1, 1));
        // There is room for this one, but not for the one before it.
        assert!(!lines.push(b"\n"));
        assert_eq!((lines.count(), lines.dropped()), (1, 2));
        assert!(lines.bytes() == long);
        lines.clear();
        assert!(lines.is_empty() && lines.push(b"again\n"));
        assert_eq!((lines.bytes(), lines.dropped()), (&b"again\n"[..], 0));
    }

    #[test]
    fn a_line_that_is_too_long_is_dropped() {
        let mut lines = Lines::reserved().unwrap();
        assert!(!lines.push(&vec![b'x'; lines.bytes.capacity() + 1]));
        assert_eq!((lines.count(), lines.dropped()), (0, 1));
        assert!(!lines.is_empty());
    }
}
