/// The first of the numbers by which a process still has requests, as its key tells it.
///
/// A process takes later numbers while it runs, so that the requests of its earlier numbers can be forgotten.
#[derive(Clone, Copy, Debug, PartialEq, Eq)]
pub(crate) struct Lowest {
    /// The number that the process began with.
    pub(crate) process: u64,
    /// The first of the numbers that it still uses.
    pub(crate) number: u64,
}

/// The version of the bytes at its key.
const VERSION: u8 = 1;

impl Lowest {
    /// Returns the bytes at its key: a version, and both numbers.
    pub(crate) fn bytes(self) -> Vec<u8> {
        let mut bytes = vec![VERSION];
        bytes.extend(self.process.to_be_bytes());
        bytes.extend(self.number.to_be_bytes());
        bytes
    }

    /// Reads these bytes; returns nothing if they are malformed.
    pub(crate) fn of(bytes: &[u8]) -> Option<Lowest> {
        let (version, rest) = bytes.split_first()?;
        let (process, rest) = rest.split_first_chunk()?;
        let number = rest.try_into().ok()?;
        (*version == VERSION).then(|| Lowest {
            process: u64::from_be_bytes(*process),
            number: u64::from_be_bytes(number),
        })
    }
}

#[cfg(test)]
mod tests {
    use super::*;

    #[test]
    fn what_lies_at_a_key_is_read_again() {
        let lowest = Lowest {
            process: 7,
            number: 1 << 39,
        };
        let bytes = lowest.bytes();
        assert_eq!(Lowest::of(&bytes), Some(lowest));
        assert_eq!(Lowest::of(&bytes[1..]), None);
        assert_eq!(Lowest::of(&[&bytes[..], b"x"].concat()), None);
    }
}
