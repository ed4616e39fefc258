use crate::MapRequest;
use std::ops::Add;

/// The number of bytes around a request in a batch: its client, how it came, and its length.
const AROUND: usize = 33;

/// How much of a batch requests take.
#[derive(Clone, Copy, Debug, Default, PartialEq, Eq)]
pub(crate) struct Size {
    pub(crate) requests: usize,
    pub(crate) bytes: usize,
}

impl Size {
    /// The most that a server sends at once. Requests within this bound are made as a whole or not at all.
    pub(crate) const MOST: Size = Size {
        requests: 4_096,
        bytes: 8 << 20,
    };

    /// Returns the size of these requests.
    pub(crate) fn of(requests: &[MapRequest]) -> Size {
        let sizes = requests.iter().map(|it| Size::of_one(it.length()));
        sizes.fold(Size::default(), Size::add)
    }

    /// Returns the size of one request with so many bytes.
    pub(crate) fn of_one(length: usize) -> Size {
        Size {
            requests: 1,
            bytes: AROUND + length,
        }
    }

    /// Returns whether neither number is greater than in the bound.
    pub(crate) fn is_within(self, bound: Size) -> bool {
        self.requests <= bound.requests && self.bytes <= bound.bytes
    }
}

impl Add for Size {
    type Output = Size;

    fn add(self, more: Size) -> Size {
        Size {
            requests: self.requests + more.requests,
            bytes: self.bytes + more.bytes,
        }
    }
}
