use std::cmp::Reverse;
use std::collections::BinaryHeap;
use std::time::Instant;

/// Connections whose next command isn't looked at until some moment, each with its place and its number.
#[derive(Debug, Default)]
pub(super) struct PutOff(BinaryHeap<Reverse<(Instant, usize, u64)>>);

impl PutOff {
    /// Adds the connection with this number, at this place.
    pub(super) fn add(&mut self, until: Instant, place: usize, id: u64) {
        self.0.push(Reverse((until, place, id)));
    }

    /// Returns how many connections it has.
    #[cfg(feature = "simulated")]
    pub(super) fn len(&self) -> usize {
        self.0.len()
    }

    /// Returns when the next connection goes on, if there is one.
    pub(super) fn next(&self) -> Option<Instant> {
        self.0.peek().map(|it| it.0 .0)
    }

    /// Takes the place and the number of a connection that goes on by now.
    pub(super) fn take_due(&mut self, now: Instant) -> Option<(usize, u64)> {
        if self.next()? > now {
            return None;
        }
        self.0.pop().map(|it| (it.0 .1, it.0 .2))
    }
}

#[cfg(test)]
mod tests {
    use super::*;
    use std::time::Duration;

    #[test]
    fn who_was_put_off_for_less_goes_on_first() {
        let (mut put_off, now) = (PutOff::default(), Instant::now());
        let later = now + Duration::from_secs(1);
        put_off.add(later, 1, 7);
        put_off.add(now, 2, 8);
        assert_eq!(put_off.next(), Some(now));
        assert_eq!(put_off.take_due(now), Some((2, 8)));
        assert_eq!(put_off.take_due(now), None);
        assert_eq!(put_off.take_due(later), Some((1, 7)));
        assert_eq!(put_off.next(), None);
    }
}
