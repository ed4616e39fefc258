use std::collections::VecDeque;
use std::time::Duration;

/// The bytes of one direction of a connection, in their order.
#[derive(Default)]
pub struct Pipe {
    pub bytes: VecDeque<u8>,
    /// Whether no more bytes come.
    pub has_ended: bool,
    /// The time since which nothing arrives, and the time at which that ends, if it does.
    cut: Option<(Duration, Option<Duration>)>,
}

impl Pipe {
    /// Writes bytes.
    pub fn write(&mut self, bytes: &[u8]) {
        self.bytes.extend(bytes);
    }

    /// Reads bytes that are there, and returns how many.
    pub fn read(&mut self, room: &mut [u8], most: usize) -> usize {
        let count = room.len().min(most).min(self.bytes.len());
        let taken = room.iter_mut().zip(self.bytes.drain(..count));
        taken.for_each(|(to, byte)| *to = byte);
        count
    }

    /// Lets nothing arrive from now on, until this moment or for good. If that is so already, nothing changes.
    pub fn cut(&mut self, now: Duration, until: Option<Duration>) {
        if !self.is_cut(now) {
            self.cut = Some((now, until));
        }
    }

    /// Returns whether nothing arrives now.
    pub fn is_cut(&self, now: Duration) -> bool {
        self.cut.is_some_and(|it| it.1.is_none_or(|it| it > now))
    }

    /// Returns the time since which nothing arrives, if that is so now.
    pub fn cut_since(&self, now: Duration) -> Option<Duration> {
        self.cut.filter(|_| self.is_cut(now)).map(|it| it.0)
    }
}

#[cfg(test)]
mod tests {
    use super::*;

    #[test]
    fn bytes_come_in_their_order() {
        let (mut pipe, mut room, mut read) = (Pipe::default(), [0; 3], Vec::new());
        (0..4).for_each(|it| pipe.write(&[2 * it, 2 * it + 1]));
        for most in [1, 9, 2, 9] {
            let count = pipe.read(&mut room, most);
            read.extend_from_slice(&room[..count]);
        }
        assert_eq!(read, [0, 1, 2, 3, 4, 5, 6, 7]);
        assert_eq!(pipe.read(&mut room, 9), 0);
    }

    #[test]
    fn a_cut_ends_or_is_for_good() {
        let (mut pipe, second) = (Pipe::default(), Duration::from_secs(1));
        pipe.cut(second, Some(3 * second));
        assert!(pipe.is_cut(second) && !pipe.is_cut(3 * second));
        assert_eq!(pipe.cut_since(2 * second), Some(second));
        pipe.cut(4 * second, None);
        assert!(pipe.is_cut(99 * second));
        assert_eq!(pipe.cut_since(99 * second), Some(4 * second));
    }
}
