use std::io::{self, ErrorKind, Write};

/// How many bytes are written at once.
const MOST: usize = 256 << 10;

/// Frames that are written together.
#[derive(Default)]
pub(super) struct WriteBuffer {
    bytes: Vec<u8>,
    /// How many of the bytes were written.
    written: usize,
    /// The beginning of each frame, with its number.
    begins: Vec<(usize, u64)>,
}

impl WriteBuffer {
    /// Returns a buffer of these bytes, whose frames have no numbers.
    pub(super) fn of(bytes: Vec<u8>) -> WriteBuffer {
        WriteBuffer {
            bytes,
            ..WriteBuffer::default()
        }
    }

    /// Adds the frame with this number behind the others. The closure writes it.
    pub(super) fn add(&mut self, number: u64, write: impl FnOnce(&mut Vec<u8>)) {
        self.begins.push((self.bytes.len(), number));
        write(&mut self.bytes);
    }

    /// Returns whether it is full.
    pub(super) fn is_full(&self) -> bool {
        self.bytes.len() >= MOST
    }

    /// Returns whether everything was written.
    pub(super) fn is_written(&self) -> bool {
        self.written == self.bytes.len()
    }

    /// Writes the remaining bytes, as far as the writer takes them.
    ///
    /// # Errors
    ///
    /// The writer's errors; then it took nothing more. After `WouldBlock` the rest may be written later.
    pub(super) fn send(&mut self, writer: &mut dyn Write) -> io::Result<()> {
        while !self.is_written() {
            match writer.write(&self.bytes[self.written..]) {
                Ok(0) => return Err(ErrorKind::WriteZero.into()),
                Ok(count) => self.written += count,
                Err(error) if error.kind() == ErrorKind::Interrupted => {}
                Err(error) => return Err(error),
            }
        }
        writer.flush()
    }

    /// Returns the numbers of the frames whose bytes weren't written at all.
    pub(super) fn unsent(&self) -> Vec<u64> {
        let unsent = self.begins.iter().filter(|it| it.0 >= self.written);
        unsent.map(|it| it.1).collect()
    }
}

#[cfg(test)]
mod tests {
    use super::*;

    /// A writer that takes so many bytes, and then nothing more.
    struct Narrow(usize);

    impl Write for Narrow {
        fn write(&mut self, bytes: &[u8]) -> io::Result<usize> {
            let count = bytes.len().min(self.0).min(3);
            self.0 -= count;
            match count {
                0 => Err(ErrorKind::BrokenPipe.into()),
                count => Ok(count),
            }
        }

        fn flush(&mut self) -> io::Result<()> {
            Ok(())
        }
    }

    #[test]
    fn what_was_not_written_is_known() {
        let sent = |room| {
            let mut buffer = WriteBuffer::default();
            for number in 7..10 {
                buffer.add(number, |it| it.extend([0; 10]));
            }
            let is_sent = buffer.send(&mut Narrow(room)).is_ok();
            assert_eq!(is_sent, buffer.is_written());
            (is_sent, buffer.unsent())
        };
        assert_eq!(sent(30), (true, vec![]));
        assert_eq!(sent(29), (false, vec![]));
        assert_eq!(sent(21), (false, vec![]));
        assert_eq!(sent(20), (false, vec![9]));
        assert_eq!(sent(3), (false, vec![8, 9]));
        assert_eq!(sent(0), (false, vec![7, 8, 9]));
    }

    #[test]
    fn what_was_written_before_is_not_written_again() {
        let mut buffer = WriteBuffer::of((0..9).collect());
        assert!(buffer.send(&mut Narrow(4)).is_err());
        let mut rest = Vec::new();
        buffer.send(&mut rest).unwrap();
        assert_eq!(rest, [4, 5, 6, 7, 8]);
    }
}
