use super::{Frame, Reason, WireFault};
use std::io::{self, ErrorKind, Read};

/// How many bytes are read at once.
const ROOM: usize = 64 << 10;

/// The bytes of a connection that came and weren't processed yet: complete frames, and the beginning of the next one.
#[derive(Default)]
pub(super) struct ReadBuffer {
    bytes: Vec<u8>,
    /// How many of the bytes came, and how many of these were processed.
    filled: usize,
    taken: usize,
}

impl ReadBuffer {
    /// Waits for bytes. Returns whether some came; if none did, the connection has ended.
    pub(super) fn fill(&mut self, reader: &mut dyn Read) -> io::Result<bool> {
        self.bytes.copy_within(self.taken..self.filled, 0);
        self.filled -= std::mem::take(&mut self.taken);
        let end = self.filled + ROOM;
        if self.bytes.len() < end {
            self.bytes.resize(end, 0);
        }
        loop {
            match reader.read(&mut self.bytes[self.filled..end]) {
                Ok(count) => {
                    self.filled += count;
                    return Ok(count > 0);
                }
                Err(error) if error.kind() == ErrorKind::Interrupted => {}
                Err(error) => return Err(error),
            }
        }
    }

    /// Takes the next frame, if it is complete. Returns its number and the frame.
    ///
    /// # Errors
    ///
    /// If the bytes can't be a frame.
    pub(super) fn take<R: Reason>(&mut self) -> Result<Option<(u64, Frame<'_, R>)>, WireFault> {
        let found = Frame::read(&self.bytes[self.taken..self.filled])?;
        Ok(found.map(|(number, frame, length)| {
            self.taken += length;
            (number, frame)
        }))
    }
}

#[cfg(test)]
mod tests {
    use super::super::trial::TestReason;
    use super::*;

    /// Gives these bytes three at a time.
    struct Narrow<'a>(&'a [u8]);

    impl Read for Narrow<'_> {
        fn read(&mut self, room: &mut [u8]) -> io::Result<usize> {
            let most = room.len().min(3);
            self.0.read(&mut room[..most])
        }
    }

    #[test]
    fn frames_that_come_in_pieces_are_whole() {
        let command = vec![7; ROOM + 9];
        let mut bytes = Vec::new();
        Frame::<TestReason>::Command(&command).write(1, &mut bytes);
        Frame::<TestReason>::Command(b"next").write(2, &mut bytes);
        let (mut buffer, mut reader, mut found) = (ReadBuffer::default(), Narrow(&bytes), vec![]);
        while buffer.fill(&mut reader).unwrap() {
            while let Some((number, frame)) = buffer.take::<TestReason>().unwrap() {
                let Frame::Command(bytes) = frame else {
                    panic!("it is another frame");
                };
                found.push((number, bytes.to_vec()));
            }
        }
        assert_eq!(found, [(1, command), (2, b"next".to_vec())]);
    }
}
