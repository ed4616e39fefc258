//! Numbers and bytes of a frame, one after another, in big-endian order.
use super::{WireFault, MAX_REASON};

/// Reads the fields of a frame, one after another.
///
/// Each call fails with [`WireFault::TooShort`] if the frame ends before its field does.
#[derive(Clone, Copy, Debug)]
pub struct Fields<'a>(&'a [u8]);

impl<'a> Fields<'a> {
    /// Reads from these bytes.
    pub fn new(bytes: &'a [u8]) -> Fields<'a> {
        Fields(bytes)
    }

    /// Takes all remaining bytes.
    pub fn rest(&mut self) -> &'a [u8] {
        std::mem::take(&mut self.0)
    }

    /// Returns the next so many bytes.
    pub fn take(&mut self, count: usize) -> Result<&'a [u8], WireFault> {
        let (taken, rest) = self.0.split_at_checked(count).ok_or(WireFault::TooShort)?;
        self.0 = rest;
        Ok(taken)
    }

    fn array<const N: usize>(&mut self) -> Result<[u8; N], WireFault> {
        let taken = self.take(N)?;
        taken.try_into().map_err(|_| WireFault::TooShort)
    }

    /// Returns the next byte.
    pub fn byte(&mut self) -> Result<u8, WireFault> {
        self.array().map(u8::from_be_bytes)
    }

    /// Returns the next byte as a flag: 1 for yes or 0 for no. Any other byte is [`WireFault::Flag`].
    pub fn flag(&mut self) -> Result<bool, WireFault> {
        match self.byte()? {
            0 => Ok(false),
            1 => Ok(true),
            other => Err(WireFault::Flag(other)),
        }
    }

    /// Returns the next number of two bytes.
    pub fn short(&mut self) -> Result<u16, WireFault> {
        self.array().map(u16::from_be_bytes)
    }

    /// Returns the next number of four bytes.
    pub fn word(&mut self) -> Result<u32, WireFault> {
        self.array().map(u32::from_be_bytes)
    }

    /// Returns the next number of eight bytes.
    pub fn long(&mut self) -> Result<u64, WireFault> {
        self.array().map(u64::from_be_bytes)
    }

    /// Returns the next bytes, which follow their length. A greater length than `most` is [`WireFault::TooLong`].
    pub fn bytes(&mut self, most: usize) -> Result<&'a [u8], WireFault> {
        let length = self.word()? as usize;
        match length <= most {
            true => self.take(length),
            false => Err(WireFault::TooLong),
        }
    }

    /// Takes all remaining bytes as a text. If they aren't UTF-8, fails with [`WireFault::Text`].
    pub fn text(&mut self) -> Result<String, WireFault> {
        String::from_utf8(self.rest().to_vec()).map_err(|_| WireFault::Text)
    }

    /// Ends the frame. If bytes are left, fails with [`WireFault::TooMuch`].
    pub fn end(self) -> Result<(), WireFault> {
        match self.0.is_empty() {
            true => Ok(()),
            false => Err(WireFault::TooMuch),
        }
    }
}

/// Writes a text that ends a frame. A text with more than [`MAX_REASON`] bytes is cut.
pub fn put_text(out: &mut Vec<u8>, text: &str) {
    let mut end = text.len().min(MAX_REASON);
    while !text.is_char_boundary(end) {
        end -= 1;
    }
    out.extend_from_slice(&text.as_bytes()[..end]);
}

/// Writes bytes behind their length.
pub(super) fn put_bytes(out: &mut Vec<u8>, bytes: &[u8]) {
    // Bytes that are longer than a frame may be are refused before they are written.
    out.extend((bytes.len() as u32).to_be_bytes());
    out.extend_from_slice(bytes);
}
