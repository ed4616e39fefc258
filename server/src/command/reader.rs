use crate::resp::{parse, Arguments, Command, Unparsed};

/// Reads commands from the front of the input, one after another.
#[derive(Debug)]
pub struct Reader<'a> {
    input: &'a [u8],
    at: usize,
    /// The length in bytes of the command behind that, if it was read, so that it is read only once; otherwise 0.
    length: usize,
    arguments: &'a mut Arguments,
}

impl<'a> Reader<'a> {
    /// Makes a reader at the front of the input. The commands' arguments are kept in `arguments`.
    pub fn new(input: &'a [u8], arguments: &'a mut Arguments) -> Reader<'a> {
        let (at, length) = (0, 0);
        Reader {
            input,
            at,
            length,
            arguments,
        }
    }

    /// Returns the next command, or why there is none.
    #[inline]
    pub fn peek(&mut self) -> Result<Command<'_>, Unparsed> {
        let rest = &self.input[self.at..];
        if self.length == 0 {
            self.length = parse(rest, self.arguments)?;
        }
        Ok(self.arguments.command(rest))
    }

    /// Advances behind the next command, if it was peeked at.
    #[inline]
    pub fn advance(&mut self) {
        self.at += std::mem::take(&mut self.length);
    }

    /// Returns how many bytes are done with.
    pub fn at(&self) -> usize {
        self.at
    }
}
