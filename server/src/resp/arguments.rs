use super::Command;

/// The place of an argument in the bytes from which it was read.
#[derive(Clone, Copy, Debug, PartialEq, Eq)]
pub(super) struct Span {
    pub(super) start: usize,
    pub(super) end: usize,
}

/// The arguments of one command, kept from command to command so that reading one allocates nothing.
#[derive(Debug, Default)]
pub struct Arguments {
    spans: Vec<Span>,
    /// The unquoted words of a command that came as a line. Arguments that came with lengths lie in the input.
    words: Vec<u8>,
    is_line: bool,
}

impl Arguments {
    /// Forgets the last command.
    pub(super) fn clear(&mut self) {
        self.spans.clear();
        self.words.clear();
        self.is_line = false;
    }

    /// Adds the argument at this place of the input.
    #[inline]
    pub(super) fn push(&mut self, start: usize, end: usize) {
        self.spans.push(Span { start, end });
    }

    /// From now on takes words that don't lie in the input as they are.
    pub(super) fn begin_line(&mut self) {
        self.is_line = true;
    }

    /// Adds a byte to the word of a line.
    pub(super) fn push_byte(&mut self, byte: u8) {
        self.words.push(byte);
    }

    /// Returns where the next word of a line begins.
    pub(super) fn word_start(&self) -> usize {
        self.words.len()
    }

    /// Ends the word of a line that began at this place.
    pub(super) fn end_word(&mut self, start: usize) {
        self.push(start, self.words.len());
    }

    /// Returns the command. The input must be the one from which it was parsed.
    #[inline]
    pub fn command<'a>(&'a self, input: &'a [u8]) -> Command<'a> {
        let bytes = if self.is_line { &self.words } else { input };
        Command::new(bytes, &self.spans)
    }
}
