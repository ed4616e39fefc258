use super::arguments::Span;
use super::{parse, Arguments};
use crate::memory::{self, NoRoom};
use std::io::Write;

/// A command: its name and its arguments, which may be any bytes.
#[derive(Clone, Copy, Debug)]
pub struct Command<'a> {
    bytes: &'a [u8],
    spans: &'a [Span],
}

impl<'a> Command<'a> {
    #[inline]
    pub(super) fn new(bytes: &'a [u8], spans: &'a [Span]) -> Command<'a> {
        Command { bytes, spans }
    }

    /// Returns how many arguments there are, including the name.
    #[inline]
    pub fn len(&self) -> usize {
        self.spans.len()
    }

    /// Returns whether there is no command, as in an empty line.
    #[inline]
    pub fn is_empty(&self) -> bool {
        self.spans.is_empty()
    }

    /// Returns the argument at this place. Place 0 is the name; past the last one the argument is empty.
    #[inline]
    pub fn get(&self, index: usize) -> &'a [u8] {
        self.spans
            .get(index)
            .map_or(&[], |it| &self.bytes[it.start..it.end])
    }

    /// Returns the arguments behind the first so many.
    pub fn from(&self, first: usize) -> Command<'a> {
        Command::new(self.bytes, self.spans.get(first..).unwrap_or(&[]))
    }

    /// Returns the arguments from one place up to another one, exclusive.
    pub fn within(&self, first: usize, end: usize) -> Command<'a> {
        Command::new(self.bytes, self.spans.get(first..end).unwrap_or(&[]))
    }

    /// Returns all arguments in order.
    pub fn iter(&self) -> impl Iterator<Item = &'a [u8]> {
        let bytes = self.bytes;
        self.spans.iter().map(move |it| &bytes[it.start..it.end])
    }

    /// Returns how many bytes the arguments have.
    pub fn size(&self) -> usize {
        self.spans.iter().map(|it| it.end - it.start).sum()
    }

    /// Returns whether the argument at this place is this word, in any case.
    pub fn is(&self, index: usize, word: &str) -> bool {
        index < self.len() && self.get(index).eq_ignore_ascii_case(word.as_bytes())
    }
}

/// The most words of a command, and the most bytes of them, that a log shows.
const MOST_SHOWN_WORDS: usize = 8;
const MOST_SHOWN: usize = 100;

/// A command that owns its bytes.
#[derive(Clone, Debug)]
pub struct OwnedCommand {
    bytes: Box<[u8]>,
    spans: Box<[Span]>,
}

impl OwnedCommand {
    /// Returns a copy of the command.
    pub fn new(command: Command<'_>) -> OwnedCommand {
        let bytes = Vec::with_capacity(command.size());
        OwnedCommand::within(command, bytes, Vec::with_capacity(command.len()))
    }

    /// Copies the command, unless memory for it is refused.
    pub fn copied(command: Command<'_>) -> Result<OwnedCommand, NoRoom> {
        let (mut bytes, mut spans) = (Vec::new(), Vec::new());
        memory::reserve(&mut bytes, command.size())?;
        memory::reserve(&mut spans, command.len())?;
        Ok(OwnedCommand::within(command, bytes, spans))
    }

    /// Returns a copy that lies in these lists, which must be empty.
    fn within(command: Command<'_>, mut bytes: Vec<u8>, mut spans: Vec<Span>) -> OwnedCommand {
        for argument in command.iter() {
            let start = bytes.len();
            bytes.extend_from_slice(argument);
            let end = bytes.len();
            spans.push(Span { start, end });
        }
        let (bytes, spans) = (bytes.into(), spans.into());
        OwnedCommand { bytes, spans }
    }

    /// Returns the command of these words.
    pub fn of(words: &[impl AsRef<[u8]>]) -> OwnedCommand {
        let (mut bytes, mut spans) = (Vec::new(), Vec::new());
        for word in words {
            let start = bytes.len();
            bytes.extend_from_slice(word.as_ref());
            let end = bytes.len();
            spans.push(Span { start, end });
        }
        let (bytes, spans) = (bytes.into(), spans.into());
        OwnedCommand { bytes, spans }
    }

    /// Parses bytes that [`OwnedCommand::spell`] wrote. Returns nothing if they are malformed.
    pub fn spelled(bytes: &[u8]) -> Option<OwnedCommand> {
        let (command, end) = OwnedCommand::first_spelled(bytes)?;
        (end == bytes.len()).then_some(command)
    }

    /// Returns the command with which the bytes begin, and where it ends.
    pub fn first_spelled(bytes: &[u8]) -> Option<(OwnedCommand, usize)> {
        OwnedCommand::of_first_spelled(bytes, OwnedCommand::new)
    }

    /// Applies the closure to the command with which the bytes begin. Returns its result, and where the command ends.
    /// The command isn't copied.
    pub fn of_first_spelled<T>(
        bytes: &[u8],
        find: impl FnOnce(Command<'_>) -> T,
    ) -> Option<(T, usize)> {
        let mut arguments = Arguments::default();
        if bytes.first() != Some(&b'*') {
            return None;
        }
        let end = parse(bytes, &mut arguments).ok()?;
        Some((find(arguments.command(bytes)), end))
    }

    /// Returns its bytes, as a client would send it.
    pub fn spell(&self) -> Vec<u8> {
        let command = self.command();
        let mut bytes = Vec::with_capacity(command.size() + 16 * (1 + command.len()));
        // Writing to memory never fails.
        let _ = write!(bytes, "*{}\r\n", command.len());
        for argument in command.iter() {
            let _ = write!(bytes, "${}\r\n", argument.len());
            bytes.extend_from_slice(argument);
            bytes.extend_from_slice(b"\r\n");
        }
        bytes
    }

    /// Returns its beginning, as a log shows it.
    pub fn shown(&self) -> String {
        let words: Vec<_> = self.command().iter().take(MOST_SHOWN_WORDS).collect();
        let line = words.join(&b' ');
        line[..line.len().min(MOST_SHOWN)]
            .escape_ascii()
            .to_string()
    }

    /// Returns the command.
    pub fn command(&self) -> Command<'_> {
        Command::new(&self.bytes, &self.spans)
    }
}
