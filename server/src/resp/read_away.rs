use super::parser::{count_of, length_of, LINE_END};
use super::{ProtocolFault, Unparsed, MAX_READ};

/// Reads a command to its end that is too large to be done, and keeps nothing of it.
#[derive(Debug, Default)]
pub struct ReadAway {
    stage: Stage,
    /// How many arguments follow the present one.
    arguments: usize,
    /// How many bytes were read, or are announced.
    bytes: usize,
}

#[derive(Clone, Copy, Debug, Default, PartialEq, Eq)]
enum Stage {
    /// The number of arguments comes next, or a line.
    #[default]
    Count,
    /// The length of an argument.
    Length,
    /// So many bytes of an argument.
    Bytes(usize),
    /// The line's end behind an argument.
    LineEnd,
    /// Nothing.
    Over,
}

/// The part of the input that was taken.
#[derive(Clone, Copy, Debug, PartialEq, Eq)]
pub struct Taken {
    /// How many bytes were taken. They aren't needed any more.
    pub bytes: usize,
    /// Whether the command ended with them.
    pub is_over: bool,
}

impl ReadAway {
    /// Takes the part of the command that is there, from where the last call ended. It leaves the beginning of an
    /// incomplete length, which is shorter than a line with a length may be.
    ///
    /// # Errors
    ///
    /// Returns why nobody knows where the command ends, or that it is too large to be read.
    pub fn take(&mut self, input: &[u8]) -> Result<Taken, ProtocolFault> {
        let mut at = 0;
        while self.stage != Stage::Over {
            match self.step(&input[at..]) {
                Ok(taken) => at += taken,
                Err(Unparsed::Malformed(fault)) => return Err(fault),
                Err(Unparsed::Incomplete(_) | Unparsed::Oversized(_)) => break,
            }
        }
        Ok(Taken {
            bytes: at,
            is_over: self.stage == Stage::Over,
        })
    }

    /// Takes the next part of the command, and returns how many bytes it has.
    fn step(&mut self, input: &[u8]) -> Result<usize, Unparsed> {
        if input.is_empty() {
            return Err(Unparsed::Incomplete(1));
        }
        match self.stage {
            Stage::Count if input[0] != b'*' => self.line(input),
            Stage::Count => {
                let (count, next) = count_of(input)?;
                self.arguments = count;
                self.note(next)?;
                self.begin_argument();
                Ok(next)
            }
            Stage::Length => {
                let (length, next) = length_of(input, 0)?;
                self.note(next.saturating_add(length))?;
                self.stage = Stage::Bytes(length);
                Ok(next)
            }
            Stage::Bytes(left) => {
                let taken = left.min(input.len());
                self.stage = match left - taken {
                    0 => Stage::LineEnd,
                    left => Stage::Bytes(left),
                };
                Ok(taken)
            }
            Stage::LineEnd => self.line_end(input),
            Stage::Over => Ok(0),
        }
    }

    /// Takes a command that came as a line, which must be complete.
    fn line(&mut self, input: &[u8]) -> Result<usize, Unparsed> {
        let end = input.iter().position(|it| *it == b'\n');
        let end = end.ok_or(Unparsed::Incomplete(input.len() + 1))?;
        self.stage = Stage::Over;
        Ok(end + 1)
    }

    fn line_end(&mut self, input: &[u8]) -> Result<usize, Unparsed> {
        match input.get(..LINE_END.len()) {
            None => Err(Unparsed::Incomplete(LINE_END.len())),
            Some(LINE_END) => {
                self.note(LINE_END.len())?;
                self.begin_argument();
                Ok(LINE_END.len())
            }
            Some(_) => Err(ProtocolFault::NoLineEnd.into()),
        }
    }

    fn begin_argument(&mut self) {
        self.stage = match self.arguments.checked_sub(1) {
            None => Stage::Over,
            Some(left) => {
                self.arguments = left;
                Stage::Length
            }
        };
    }

    /// Notes that so many bytes were read, or are announced.
    fn note(&mut self, bytes: usize) -> Result<(), ProtocolFault> {
        self.bytes = self.bytes.saturating_add(bytes);
        match self.bytes <= MAX_READ {
            true => Ok(()),
            false => Err(ProtocolFault::TooLarge),
        }
    }
}

#[cfg(test)]
mod tests {
    use super::*;
    use crate::chance::Chance;

    /// Returns a command of so many arguments, each of so many bytes.
    fn command(arguments: usize, bytes: usize) -> Vec<u8> {
        let mut command = format!("*{arguments}\r\n").into_bytes();
        let argument = format!("${bytes}\r\n{}\r\n", "a".repeat(bytes));
        command.extend(argument.repeat(arguments).bytes());
        command
    }

    #[test]
    fn a_command_is_read_to_its_end_in_whatever_pieces_it_comes() {
        let mut chance = Chance::new(3_202_034_522_624_059_733);
        for (arguments, bytes) in [(2_000, 0), (1_025, 3), (2, 70_000), (1, 12)] {
            let mut all = command(arguments, bytes);
            let end = all.len();
            all.extend(b"PING\r\n");
            let (mut away, mut at, mut seen) = (ReadAway::default(), 0, 0);
            loop {
                seen = (seen + 1 + chance.below(5_000)).min(all.len());
                let taken = away.take(&all[at..seen]).unwrap();
                at += taken.bytes;
                assert!(seen - at < 24 || taken.is_over, "{} bytes stay", seen - at);
                if taken.is_over {
                    break;
                }
            }
            assert_eq!(at, end);
        }
    }

    #[test]
    fn a_line_is_read_to_its_end() {
        let taken = ReadAway::default().take(b"a b\r\nPING\r\n").unwrap();
        let (bytes, is_over) = (5, true);
        assert_eq!(taken, Taken { bytes, is_over });
    }

    #[test]
    fn what_has_no_known_end_is_refused() {
        use ProtocolFault::*;
        let long = format!("*2\r\n${}\r\n", MAX_READ);
        for (input, fault) in [
            (&b"*1\r\n$1\r\nabc"[..], NoLineEnd),
            (b"*2\r\n$0\r\n\r\nPING\r\n", NoLength(b'P')),
            (b"*1\r\n$-1\r\n", ArgumentLength),
            (b"*1048577\r\n", ManyArguments),
            (b"*1\r\n$536870913\r\n", LongArgument),
            (long.as_bytes(), TooLarge),
        ] {
            assert_eq!(ReadAway::default().take(input), Err(fault), "{input:?}");
        }
    }
}
