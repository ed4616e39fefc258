use super::{line, number, Arguments, Oversized, ProtocolFault};

/// The most bytes of a command that is done, including the lengths between its arguments.
pub const MAX_COMMAND: usize = 1 << 20;
/// The most arguments of a command that is done, including its name.
pub const MAX_ARGUMENTS: usize = 1_024;
/// The most bytes of a command that is read to its end and refused. It is the bound of a value in Redis.
pub const MAX_READ: usize = 512 << 20;
/// The most arguments of such a command, as in Redis.
pub const MAX_READ_ARGUMENTS: usize = 1 << 20;
/// The most bytes of a command that comes as a line.
pub const MAX_LINE: usize = 64 << 10;
/// The most bytes of a line with a length.
const MAX_LENGTH_LINE: usize = 24;
/// The bytes behind an argument.
pub(super) const LINE_END: &[u8] = b"\r\n";

/// Why there is no command.
#[derive(Clone, Copy, Debug, PartialEq, Eq)]
pub enum Unparsed {
    /// The input has no whole command until it has so many bytes.
    Incomplete(usize),
    /// The input is malformed, and nobody knows where the next command begins.
    Malformed(ProtocolFault),
    /// The command is too large. The next one begins where [`ReadAway`](super::ReadAway) ends.
    Oversized(Oversized),
}

impl From<ProtocolFault> for Unparsed {
    fn from(fault: ProtocolFault) -> Unparsed {
        Unparsed::Malformed(fault)
    }
}

impl From<Oversized> for Unparsed {
    fn from(why: Oversized) -> Unparsed {
        Unparsed::Oversized(why)
    }
}

/// Reads the command with which the input begins, and returns where it ends. An empty line, or an array without
/// elements, is a command without a name.
pub fn parse(input: &[u8], arguments: &mut Arguments) -> Result<usize, Unparsed> {
    arguments.clear();
    match input.first() {
        None => Err(Unparsed::Incomplete(1)),
        Some(b'*') => parse_array(input, arguments),
        Some(_) => parse_line(input, arguments),
    }
}

fn parse_array(input: &[u8], arguments: &mut Arguments) -> Result<usize, Unparsed> {
    let (count, start) = match short_length(input, b'*') {
        Some(short) => short,
        None => any_count(input)?,
    };
    // If an argument ends within this, the command isn't too large up to there.
    let most = &input[..input.len().min(MAX_COMMAND)];
    let mut rest = &most[start..];
    for _ in 0..count {
        let at = most.len() - rest.len();
        let next = match short_argument(rest) {
            Some((start, end)) => {
                arguments.push(at + start, at + end);
                end + LINE_END.len()
            }
            None => parse_argument(input, at, arguments)? - at,
        };
        rest = &rest[next..];
    }
    Ok(most.len() - rest.len())
}

/// Returns the number of arguments in the first line, and where the next line begins. Refuses a number of arguments
/// that is too large to be done.
#[inline(never)]
fn any_count(input: &[u8]) -> Result<(usize, usize), Unparsed> {
    match count_of(input)? {
        (count, _) if count > MAX_ARGUMENTS => Err(Oversized::Arguments.into()),
        found => Ok(found),
    }
}

/// Returns the number of arguments in the first line, and where the next line begins. Refuses a number of arguments
/// that is too large to be read.
pub(super) fn count_of(input: &[u8]) -> Result<(usize, usize), Unparsed> {
    let (count, at) = length(input, 1, ProtocolFault::ArrayLength)?;
    // A negative number means no arguments, as in Redis.
    let count = usize::try_from(count).unwrap_or(0);
    match count <= MAX_READ_ARGUMENTS {
        true => Ok((count, at)),
        false => Err(ProtocolFault::ManyArguments.into()),
    }
}

/// Returns the length of the argument from here on, and where its bytes begin. Refuses a length that is too large to be
/// read.
pub(super) fn length_of(input: &[u8], at: usize) -> Result<(usize, usize), Unparsed> {
    match input.get(at) {
        None => return Err(Unparsed::Incomplete(at + 1)),
        Some(b'$') => {}
        Some(other) => return Err(ProtocolFault::NoLength(*other).into()),
    }
    let (length, start) = length(input, at + 1, ProtocolFault::ArgumentLength)?;
    let length = usize::try_from(length).map_err(|_| ProtocolFault::ArgumentLength)?;
    match length <= MAX_READ {
        true => Ok((length, start)),
        false => Err(ProtocolFault::LongArgument.into()),
    }
}

/// Returns the number in the input's first line, which has this mark, and where the next line begins, if the number has
/// one digit or two.
#[inline(always)]
fn short_length(input: &[u8], mark: u8) -> Option<(usize, usize)> {
    let [first, ten, one, ..] = input.first_chunk::<5>()?;
    if *first != mark {
        return None;
    }
    let digit = |byte: &u8| usize::from(byte.wrapping_sub(b'0'));
    match (digit(ten), digit(one)) {
        (one @ 0..=9, _) if input[2..4] == *LINE_END => Some((one, 4)),
        (ten @ 1..=9, one @ 0..=9) if input[3..5] == *LINE_END => Some((10 * ten + one, 5)),
        _ => None,
    }
}

/// Returns where the input's first argument begins and ends, if it has less than 100 bytes and is complete.
#[inline(always)]
fn short_argument(input: &[u8]) -> Option<(usize, usize)> {
    let (length, start) = short_length(input, b'$')?;
    let end = start + length;
    (input.get(end..end + LINE_END.len())? == LINE_END).then_some((start, end))
}

/// Takes the argument from here on, and returns where the next one begins.
#[inline(never)]
fn parse_argument(input: &[u8], at: usize, arguments: &mut Arguments) -> Result<usize, Unparsed> {
    let (length, start) = length_of(input, at)?;
    let end = start + length;
    let next = end + LINE_END.len();
    if next > MAX_COMMAND {
        return Err(Oversized::Bytes.into());
    }
    match input.get(end..next) {
        None => Err(Unparsed::Incomplete(next)),
        Some(LINE_END) => {
            arguments.push(start, end);
            Ok(next)
        }
        Some(_) => Err(ProtocolFault::NoLineEnd.into()),
    }
}

/// Returns the number in the line from here on, with any number of digits, and where the next line begins.
fn length(input: &[u8], at: usize, fault: ProtocolFault) -> Result<(i64, usize), Unparsed> {
    let line = &input[at..];
    let end = line
        .iter()
        .take(MAX_LENGTH_LINE)
        .position(|it| *it == b'\n');
    let Some(end) = end else {
        return Err(if line.len() < MAX_LENGTH_LINE {
            Unparsed::Incomplete(input.len() + 1)
        } else {
            fault.into()
        });
    };
    let digits = line[..end].strip_suffix(b"\r").ok_or(fault)?;
    let number = number::parse(digits).ok_or(fault)?;
    Ok((number, at + end + 1))
}

#[inline(never)]
fn parse_line(input: &[u8], arguments: &mut Arguments) -> Result<usize, Unparsed> {
    let Some(end) = input.iter().take(MAX_LINE).position(|it| *it == b'\n') else {
        return Err(if input.len() < MAX_LINE {
            Unparsed::Incomplete(input.len() + 1)
        } else {
            ProtocolFault::LongLine.into()
        });
    };
    let line = &input[..end];
    line::words(line.strip_suffix(b"\r").unwrap_or(line), arguments)?;
    Ok(end + 1)
}

#[cfg(test)]
mod tests {
    use super::*;
    use crate::chance::Chance;

    fn parsed(input: &[u8]) -> Result<(Vec<Vec<u8>>, usize), Unparsed> {
        let mut arguments = Arguments::default();
        let end = parse(input, &mut arguments)?;
        let command = arguments.command(input);
        Ok((command.iter().map(<[u8]>::to_vec).collect(), end))
    }

    fn words(input: &[u8]) -> Vec<String> {
        let (words, end) = parsed(input).unwrap();
        assert_eq!(end, input.len());
        let text = |it: Vec<u8>| String::from_utf8(it).unwrap();
        words.into_iter().map(text).collect()
    }

    #[test]
    fn arrays_and_lines_are_commands() {
        assert_eq!(words(b"*2\r\n$3\r\nGET\r\n$1\r\na\r\n"), ["GET", "a"]);
        assert_eq!(words(b"*2\r\n$3\r\nGET\r\n$0\r\n\r\n"), ["GET", ""]);
        assert_eq!(words(b"SET a  b\r\n"), ["SET", "a", "b"]);
        assert_eq!(words(b"PING\n"), ["PING"]);
        assert_eq!(words(b"\r\n"), [""; 0]);
        assert_eq!(words(b"*0\r\n"), [""; 0]);
        assert_eq!(words(b"*-1\r\n"), [""; 0]);
    }

    #[test]
    fn each_front_of_a_command_is_incomplete() {
        let whole = b"*3\r\n$3\r\nSET\r\n$1\r\na\r\n$12\r\nhello\r\nworld\r\n";
        for end in 0..whole.len() {
            match parsed(&whole[..end]) {
                Err(Unparsed::Incomplete(needs)) => assert!(end < needs && needs <= whole.len()),
                other => panic!("{end} bytes: {other:?}"),
            }
        }
        assert_eq!(parsed(whole).unwrap().0[2], b"hello\r\nworld");
    }

    #[test]
    fn what_is_too_large_is_told_at_once() {
        for (input, why) in [
            (&b"*1025\r\n"[..], Oversized::Arguments),
            (b"*1048576\r\n", Oversized::Arguments),
            (b"*1\r\n$536870912\r\n", Oversized::Bytes),
            (b"*1\r\n$1048577\r\n", Oversized::Bytes),
            (b"*1\r\n$1048576\r\n", Oversized::Bytes),
            (
                &[b"a ".repeat(1_025), b"\n".to_vec()].concat(),
                Oversized::Arguments,
            ),
        ] {
            assert_eq!(parsed(input), Err(Unparsed::Oversized(why)), "{input:?}");
        }
    }

    #[test]
    fn what_is_malformed_is_told_at_once() {
        use ProtocolFault::*;
        for (input, fault) in [
            (&b"*9223372036854775808\r\n"[..], ArrayLength),
            (b"*99999999999999999999999999", ArrayLength),
            (b"*9223372036854775807\r\n", ManyArguments),
            (b"*1048577\r\n", ManyArguments),
            (b"*x\r\n", ArrayLength),
            (b"*1\r\n$9223372036854775808\r\n", ArgumentLength),
            (b"*1\r\n$9223372036854775807\r\n", LongArgument),
            (b"*1\r\n$536870913\r\n", LongArgument),
            (b"*1\r\n$-1\r\n", ArgumentLength),
            (b"*1\r\n$1\n", ArgumentLength),
            (b"*1\r\nGET\r\n", NoLength(b'G')),
            (b"*1\r\n$1\r\nabc", NoLineEnd),
            (b"SET a \"b\r\n", Quotes),
            (&[b'x'; MAX_LINE], LongLine),
        ] {
            assert_eq!(parsed(input), Err(Unparsed::Malformed(fault)), "{input:?}");
        }
    }

    fn written(words: &[Vec<u8>]) -> Vec<u8> {
        let mut bytes = format!("*{}\r\n", words.len()).into_bytes();
        for word in words {
            bytes.extend(format!("${}\r\n", word.len()).bytes());
            bytes.extend_from_slice(word);
            bytes.extend_from_slice(LINE_END);
        }
        bytes
    }

    #[test]
    fn what_was_written_is_read() {
        let mut chance = Chance::new(88_172_645_463_325_252);
        for _ in 0..2_000 {
            let words: Vec<_> = (0..chance.below(9)).map(|_| chance.bytes(20)).collect();
            let mut bytes = written(&words);
            let end = bytes.len();
            bytes.extend(chance.bytes(20));
            assert_eq!(parsed(&bytes), Ok((words, end)));
        }
    }

    #[test]
    fn spoilt_bytes_are_answered_within_the_input() {
        let mut chance = Chance::new(1_181_783_497_276_652_981);
        let pieces: [&[u8]; 10] = [
            b"*", b"$", b"\r\n", b"\n", b"-1", b"3", b"GET", b"\"", b"'", b"\\x4",
        ];
        for _ in 0..50_000 {
            let mut bytes = match chance.below(2) {
                0 => written(&[chance.bytes(20), chance.bytes(20)]),
                _ => Vec::new(),
            };
            for _ in 0..chance.below(8) {
                let at = chance.below(bytes.len() + 1);
                let piece = chance.one(&pieces);
                bytes.splice(at..at, piece.iter().copied());
            }
            match parsed(&bytes) {
                Ok((_, end)) => assert!(0 < end && end <= bytes.len()),
                Err(Unparsed::Incomplete(needs)) => assert!(needs > bytes.len()),
                Err(Unparsed::Malformed(_) | Unparsed::Oversized(_)) => {}
            }
        }
    }
}
