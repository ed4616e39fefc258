use super::{Arguments, Oversized, ProtocolFault, Unparsed, MAX_ARGUMENTS};

/// Takes the words of a line as redis-cli and Redis do. Some words may be quoted.
pub(super) fn words(line: &[u8], arguments: &mut Arguments) -> Result<(), Unparsed> {
    arguments.begin_line();
    let mut rest = line;
    let mut count = 0;
    loop {
        rest = rest.trim_ascii_start();
        if rest.is_empty() {
            return Ok(());
        }
        count += 1;
        if count > MAX_ARGUMENTS {
            return Err(Oversized::Arguments.into());
        }
        let start = arguments.word_start();
        rest = word(rest, arguments)?;
        arguments.end_word(start);
    }
}

/// Takes the first word of the line, and returns the rest.
fn word<'a>(line: &'a [u8], arguments: &mut Arguments) -> Result<&'a [u8], ProtocolFault> {
    let mut rest = line;
    while let [byte, after @ ..] = rest {
        rest = match byte {
            b'"' => return ended(quoted(after, arguments)?),
            b'\'' => return ended(literal(after, arguments)?),
            byte if byte.is_ascii_whitespace() => return Ok(rest),
            byte => {
                arguments.push_byte(*byte);
                after
            }
        };
    }
    Ok(rest)
}

/// Checks the rest of a line behind a quoted word: it must be empty, or begin with a space.
fn ended(rest: &[u8]) -> Result<&[u8], ProtocolFault> {
    match rest.first() {
        Some(byte) if !byte.is_ascii_whitespace() => Err(ProtocolFault::Quotes),
        _ => Ok(rest),
    }
}

/// Takes a word up to its double quote.
fn quoted<'a>(line: &'a [u8], arguments: &mut Arguments) -> Result<&'a [u8], ProtocolFault> {
    let mut rest = line;
    loop {
        let (byte, after) = match rest {
            [b'"', after @ ..] => return Ok(after),
            [b'\\', b'x', high, low, after @ ..]
                if high.is_ascii_hexdigit() && low.is_ascii_hexdigit() =>
            {
                (digit(*high) << 4 | digit(*low), after)
            }
            [b'\\', byte, after @ ..] => (escaped(*byte), after),
            [byte, after @ ..] => (*byte, after),
            [] => return Err(ProtocolFault::Quotes),
        };
        arguments.push_byte(byte);
        rest = after;
    }
}

/// Takes a word up to its single quote.
fn literal<'a>(line: &'a [u8], arguments: &mut Arguments) -> Result<&'a [u8], ProtocolFault> {
    let mut rest = line;
    loop {
        let (byte, after) = match rest {
            [b'\'', after @ ..] => return Ok(after),
            [b'\\', b'\'', after @ ..] => (b'\'', after),
            [byte, after @ ..] => (*byte, after),
            [] => return Err(ProtocolFault::Quotes),
        };
        arguments.push_byte(byte);
        rest = after;
    }
}

fn digit(byte: u8) -> u8 {
    match byte {
        b'0'..=b'9' => byte - b'0',
        _ => byte.to_ascii_lowercase() - b'a' + 10,
    }
}

fn escaped(byte: u8) -> u8 {
    match byte {
        b'n' => b'\n',
        b'r' => b'\r',
        b't' => b'\t',
        b'b' => 8,
        b'a' => 7,
        other => other,
    }
}

#[cfg(test)]
mod tests {
    use super::*;

    fn taken(line: &[u8]) -> Result<Vec<Vec<u8>>, Unparsed> {
        let mut arguments = Arguments::default();
        words(line, &mut arguments)?;
        Ok(arguments.command(line).iter().map(<[u8]>::to_vec).collect())
    }

    #[test]
    fn quotes_enclose_any_bytes() {
        assert_eq!(
            taken(br#" a "b c"  'd "e' "\x41\n\"" '\'' "" "#).unwrap(),
            [&b"a"[..], b"b c", b"d \"e", b"A\n\"", b"'", b""]
        );
    }

    #[test]
    fn a_quoted_word_ends() {
        for line in [&br#"a "b"#[..], b"a 'b", br#""a"b"#, br#""\"#] {
            assert_eq!(taken(line), Err(ProtocolFault::Quotes.into()));
        }
    }
}
