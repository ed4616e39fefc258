use crate::target::{holds, Target};
use durkenzo_server::resp::{number, parse, Arguments, OwnedCommand, ReadAway, Unparsed};

/// The messages of clients: commands as arrays and as lines, and numbers in them.
#[derive(Default)]
pub struct Resp {
    arguments: Arguments,
}

impl Target for Resp {
    fn check(&mut self, input: &[u8]) -> Result<(), String> {
        let mut rest = input;
        while !rest.is_empty() {
            match parse(rest, &mut self.arguments) {
                Ok(end) => {
                    holds(0 < end && end <= rest.len(), || {
                        format!("a command ends at {end}")
                    })?;
                    self.command(&rest[..end])?;
                    rest = &rest[end..];
                }
                Err(Unparsed::Incomplete(needs)) => {
                    return holds(needs > rest.len(), || format!("{needs} bytes are there"));
                }
                Err(Unparsed::Malformed(_)) => return Ok(()),
                Err(Unparsed::Oversized(_)) => return read_away(rest),
            }
        }
        Ok(())
    }

    fn words(&self) -> &[&'static [u8]] {
        &[
            b"\r\n",
            b"*1\r\n",
            b"*3\r\n$3\r\nSET\r\n$1\r\na\r\n$1\r\nb\r\n",
            b"*-1\r\n",
            b"$0\r\n\r\n",
            b"$1048576\r\n",
            b"*1025\r\n",
            b"\"\\x41\"",
            b"'a'",
            b"GET a\n",
        ]
    }
}

impl Resp {
    /// A whole command must read the same if it is written anew, and must not be one without its last byte.
    fn command(&mut self, bytes: &[u8]) -> Result<(), String> {
        let words: Vec<Vec<u8>> = self.words_of(bytes);
        for word in &words {
            if let Some(found) = number::parse(word) {
                let spelled = number::Digits::new(found);
                holds(spelled.as_bytes() == word, || {
                    format!("{word:?} is {found}")
                })?;
            }
        }
        let spelled = spelled(&words);
        let read = parse(&spelled, &mut self.arguments);
        holds(read == Ok(spelled.len()), || {
            format!("spelled anew it is {read:?}")
        })?;
        let owned = OwnedCommand::new(self.arguments.command(&spelled));
        let is_same = owned.command().iter().eq(words.iter().map(Vec::as_slice));
        holds(is_same && self.words_of(&spelled) == words, || {
            "spelled anew it has other words".to_owned()
        })?;
        match parse(&bytes[..bytes.len() - 1], &mut self.arguments) {
            Err(Unparsed::Incomplete(needs)) if needs <= bytes.len() => Ok(()),
            other => Err(format!("without its last byte it is {other:?}")),
        }
    }

    fn words_of(&self, bytes: &[u8]) -> Vec<Vec<u8>> {
        let command = self.arguments.command(bytes);
        command.iter().map(<[u8]>::to_vec).collect()
    }
}

/// If a command is too large, as many of its bytes are skipped in two pieces as in one.
fn read_away(input: &[u8]) -> Result<(), String> {
    let whole = ReadAway::default().take(input);
    let (mut away, half) = (ReadAway::default(), input.len() / 2);
    let parts = away.take(&input[..half]).and_then(|first| {
        if first.is_over {
            return Ok(first);
        }
        let mut rest = away.take(&input[first.bytes..])?;
        rest.bytes += first.bytes;
        Ok(rest)
    });
    let is_within = whole.is_ok_and(|it| it.bytes <= input.len()) || whole.is_err();
    holds(is_within && whole == parts, || {
        format!("{whole:?} is forgotten at once, {parts:?} in two pieces")
    })
}

fn spelled(words: &[Vec<u8>]) -> Vec<u8> {
    let mut bytes = format!("*{}\r\n", words.len()).into_bytes();
    for word in words {
        bytes.extend(format!("${}\r\n", word.len()).bytes());
        bytes.extend_from_slice(word);
        bytes.extend_from_slice(b"\r\n");
    }
    bytes
}
