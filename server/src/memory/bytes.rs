use std::error::Error;
use std::fmt;
use std::str::FromStr;

/// A number of bytes, as Redis' configuration writes it, for instance `100mb`.
#[derive(Clone, Copy, Debug, PartialEq, Eq)]
pub struct Bytes(pub u64);

/// How many bytes each unit has, by its name in small letters.
const UNITS: [(&str, u64); 8] = [
    ("", 1),
    ("b", 1),
    ("k", 1_000),
    ("kb", 1 << 10),
    ("m", 1_000_000),
    ("mb", 1 << 20),
    ("g", 1_000_000_000),
    ("gb", 1 << 30),
];

/// The text isn't a number of bytes.
#[derive(Clone, Copy, Debug, PartialEq, Eq)]
pub struct NoBytes;

impl fmt::Display for NoBytes {
    fn fmt(&self, f: &mut fmt::Formatter<'_>) -> fmt::Result {
        f.write_str("a number of bytes is written as 1000000, 100mb or 2gb")
    }
}

impl Error for NoBytes {}

impl FromStr for Bytes {
    type Err = NoBytes;

    fn from_str(text: &str) -> Result<Bytes, NoBytes> {
        let is_digit = |it: char| it.is_ascii_digit();
        let unit = text.trim_start_matches(is_digit).to_ascii_lowercase();
        let digits = &text[..text.len() - unit.len()];
        let (_, each) = UNITS.iter().find(|it| it.0 == unit).ok_or(NoBytes)?;
        let count: u64 = digits.parse().map_err(|_| NoBytes)?;
        count.checked_mul(*each).map(Bytes).ok_or(NoBytes)
    }
}

impl fmt::Display for Bytes {
    fn fmt(&self, f: &mut fmt::Formatter<'_>) -> fmt::Result {
        self.0.fmt(f)
    }
}

#[cfg(test)]
mod tests {
    use super::*;

    #[test]
    fn bytes_are_written_as_by_redis() {
        for (text, bytes) in [
            ("0", Some(0)),
            ("123", Some(123)),
            ("1b", Some(1)),
            ("1k", Some(1_000)),
            ("1KB", Some(1_024)),
            ("100mb", Some(104_857_600)),
            ("2m", Some(2_000_000)),
            ("3Gb", Some(3_221_225_472)),
            ("", None),
            ("mb", None),
            ("-1", None),
            ("1.5gb", None),
            ("1tb", None),
            ("18446744073709551615gb", None),
            ("1é", None),
        ] {
            assert_eq!(text.parse(), bytes.map(Bytes).ok_or(NoBytes), "{text}");
        }
    }
}
