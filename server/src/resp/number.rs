//! Numbers of 64 bits as Redis reads and writes them.

/// The most bytes of a number.
const MAX_DIGITS: usize = 20;

/// Parses a number in digits without leading zeros. A negative number begins with `-`.
pub fn parse(text: &[u8]) -> Option<i64> {
    let (is_negative, digits) = match text {
        [b'-', digits @ ..] => (true, digits),
        digits => (false, digits),
    };
    match digits {
        [] => return None,
        [b'0'] if !is_negative => return Some(0),
        [b'0', ..] => return None,
        digits if digits.len() >= MAX_DIGITS => return None,
        _ => {}
    }
    // It counts downwards, because the least number has no positive counterpart.
    let least = digits.iter().try_fold(0i64, |sum, digit| {
        let digit = digit.is_ascii_digit().then(|| i64::from(digit - b'0'))?;
        sum.checked_mul(10)?.checked_sub(digit)
    })?;
    if is_negative {
        Some(least)
    } else {
        least.checked_neg()
    }
}

/// The digits of a number, without allocation.
#[derive(Clone, Copy, Debug)]
pub struct Digits {
    line: NumberLine,
}

impl Digits {
    /// Returns the digits of this number, as `parse` reads them.
    pub fn new(number: i64) -> Digits {
        let line = NumberLine::new(b' ', number);
        Digits { line }
    }

    /// Returns the bytes.
    pub fn as_bytes(&self) -> &[u8] {
        &self.line.bytes[self.line.start + 1..LINE - 2]
    }
}

/// Room for a kind, a number and a line's end.
const LINE: usize = 1 + MAX_DIGITS + 2;

/// A number as a line of an answer, without allocation.
#[derive(Clone, Copy, Debug)]
pub struct NumberLine {
    bytes: [u8; LINE],
    start: usize,
}

impl NumberLine {
    /// Returns the line of this kind and number.
    #[inline]
    pub fn new(kind: u8, number: i64) -> NumberLine {
        let (mut bytes, mut start) = ([0; LINE], LINE - 2);
        bytes[LINE - 2] = b'\r';
        bytes[LINE - 1] = b'\n';
        let mut rest = number.unsigned_abs();
        loop {
            start -= 1;
            bytes[start] = b'0' + (rest % 10) as u8;
            rest /= 10;
            if rest == 0 {
                break;
            }
        }
        if number < 0 {
            start -= 1;
            bytes[start] = b'-';
        }
        start -= 1;
        bytes[start] = kind;
        NumberLine { bytes, start }
    }

    /// Returns the bytes.
    #[inline]
    pub fn as_bytes(&self) -> &[u8] {
        &self.bytes[self.start..]
    }
}

#[cfg(test)]
mod tests {
    use super::*;

    #[test]
    fn numbers_are_read_as_they_are_written() {
        for number in [
            0,
            1,
            -1,
            9,
            10,
            -10,
            12_345,
            i64::MAX,
            i64::MIN,
            i64::MIN + 1,
        ] {
            let digits = Digits::new(number);
            assert_eq!(digits.as_bytes(), number.to_string().as_bytes());
            assert_eq!(parse(digits.as_bytes()), Some(number));
        }
    }

    #[test]
    fn other_spellings_are_no_numbers() {
        for text in [
            "",
            "-",
            "+1",
            "00",
            "01",
            "-0",
            "-01",
            "1 ",
            " 1",
            "1a",
            "1.0",
            "9223372036854775808",
            "-9223372036854775809",
            "99999999999999999999999",
        ] {
            assert_eq!(parse(text.as_bytes()), None, "{text}");
        }
    }
}
