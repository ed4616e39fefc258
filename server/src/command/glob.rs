use super::byte_set::ByteSet;

/// The most bytes of a pattern. A match may look at a part of the pattern for each byte of a text.
pub const MAX_PATTERN: usize = 1_024;

/// A pattern has more than [`MAX_PATTERN`] bytes.
#[derive(Clone, Copy, Debug, PartialEq, Eq)]
pub struct LongPattern;

/// A pattern, in which `*` stands for any bytes, `?` for one, `[a-c]` for one of these, `[^a]` for one of the others,
/// and `\` before a byte for that byte.
#[derive(Debug)]
pub struct Pattern(Vec<PatternPart>);

#[derive(Debug)]
enum PatternPart {
    /// Any bytes.
    Any,
    /// One of these.
    One(ByteSet),
}

impl Pattern {
    /// Parses the pattern.
    ///
    /// # Errors
    ///
    /// [`LongPattern`], if it has more than [`MAX_PATTERN`] bytes.
    pub fn new(mut written: &[u8]) -> Result<Pattern, LongPattern> {
        if written.len() > MAX_PATTERN {
            return Err(LongPattern);
        }
        let mut parts = Vec::new();
        while !written.is_empty() {
            let (part, length) = first(written);
            parts.push(part);
            written = &written[length..];
        }
        Ok(Pattern(parts))
    }

    /// Returns whether the text matches the pattern. The time is at most the product of the lengths.
    pub fn is_match(&self, text: &[u8]) -> bool {
        let (mut at, mut rest) = (0, text);
        // Where to go on if the present try fails: behind the last `*`, and one byte further in the text.
        let mut last: Option<(usize, &[u8])> = None;
        loop {
            match (self.0.get(at), rest) {
                (Some(PatternPart::Any), _) => {
                    at += 1;
                    last = Some((at, rest));
                }
                (Some(PatternPart::One(bytes)), [byte, after @ ..]) if bytes.has(*byte) => {
                    at += 1;
                    rest = after;
                }
                (None, []) => return true,
                _ => match last {
                    Some((star, [_, after @ ..])) => {
                        at = star;
                        rest = after;
                        last = Some((star, after));
                    }
                    _ => return false,
                },
            }
        }
    }
}

/// Returns the first part of a pattern that isn't empty, and how many bytes it has there.
fn first(written: &[u8]) -> (PatternPart, usize) {
    match written {
        [b'*', ..] => (PatternPart::Any, 1),
        [b'?', ..] => (PatternPart::One(ByteSet::default().others()), 1),
        [b'[', class @ ..] => {
            let (bytes, length) = class_of(class);
            (PatternPart::One(bytes), length + 1)
        }
        [b'\\', wanted, ..] => (PatternPart::One(ByteSet::from_to(*wanted, *wanted)), 2),
        [wanted, ..] => (PatternPart::One(ByteSet::from_to(*wanted, *wanted)), 1),
        [] => (PatternPart::Any, 0),
    }
}

/// Returns the class behind a `[`, and its length including the `]`.
fn class_of(class: &[u8]) -> (ByteSet, usize) {
    let is_not = class.first() == Some(&b'^');
    let (mut at, mut bytes) = (usize::from(is_not), ByteSet::default());
    while at < class.len() && class[at] != b']' {
        let (low, high, length) = match class[at..] {
            [b'\\', wanted, ..] => (wanted, wanted, 2),
            [low, b'-', high, ..] => (low.min(high), low.max(high), 3),
            _ => (class[at], class[at], 1),
        };
        bytes = bytes.with(ByteSet::from_to(low, high));
        at += length;
    }
    let length = (at + 1).min(class.len());
    (if is_not { bytes.others() } else { bytes }, length)
}

#[cfg(test)]
mod tests {
    use super::*;
    use std::time::{Duration, Instant};

    fn is_match(pattern: &[u8], text: &[u8]) -> bool {
        Pattern::new(pattern).unwrap().is_match(text)
    }

    #[test]
    fn patterns_are_those_of_redis() {
        for (pattern, text, is_well) in [
            ("*", "", true),
            ("", "", true),
            ("", "a", false),
            ("a*c", "abbc", true),
            ("a*c", "abbd", false),
            ("h?llo", "hello", true),
            ("h?llo", "hllo", false),
            ("h[ae]llo", "hallo", true),
            ("h[^e]llo", "hello", false),
            ("h[a-c]llo", "hbllo", true),
            ("h[c-a]llo", "hbllo", true),
            ("a\\*", "a*", true),
            ("a\\*", "ab", false),
            ("*a*b*", "xxaxxbxx", true),
            ("[", "[", false),
            ("[a", "a", true),
            ("a\\", "a\\", true),
            ("[^", "a", true),
            ("[\\]]", "]", true),
            ("[a-]x", "ax", false),
            ("[a-]x", "_", true),
            ("[\u{e9}-\u{ff}]*", "\u{ea}a", true),
            ("*[^a-z]", "abc", false),
            ("*[^a-z]", "abC", true),
            ("**", "", true),
        ] {
            assert_eq!(
                is_match(pattern.as_bytes(), text.as_bytes()),
                is_well,
                "{pattern} {text}"
            );
        }
    }

    #[test]
    fn many_stars_take_no_long_time() {
        let pattern = "a*".repeat(100) + "b";
        assert!(!is_match(pattern.as_bytes(), "a".repeat(255).as_bytes()));
    }

    #[test]
    fn a_long_class_takes_no_long_time() {
        let began = Instant::now();
        let pattern = Pattern::new(format!("*[{}]", "a".repeat(1_000)).as_bytes()).unwrap();
        let text = [b'b'; 255];
        assert!((0..10_000).all(|_| !pattern.is_match(&text)));
        assert!(
            began.elapsed() < Duration::from_secs(20),
            "{:?}",
            began.elapsed()
        );
    }
}
