use crate::target::{holds, Target};

#[path = "../../../server/src/command/byte_set.rs"]
mod byte_set;
#[path = "../../../server/src/command/glob.rs"]
mod glob;

/// The longest pattern and text that are tried: the time is their product.
const LONGEST: usize = 4_096;

/// Patterns of `SCAN`: the bytes before the first line's end are the pattern, and the bytes behind it the text.
pub struct ScanPatterns;

impl Target for ScanPatterns {
    fn check(&mut self, input: &[u8]) -> Result<(), String> {
        let input = &input[..input.len().min(2 * LONGEST)];
        let end = input.iter().position(|it| *it == b'\n');
        let (pattern, text) = input.split_at(end.unwrap_or(input.len()));
        let text = text.get(1..).unwrap_or_default();
        is_match(pattern, text)?;
        holds(is_match(b"*", text)?, || "* isn't all".to_owned())?;
        let literal: Vec<u8> = text.iter().flat_map(|it| [b'\\', *it]).collect();
        holds(is_match(&literal, text)?, || "it isn't itself".to_owned())?;
        let around = [b"*", &literal[..], b"*"].concat();
        holds(is_match(&around, text)?, || "it isn't in itself".to_owned())
    }

    fn words(&self) -> &[&'static [u8]] {
        &[
            b"*", b"?", b"[a-c]", b"[^a]", b"[", b"]", b"\\", b"-", b"**a",
        ]
    }

    fn seeds(&mut self) -> Vec<Vec<u8>> {
        vec![b"a*[b-d]?\\*\nabcd*".to_vec()]
    }
}

/// Returns whether the text matches the pattern; if a pattern must be refused as too long, and is, it matches all
/// texts.
fn is_match(pattern: &[u8], text: &[u8]) -> Result<bool, String> {
    let written = glob::Pattern::new(pattern);
    holds(
        written.is_err() == (pattern.len() > glob::MAX_PATTERN),
        || format!("a pattern of {} bytes: {written:?}", pattern.len()),
    )?;
    Ok(written.map_or(true, |it| it.is_match(text)))
}
