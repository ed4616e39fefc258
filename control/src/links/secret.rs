use super::{SecretFault, MAX_SECRET};
use std::hint::black_box;
use std::path::Path;
use std::{env, fmt, fs};

/// A password, or anything else that nobody should see. It doesn't show itself, and the time of comparing it with a
/// guess depends only on the guess.
#[derive(Clone)]
pub struct Secret(Box<[u8]>);

impl Secret {
    /// Returns the secret with these bytes, if there are any.
    pub fn of(bytes: &[u8]) -> Option<Secret> {
        (!bytes.is_empty()).then(|| Secret(bytes.into()))
    }

    /// Returns the first line of the file. If no file is named, returns the environment variable, if it is set.
    ///
    /// # Errors
    ///
    /// If the file can't be read, or the secret is empty.
    pub fn given(file: Option<&Path>, variable: &str) -> Result<Option<Secret>, SecretFault> {
        if let Some(file) = file {
            let text = fs::read(file);
            let text = text.map_err(|error| SecretFault::Unreadable(file.to_owned(), error))?;
            let found = Secret::of(first_line(&text));
            let none = || SecretFault::EmptyFile(file.to_owned());
            return found.ok_or_else(none).map(Some);
        }
        let Some(text) = env::var_os(variable) else {
            return Ok(None);
        };
        let found = Secret::of(text.as_encoded_bytes());
        let none = || SecretFault::EmptyVariable(variable.to_owned());
        found.ok_or_else(none).map(Some)
    }

    /// Returns the secret as [`Secret::given`] does, if a greeting has room for it.
    ///
    /// # Errors
    ///
    /// As [`Secret::given`]; and if it is longer than [`MAX_SECRET`] bytes.
    pub fn given_for_greetings(
        file: Option<&Path>,
        variable: &str,
    ) -> Result<Option<Secret>, SecretFault> {
        let secret = Secret::given(file, variable)?;
        let is_long = |it: &Secret| it.reveal().len() > MAX_SECRET;
        if secret.as_ref().is_some_and(is_long) {
            let source = file.map_or(variable.into(), |it| it.display().to_string());
            return Err(SecretFault::TooLong(source));
        }
        Ok(secret)
    }

    /// Returns whether this is the secret.
    pub fn is(&self, guess: &[u8]) -> bool {
        let begun = u8::from(guess.len() != self.0.len());
        let pairs = guess.iter().zip(self.0.iter().cycle());
        let differences = pairs.fold(begun, |sum, (a, b)| black_box(sum | (a ^ b)));
        differences == 0
    }

    /// Returns its bytes, for those who must send them.
    pub fn reveal(&self) -> &[u8] {
        &self.0
    }
}

impl fmt::Debug for Secret {
    fn fmt(&self, f: &mut fmt::Formatter<'_>) -> fmt::Result {
        f.write_str("Secret(..)")
    }
}

/// Returns the first line, without its end, which may be that of Windows.
fn first_line(text: &[u8]) -> &[u8] {
    let line = text.split(|it| *it == b'\n').next().unwrap_or_default();
    let is_ended = line.len() < text.len();
    line.strip_suffix(b"\r")
        .filter(|_| is_ended)
        .unwrap_or(line)
}

#[cfg(test)]
mod tests {
    use super::*;

    #[test]
    fn the_first_line_has_no_end() {
        for (text, line) in [
            ("word", "word"),
            ("word\n", "word"),
            ("word\r\nmore\n", "word"),
            ("wo\rrd\r\r\n", "wo\rrd\r"),
            ("word\r", "word\r"),
            ("\r\n", ""),
            ("", ""),
        ] {
            assert_eq!(first_line(text.as_bytes()), line.as_bytes(), "{text:?}");
        }
    }

    #[test]
    fn one_that_is_not_given_is_none() {
        assert!(Secret::given(None, "DURKENZO_NO_SUCH").unwrap().is_none());
        let nowhere = Path::new("/nowhere/password");
        assert!(Secret::given(Some(nowhere), "DURKENZO_NO_SUCH").is_err());
    }

    #[test]
    fn it_is_itself_alone_and_shows_nothing() {
        let secret = Secret::of(b"word").unwrap();
        assert!(secret.is(b"word") && secret.reveal() == b"word");
        for guess in ["", "w", "wor", "Word", "wordword", "words"] {
            assert!(!secret.is(guess.as_bytes()), "{guess}");
        }
        assert_eq!(format!("{secret:?}"), "Secret(..)");
        assert!(Secret::of(b"").is_none());
    }
}
