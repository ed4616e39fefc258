use std::borrow::Cow;
use std::fmt;
use std::str::FromStr;
use thiserror::Error;

/// What all keys of a fleet begin with in a store that others use too, as `/orders/`. By default that is nothing.
///
/// One of the fleets in a store may have none. Of two others neither's prefix may begin with the other's.
///
/// ```
/// use durkenzo_store::KeyPrefix;
///
/// let prefix: KeyPrefix = "/orders/".parse()?;
/// assert_eq!(prefix.to_string(), "/orders/");
/// assert!("orders".parse::<KeyPrefix>().is_err());
/// # Ok::<(), durkenzo_store::PrefixFault>(())
/// ```
#[derive(Clone, Debug, Default, PartialEq, Eq)]
pub struct KeyPrefix(String);

/// Why a text is no prefix of keys.
#[derive(Clone, Copy, Debug, PartialEq, Eq, Error)]
#[error("keys begin with a name between slashes, as /orders/")]
pub struct PrefixFault;

impl KeyPrefix {
    /// Returns whether keys begin with nothing of their own.
    pub fn is_empty(&self) -> bool {
        self.0.is_empty()
    }

    /// Returns the key as the other store has it.
    pub(crate) fn whole<'a>(&self, key: &'a [u8]) -> Cow<'a, [u8]> {
        match self.is_empty() {
            true => Cow::Borrowed(key),
            false => Cow::Owned([self.0.as_bytes(), key].concat()),
        }
    }

    /// Leaves this off a key of the other store. Returns whether the key began so.
    pub(crate) fn leave_off(&self, key: &mut Vec<u8>) -> bool {
        let begins = key.starts_with(self.0.as_bytes());
        if begins {
            key.drain(..self.0.len());
        }
        begins
    }
}

impl FromStr for KeyPrefix {
    type Err = PrefixFault;

    /// No key of a fleet begins with a slash, so none without a prefix is taken for one with it.
    fn from_str(text: &str) -> Result<KeyPrefix, PrefixFault> {
        let is_between = text.len() > 2 && text.starts_with('/') && text.ends_with('/');
        match is_between && text.chars().all(|it| it.is_ascii_graphic()) {
            true => Ok(KeyPrefix(text.to_owned())),
            false => Err(PrefixFault),
        }
    }
}

impl fmt::Display for KeyPrefix {
    fn fmt(&self, f: &mut fmt::Formatter<'_>) -> fmt::Result {
        f.write_str(&self.0)
    }
}

#[cfg(test)]
mod tests {
    use super::*;

    #[test]
    fn a_prefix_is_a_name_between_slashes() {
        for text in ["", "/", "//", "orders/", "/orders", "/or ders/", "/ördérs/"] {
            assert_eq!(text.parse::<KeyPrefix>(), Err(PrefixFault), "{text}");
        }
        assert!("/teams/orders/".parse::<KeyPrefix>().is_ok());
    }
}
