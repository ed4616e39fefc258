//! Settings in the form of scripts: one JSON object, which docs/SETTINGS.md describes.
mod agreement;
mod line;
mod members;

pub use agreement::{agree, agree_in_force, has_settings};
pub use line::line;

use crate::domains::Domains;
use members::ReadMembers;
use std::error::Error;
use std::fmt;

/// The greatest generation that a shard may have.
pub const MAX_CEILING: u64 = (1 << 36) - 1;

/// The part of a script's settings that the server itself needs. The library checks and keeps all of them.
#[derive(Clone, Debug)]
pub struct Settings {
    line: String,
    members: ReadMembers,
}

/// Why settings are refused before the library checks them.
#[derive(Debug)]
pub enum SettingsLineFault {
    /// They aren't an object with these members.
    BadJson(serde_json::Error),
    /// Servers aren't numbered 1, 2 and so on.
    Gaps,
}

impl fmt::Display for SettingsLineFault {
    fn fmt(&self, f: &mut fmt::Formatter<'_>) -> fmt::Result {
        match self {
            SettingsLineFault::BadJson(error) => write!(f, "BadJson: {error}"),
            SettingsLineFault::Gaps => f.write_str(
                "BadServers: servers here have the numbers 1, 2 and so on, without gaps",
            ),
        }
    }
}

impl Error for SettingsLineFault {
    fn source(&self) -> Option<&(dyn Error + 'static)> {
        match self {
            SettingsLineFault::BadJson(error) => Some(error),
            SettingsLineFault::Gaps => None,
        }
    }
}

impl Settings {
    /// Parses the settings.
    pub fn of(text: &str) -> Result<Settings, SettingsLineFault> {
        let members = ReadMembers::of(text).map_err(SettingsLineFault::BadJson)?;
        if (1..).zip(&members.servers).any(|(id, row)| row.id != id) {
            return Err(SettingsLineFault::Gaps);
        }
        // A text in JSON never contains a line feed as it is.
        let line = text.replace(['\r', '\n'], " ");
        Ok(Settings { line, members })
    }

    /// Returns all of them, as a line.
    pub fn line(&self) -> &str {
        &self.line
    }

    /// Returns the bounds of the ranges.
    pub fn bounds(&self) -> Vec<Vec<u8>> {
        self.members
            .bounds
            .iter()
            .map(|it| it.clone().into_bytes())
            .collect()
    }

    /// Returns the number of servers.
    pub fn servers(&self) -> u16 {
        // The library takes at most 4,095.
        u16::try_from(self.members.servers.len()).unwrap_or(u16::MAX)
    }

    /// Returns how many servers may be away at once.
    pub fn restarts(&self) -> u16 {
        self.members.ops
    }

    /// Returns the greatest generation.
    pub fn ceiling(&self) -> u64 {
        self.members.ceiling
    }

    /// Returns the servers that fail together. The library knows how many of them may be away at once.
    pub fn domains(&self) -> Domains {
        Domains::new(self.members.servers.iter().map(|it| it.domain).collect())
    }
}

/// Returns so many bounds, even over the two-letter words from a to z. The first bound is empty.
pub fn even_bounds(ranges: u16) -> Vec<Vec<u8>> {
    let letter = |it: u32| b'a' + (it % 26) as u8;
    let bound = |range: u32| {
        let place = 26 * 26 * range / u32::from(ranges.max(1));
        match (place / 26, place % 26) {
            (first, 0) => vec![letter(first)],
            (first, second) => vec![letter(first), letter(second)],
        }
    };
    let above = (1..u32::from(ranges)).map(bound);
    std::iter::once(Vec::new()).chain(above).collect()
}

#[cfg(test)]
mod tests {
    use super::*;

    const LINE: &str = r#"{"version":2,"bounds":["","m"],"servers":[{"id":1,"domain":0,"capacity":3},
        {"id":2,"domain":1,"capacity":1}],"groups":[{"limit":2,"down":2}],"shards":[{"group":0,"load":1,"cap":1},
        {"group":0,"load":1,"cap":1}],"ops":1,"kept":9,"ceiling":1000,"workers":1,"domains":[{"domain":0,"down":1},
        {"domain":1,"down":1}]}"#;

    #[test]
    fn settings_of_scripts_are_read() {
        let settings = Settings::of(LINE).unwrap();
        assert_eq!(
            (settings.servers(), settings.restarts(), settings.ceiling()),
            (2, 1, 1_000)
        );
        assert_eq!(settings.bounds(), [b"".to_vec(), b"m".to_vec()]);
        assert_eq!(settings.domains().domain_of(2), 1);
        assert!(!settings.line().contains('\n') && settings.line().contains("\"capacity\":1}"));
    }

    #[test]
    fn of_two_members_of_one_name_the_last_counts() {
        let twice = LINE.replace("\"ops\":1", "\"ops\":7,\"ops\":1");
        assert_eq!(Settings::of(&twice).unwrap().restarts(), 1);
    }

    #[test]
    fn other_settings_are_refused_by_name() {
        for (from, to, name) in [
            ("\"id\":2", "\"id\":3", "BadServers"),
            ("\"ops\":1", "\"oops\":1", "BadJson"),
        ] {
            let fault = Settings::of(&LINE.replace(from, to)).unwrap_err();
            assert!(fault.to_string().starts_with(name), "{fault}");
        }
    }

    #[test]
    fn even_bounds_rise() {
        for ranges in [1, 2, 8, 26, 27, 676] {
            let bounds = even_bounds(ranges);
            assert_eq!(bounds.len(), usize::from(ranges));
            assert!(bounds.windows(2).all(|it| it[0] < it[1]));
        }
    }
}
