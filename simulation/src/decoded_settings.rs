use std::collections::BTreeMap;

/// The settings in the store, as far as the simulator writes them.
#[derive(Clone, Debug, PartialEq, Eq)]
pub struct DecodedSettings {
    /// How many servers may be away at once.
    pub ops: u64,
    /// The capacity of each server.
    pub capacities: BTreeMap<u64, u64>,
}

impl DecodedSettings {
    /// Reads the settings from these bytes. Returns `None` if the bytes aren't settings.
    pub fn of(bytes: &[u8]) -> Option<DecodedSettings> {
        let text = std::str::from_utf8(bytes).ok()?;
        let rows = text.split("{\"id\":").skip(1);
        let capacities = rows.map(|it| Some((number(it)?, number_behind(it, "\"capacity\":")?)));
        Some(DecodedSettings {
            ops: number_behind(text, "\"ops\":")?,
            capacities: capacities.collect::<Option<_>>()?,
        })
    }
}

/// Returns the number that follows the first occurrence of this name.
fn number_behind(text: &str, name: &str) -> Option<u64> {
    number(text.split_once(name)?.1)
}

/// Returns the number at the beginning of the text.
fn number(text: &str) -> Option<u64> {
    let end = text.find(|it: char| !it.is_ascii_digit())?;
    text[..end].parse().ok()
}

#[cfg(test)]
mod tests {
    use super::*;
    use crate::command::settings_of;

    #[test]
    fn settings_of_the_simulator_are_read() {
        let read = DecodedSettings::of(settings_of(4, 7, 3, 2).as_bytes());
        let capacities = [(1, 7), (2, 7), (3, 7)].into();
        assert_eq!(read, Some(DecodedSettings { ops: 2, capacities }));
        assert_eq!(DecodedSettings::of(b"{}"), None);
    }
}
