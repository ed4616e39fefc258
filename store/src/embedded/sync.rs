use std::str::FromStr;

/// When a transaction whose outcome was told is on the disk.
#[derive(Clone, Copy, Debug, Default, PartialEq, Eq)]
pub enum Sync {
    /// Before its outcome is told.
    #[default]
    Always,
    /// Within about a second. If the machine stops, or a sync fails, the transactions of about the last second may be
    /// lost. None is lost if only the process stops. If a sync fails, the store ends, and must be opened again.
    Second,
    /// When the system writes it. Nothing is lost if only the process stops.
    No,
}

impl FromStr for Sync {
    type Err = String;

    fn from_str(word: &str) -> Result<Sync, String> {
        match word {
            "always" => Ok(Sync::Always),
            "second" => Ok(Sync::Second),
            "no" => Ok(Sync::No),
            other => Err(format!("{other} is none of always, second, no")),
        }
    }
}
