use std::fmt;
use std::str::FromStr;
use std::time::Duration;

/// How fast a leader evens out by itself how much servers have to do.
#[derive(Clone, Copy, Debug, Default, PartialEq, Eq)]
pub enum Balance {
    /// Not at all.
    Off,
    /// One shard at a time moves, at most one a second, once nothing else has changed for ten seconds.
    #[default]
    Slow,
    /// Up to eight shards move at a time, once nothing else has changed for two seconds.
    Fast,
}

impl Balance {
    /// Returns how long servers and shards must have been left alone before shards move.
    pub fn calm(self) -> Duration {
        match self {
            Balance::Off => Duration::MAX,
            Balance::Slow => Duration::from_secs(10),
            Balance::Fast => Duration::from_secs(2),
        }
    }

    /// Returns how often the leader looks whether shards must move.
    pub(super) fn pause(self) -> Duration {
        match self {
            Balance::Off => Duration::MAX,
            Balance::Slow => Duration::from_secs(1),
            Balance::Fast => Duration::from_millis(200),
        }
    }

    /// Returns how many shards move at a time.
    pub(super) fn most_at_once(self) -> usize {
        match self {
            Balance::Off => 0,
            Balance::Slow => 1,
            Balance::Fast => 8,
        }
    }
}

impl FromStr for Balance {
    type Err = String;

    fn from_str(word: &str) -> Result<Balance, String> {
        match word {
            "off" => Ok(Balance::Off),
            "slow" => Ok(Balance::Slow),
            "fast" => Ok(Balance::Fast),
            other => Err(format!("{other} is none of off, slow, fast")),
        }
    }
}

impl fmt::Display for Balance {
    fn fmt(&self, f: &mut fmt::Formatter<'_>) -> fmt::Result {
        f.write_str(match self {
            Balance::Off => "off",
            Balance::Slow => "slow",
            Balance::Fast => "fast",
        })
    }
}

#[cfg(test)]
mod tests {
    use super::*;

    #[test]
    fn each_has_its_word() {
        for it in [Balance::Off, Balance::Slow, Balance::Fast] {
            assert_eq!(it.to_string().parse(), Ok(it));
        }
        let none = "on".parse::<Balance>();
        assert_eq!(none, Err("on is none of off, slow, fast".to_owned()));
    }
}
