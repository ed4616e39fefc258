//! The servers that the settings in force name.
use crate::configuration::Configuration;
use crate::domains::Domains;
use crate::settings::{Settings, SettingsLineFault};
use durkenzo_driver::split_settings;

/// The servers that the settings in force name.
#[derive(Clone, Debug, PartialEq, Eq)]
pub struct Membership {
    /// The number of servers, which are numbered from 1 on.
    pub servers: u16,
    /// The most servers that may be away for a restart at once.
    pub restarts: u16,
    /// The servers that fail together, by domain.
    pub domains: Domains,
}

impl Membership {
    /// Returns the membership in the settings with which the process began.
    pub fn of(configuration: &Configuration) -> Membership {
        Membership {
            servers: configuration.servers,
            restarts: configuration.restarts,
            domains: configuration.domains.clone(),
        }
    }

    /// Returns the membership in settings as they lie in a store: the rule for keys, and the line.
    ///
    /// # Errors
    ///
    /// If the line isn't one of settings whose servers are numbered from 1 without gaps.
    pub fn of_stored(settings: &[u8]) -> Result<Membership, SettingsLineFault> {
        let text = String::from_utf8_lossy(settings);
        Settings::of(split_settings(&text).1).map(|it| Membership::from(&it))
    }
}

impl From<&Settings> for Membership {
    fn from(settings: &Settings) -> Membership {
        Membership {
            servers: settings.servers(),
            restarts: settings.restarts(),
            domains: settings.domains(),
        }
    }
}
