//! Checks that a process that opens a store has the settings with which it was written.
use super::line;
use super::members::ReadMembers;
use crate::configuration::Configuration;
use crate::run::BoxError;
use durkenzo_driver::{keys, split_settings};
use durkenzo_store::{Outcome, ReadError, Revision, Store, Transaction};
use std::fmt;

/// Writes the settings if the store has none, and returns those in the store.
///
/// # Errors
///
/// If the store has other settings, with the alternatives; or if it can't be read or written.
pub fn agree(
    store: &dyn Store,
    place: &str,
    otherwise: &str,
    configuration: &Configuration,
) -> Result<String, BoxError> {
    let (found, wanted) = found_and_wanted(store, configuration)?;
    match found == wanted {
        true => Ok(wanted),
        false => Err(other_settings(place, otherwise, &found, &wanted).into()),
    }
}

/// Writes the settings if the store of several processes has none. Returns those in force there, which may have changed
/// since: servers and their capacities, domains and caps.
///
/// # Errors
///
/// If the store has other shards, or another ceiling, with the alternatives; or if it can't be read or written.
pub fn agree_in_force(
    store: &dyn Store,
    place: &str,
    otherwise: &str,
    configuration: &Configuration,
) -> Result<String, BoxError> {
    let (found, wanted) = found_and_wanted(store, configuration)?;
    let (there, here) = (Outline::of(&found), Outline::of(&wanted));
    if !there.lasts_as(&here) {
        return Err(other_settings(place, otherwise, &found, &wanted).into());
    }
    if found != wanted {
        let advice = "SM RESIZE and SM CONFIGURE change them";
        tracing::info!("the settings in force have {there}, and this start says {here}: {advice}");
    }
    Ok(found)
}

/// Returns whether the store has settings already.
///
/// # Errors
///
/// If it can't be read.
pub fn has_settings(store: &dyn Store) -> Result<bool, ReadError> {
    let found = store.read(&[keys::SETTINGS])?;
    Ok(found.get(keys::SETTINGS).is_some())
}

/// Writes the settings if there are none yet. Returns the store's settings, and those of this start.
fn found_and_wanted(
    store: &dyn Store,
    configuration: &Configuration,
) -> Result<(String, String), BoxError> {
    let wanted = written_settings(configuration);
    Ok((settle(store, &wanted)?, wanted))
}

/// Writes the settings if there are none yet, and returns the store's settings.
fn settle(store: &dyn Store, wanted: &str) -> Result<String, BoxError> {
    let first = Transaction::new()
        .compare(keys::SETTINGS, Revision::NEVER)
        .put(keys::SETTINGS, wanted)
        .or_read(keys::SETTINGS);
    match store.make(first)? {
        Outcome::Made(_) => Ok(wanted.to_owned()),
        Outcome::Lost(reading) => {
            let pair = reading.pairs.into_iter().next();
            Ok(String::from_utf8(
                pair.map_or_else(Vec::new, |it| it.value),
            )?)
        }
    }
}

/// Returns the settings as they lie in the store: the rule for keys, and the line.
fn written_settings(configuration: &Configuration) -> String {
    format!("{}\n{}", configuration.rule.name(), line(configuration))
}

/// Returns the fault that the store has other settings, how they differ, and the advice.
fn other_settings(place: &str, otherwise: &str, found: &str, wanted: &str) -> String {
    let (found, wanted) = (Outline::of(found), Outline::of(wanted));
    let advice = format!("start with what it was made with, or {otherwise}");
    format!("OTHERSETTINGS {place} was made with {found}, and this start says {wanted}: {advice}")
}

/// The parts of settings that people recognize.
#[derive(Debug)]
struct Outline<'a> {
    rule: &'a str,
    members: ReadMembers,
}

impl Outline<'_> {
    fn of(written: &str) -> Outline<'_> {
        let (rule, line) = split_settings(written);
        let members = ReadMembers::of(line).unwrap_or_default();
        Outline { rule, members }
    }

    /// Returns whether everything that no new settings can change is the same in both: the rule for keys, and the
    /// greatest generation.
    fn lasts_as(&self, other: &Outline<'_>) -> bool {
        let lasts = |it: &Outline<'_>| (it.members.bounds.clone(), it.members.ceiling);
        self.rule == other.rule && lasts(self) == lasts(other)
    }
}

impl fmt::Display for Outline<'_> {
    fn fmt(&self, f: &mut fmt::Formatter<'_>) -> fmt::Result {
        let (rule, members) = (self.rule, &self.members);
        let (shards, servers) = (members.bounds.len(), members.servers.len());
        let (domains, restarts) = (members.domain_count(), members.ops);
        write!(
            f,
            "{shards} shards by {rule}, {servers} servers in {domains} domains, {restarts} restarts at once"
        )
    }
}

#[cfg(test)]
mod tests {
    use super::*;
    use crate::keyspace::Rule;
    use durkenzo_store::Embedded;

    #[test]
    fn settings_of_options_are_told_again() {
        let configuration = Configuration {
            servers: 3,
            ..Configuration::new(Rule::Hash(8))
        };
        let told = Outline::of(&written_settings(&configuration)).to_string();
        assert_eq!(
            told,
            "8 shards by hash, 3 servers in 1 domains, 1 restarts at once"
        );
    }

    #[test]
    fn a_folder_is_of_the_settings_that_made_it() {
        let store = Embedded::in_memory();
        assert_eq!(settle(&store, "hash\n{}").unwrap(), "hash\n{}");
        assert_eq!(settle(&store, "ranges\n{}").unwrap(), "hash\n{}");
    }
}
