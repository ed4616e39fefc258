use super::members::{DomainRow, GroupRow, ServerRow, SettingsMembers, ShardRow};
use crate::configuration::Configuration;
use crate::keyspace::Rule;
use std::collections::BTreeSet;

/// The capacity of a server if the settings don't say it.
const MUCH: u32 = u32::MAX;
/// The most requests that a shard keeps without a checkpoint. Stores bound them by bases.
const MOST_KEPT: u32 = 1 << 20;
/// The most of a group's shards.
const ALL: u16 = 4_096;
/// The most servers, so that no more may be away.
const ALL_SERVERS: u16 = 4_095;

/// Returns the line of settings from which the library opens a board and makes a store's law: that of the file, or one
/// that says the same as the options.
pub fn line(configuration: &Configuration) -> String {
    match &configuration.settings {
        Some(line) => line.to_string(),
        // Its keys are words, so this can't fail.
        None => serde_json::to_string(&SettingsMembers::of(configuration)).unwrap_or_default(),
    }
}

impl SettingsMembers {
    /// Makes the members that say the same as the options: one server of each domain may be away, and nothing else
    /// constrains shards.
    fn of(configuration: &Configuration) -> SettingsMembers {
        let domains = &configuration.domains;
        let server = |id| ServerRow {
            capacity: MUCH,
            domain: domains.domain_of(id),
            id,
        };
        let servers: Vec<_> = (1..=configuration.servers).map(server).collect();
        let numbers: BTreeSet<_> = servers.iter().map(|it| it.domain).collect();
        let domain = |domain| DomainRow { domain, down: 1 };
        let shard = ShardRow {
            cap: 1,
            group: 0,
            load: 1,
        };
        SettingsMembers {
            bounds: bounds(&configuration.rule),
            ceiling: configuration.ceiling,
            domains: numbers.into_iter().map(domain).collect(),
            groups: vec![GroupRow {
                down: ALL,
                limit: ALL,
            }],
            kept: MOST_KEPT,
            ops: configuration.restarts.min(ALL_SERVERS),
            servers,
            shards: vec![shard; configuration.rule.shards().into()],
            version: 2,
            workers: 1,
        }
    }
}

/// Returns the bounds of the rule's shards.
fn bounds(rule: &Rule) -> Vec<String> {
    match rule {
        Rule::Bounds(bounds) => {
            let texts = bounds.iter().map(|it| String::from_utf8_lossy(it));
            texts.map(|it| it.into_owned()).collect()
        }
        // If keys go by hash, bounds only count shards.
        Rule::Hash(shards) => {
            let above = (1..*shards).map(|it| format!("{it:05}"));
            std::iter::once(String::new()).chain(above).collect()
        }
    }
}

#[cfg(test)]
mod tests {
    use super::*;
    use crate::domains::Domains;
    use durkenzo::Board;

    fn configuration() -> Configuration {
        Configuration {
            servers: 3,
            domains: Domains::in_turn(2, 3),
            ..Configuration::new(Rule::Hash(2))
        }
    }

    #[test]
    fn stores_of_earlier_versions_are_of_the_same_bytes() {
        assert_eq!(
            line(&configuration()),
            r#"{"bounds":["","00001"],"ceiling":68719476735,"#.to_owned()
                + r#""domains":[{"domain":0,"down":1},{"domain":1,"down":1}],"#
                + r#""groups":[{"down":4096,"limit":4096}],"kept":1048576,"ops":1,"#
                + r#""servers":[{"capacity":4294967295,"domain":0,"id":1},"#
                + r#"{"capacity":4294967295,"domain":1,"id":2},{"capacity":4294967295,"domain":0,"id":3}],"#
                + r#""shards":[{"cap":1,"group":0,"load":1},{"cap":1,"group":0,"load":1}],"version":2,"workers":1}"#
        );
    }

    #[test]
    fn the_library_takes_the_line_of_any_options() {
        let bounds = ["", "\"\\\u{1}é", "語"].map(|it| it.as_bytes().to_vec());
        for rule in [Rule::Hash(4_096), Rule::Bounds(bounds.to_vec())] {
            let configuration = Configuration {
                rule,
                servers: ALL_SERVERS,
                restarts: u16::MAX,
                domains: Domains::in_turn(ALL_SERVERS, ALL_SERVERS),
                ..configuration()
            };
            let shards = usize::from(configuration.rule.shards());
            let bodies = vec![(); shards];
            let (_, layout) = Board::by_settings(line(&configuration), bodies).unwrap();
            assert_eq!(layout.count(), shards);
        }
    }
}
