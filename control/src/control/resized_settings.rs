//! Settings with more servers, or fewer.
use serde_json::{json, Value};
use std::collections::BTreeSet;

/// Returns the line of settings with so many servers. New servers have the capacity of the last one. Domains continue
/// as they were: one for each server, or in turn. Domains without servers are dropped.
///
/// Returns nothing if the line isn't one of settings, or if there would be no server.
pub(super) fn resized(line: &str, servers: u16) -> Option<String> {
    let mut settings: Value = serde_json::from_str(line).ok()?;
    let rows = settings.get_mut("servers")?.as_array_mut()?;
    let last = rows.last()?.clone();
    let (count, used) = (rows.len(), domains_of(rows)?);
    let is_own = used.len() == count;
    rows.truncate(servers.into());
    for place in count..servers.into() {
        let domain = match is_own {
            true => used.last()? + (place - count + 1) as u64,
            false => *used.iter().nth(place % used.len())?,
        };
        rows.push(json!({"id": place + 1, "domain": domain, "capacity": last.get("capacity")?}));
    }
    let used = domains_of(rows).filter(|it| !it.is_empty())?;
    if let Some(domains) = settings.get_mut("domains") {
        let there = domains.as_array_mut()?;
        let down = there.last()?.get("down")?.clone();
        there.retain(|it| it["domain"].as_u64().is_some_and(|it| used.contains(&it)));
        let named: BTreeSet<_> = there
            .iter()
            .filter_map(|it| it["domain"].as_u64())
            .collect();
        let more = used.difference(&named);
        there.extend(more.map(|it| json!({"domain": it, "down": down})));
        there.sort_by_key(|it| it["domain"].as_u64());
    }
    serde_json::to_string(&settings).ok()
}

/// Returns the domains of these servers.
fn domains_of(rows: &[Value]) -> Option<BTreeSet<u64>> {
    rows.iter().map(|it| it.get("domain")?.as_u64()).collect()
}

#[cfg(test)]
mod tests {
    use super::*;

    /// Returns the servers' numbers with their domains, and the domains that have rows.
    fn told(line: &str) -> (Vec<(u64, u64)>, Vec<u64>) {
        let settings: Value = serde_json::from_str(line).unwrap();
        let number = |it: &Value, name: &str| it[name].as_u64().unwrap();
        let rows = |name: &str| settings[name].as_array().unwrap().clone();
        let servers = rows("servers")
            .into_iter()
            .map(|it| (number(&it, "id"), number(&it, "domain")));
        let domains = rows("domains").into_iter().map(|it| number(&it, "domain"));
        (servers.collect(), domains.collect())
    }

    fn line(domains: &[u16]) -> String {
        let servers: Vec<_> = (1..)
            .zip(domains)
            .map(|(id, domain)| json!({"id": id, "domain": domain, "capacity": 7}))
            .collect();
        let used: BTreeSet<_> = domains.iter().collect();
        let rows: Vec<_> = used
            .into_iter()
            .map(|it| json!({"domain": it, "down": 2}))
            .collect();
        json!({"servers": servers, "domains": rows}).to_string()
    }

    #[test]
    fn servers_come_with_domains_as_the_others_have() {
        let own = resized(&line(&[0, 1, 2]), 5).unwrap();
        assert_eq!(told(&own).0, [(1, 0), (2, 1), (3, 2), (4, 3), (5, 4)]);
        assert_eq!(told(&own).1, [0, 1, 2, 3, 4]);
        assert!(
            own.contains(r#""capacity":7,"domain":4,"id":5"#)
                && own.contains(r#""domain":4,"down":2"#)
        );
        let in_turn = resized(&line(&[0, 1, 0]), 5).unwrap();
        assert_eq!(
            told(&in_turn),
            (vec![(1, 0), (2, 1), (3, 0), (4, 1), (5, 0)], vec![0, 1])
        );
    }

    #[test]
    fn servers_go_and_domains_with_them() {
        let fewer = resized(&line(&[0, 1, 2]), 2).unwrap();
        assert_eq!(told(&fewer), (vec![(1, 0), (2, 1)], vec![0, 1]));
        assert_eq!(resized(&fewer, 0), None);
        assert_eq!(resized("{}", 2), None);
    }
}
