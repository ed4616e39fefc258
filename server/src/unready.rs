//! Whether a process is ready for clients, for `/ready`.
use crate::cluster::Cluster;
use std::fmt;

/// The most shards that are named.
const MOST_NAMED: usize = 8;

/// Why clients should go to another process for now.
#[derive(Clone, Debug, PartialEq, Eq)]
pub enum Unready {
    /// The process ends.
    Stopping,
    /// A dump is loaded, so requests reach no server.
    Loading,
    /// The store has ended, so nothing more is done.
    StoreEnded(String),
    /// The process has no lease by its clock, so others may have its shards.
    NoLease,
    /// Requests don't reach this server, because it was stopped for a restart, or has failed.
    Away(u16),
    /// The store hasn't given these shards yet, so requests for them wait.
    Unread(Vec<u16>),
}

impl Unready {
    /// Returns all reasons for which the process isn't ready now. It is ready if there are none.
    pub fn reasons(cluster: &Cluster) -> Vec<Unready> {
        let mut reasons = Vec::new();
        if cluster.is_leaving() {
            reasons.push(Unready::Stopping);
        }
        if cluster.presence.is_closed() {
            reasons.push(Unready::Loading);
        }
        if let Some(durable) = cluster.storage.durable() {
            reasons.extend(durable.ended().map(|it| Unready::StoreEnded(it.to_owned())));
            if let Some(member) = durable.member() {
                let is_leased = member.lease_left().is_some();
                reasons.extend((!is_leased).then_some(Unready::NoLease));
                let server = member.server();
                reasons.extend(durable.is_away(server).then_some(Unready::Away(server)));
            }
            let unread = durable.unread_shards();
            reasons.extend((!unread.is_empty()).then_some(Unready::Unread(unread)));
        }
        reasons
    }
}

impl fmt::Display for Unready {
    fn fmt(&self, f: &mut fmt::Formatter<'_>) -> fmt::Result {
        match self {
            Unready::Stopping => f.write_str("the process ends"),
            Unready::Loading => f.write_str("a dump is loaded"),
            Unready::StoreEnded(why) => write!(f, "the store has ended: {why}"),
            Unready::NoLease => f.write_str("the lease isn't kept: does etcd answer?"),
            Unready::Away(server) => {
                write!(f, "server {server} is away: SM SERVERS tells why")
            }
            Unready::Unread(shards) => {
                let named: Vec<_> = shards.iter().take(MOST_NAMED).map(u16::to_string).collect();
                let more = if shards.len() > MOST_NAMED {
                    ", .."
                } else {
                    ""
                };
                let named = named.join(", ");
                write!(f, "the store didn't give shards {named}{more}")
            }
        }
    }
}

#[cfg(test)]
mod tests {
    use super::*;
    use crate::configuration::Configuration;
    use crate::keyspace::Rule;

    #[test]
    fn a_process_in_memory_is_ready_until_it_loads_or_ends() {
        let cluster = Cluster::in_memory(Configuration::new(Rule::Hash(1))).unwrap();
        assert_eq!(Unready::reasons(&cluster), []);
        cluster.presence.close();
        assert_eq!(Unready::reasons(&cluster), [Unready::Loading]);
        cluster.presence.open();
        cluster.stop();
        assert_eq!(Unready::reasons(&cluster), [Unready::Stopping]);
    }

    #[test]
    fn shards_are_named_up_to_a_bound() {
        let told = Unready::Unread((0..9).collect()).to_string();
        assert_eq!(
            told,
            "the store didn't give shards 0, 1, 2, 3, 4, 5, 6, 7, .."
        );
    }
}
