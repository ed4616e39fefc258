//! The numbers that a process reports. `/metrics` and INFO both go through [`all`].
use crate::cluster::Cluster;
use crate::log;
use crate::memory::{resident, used, CEILING};
use crate::stats::{Stats, OF_THREADS};
use crate::works::Peers;
use durkenzo_driver::Durable;
use durkenzo_store::StoreCounts;
use std::sync::atomic::Ordering;
use std::time::Instant;

/// A number that a process reports: its name, and its source.
#[derive(Debug)]
pub struct Metric {
    /// The number's name in INFO. `/metrics` adds `durkenzo_`, and `_total` to a counter.
    pub name: &'static str,
    /// The meaning of the number.
    pub help: &'static str,
    /// How the number changes.
    pub kind: MetricKind,
    /// The number's place in INFO.
    pub info: Info,
    /// The number's source.
    pub source: Source,
}

/// How a number changes.
#[derive(Clone, Copy, Debug, PartialEq, Eq)]
pub enum MetricKind {
    /// It only grows while the process runs.
    Counter,
    /// It rises and falls.
    Gauge,
}

/// The place of a number in INFO.
#[derive(Clone, Copy, Debug, PartialEq, Eq)]
pub enum Info {
    /// In this section, by the metric's name.
    Own(Section),
    /// In this section, by the name that Redis has for it.
    Redis(Section, &'static str),
    /// Nowhere, for this reason.
    Absent(&'static str),
}

/// A section of INFO that has numbers of the table.
#[derive(Clone, Copy, Debug, PartialEq, Eq)]
pub enum Section {
    /// The process.
    Server,
    /// The connected clients.
    Clients,
    /// Bytes of memory, which are also written for people to read.
    Memory,
    /// The data in the store.
    Persistence,
    /// The work of the threads.
    Stats,
    /// This process and the others of its cluster.
    Cluster,
}

/// The source of a number.
#[derive(Debug)]
pub enum Source {
    /// Each thread has one. INFO reports their sum.
    Thread(fn(&Stats) -> u64),
    /// The process has one.
    Process(fn(&Cluster) -> u64),
    /// A process with a store has one.
    Store(fn(&Durable) -> u64),
    /// A process with a store has one, about its own transactions.
    Sent(fn(&StoreCounts) -> u64),
    /// A process of a cluster has one.
    Peers(fn(&Peers) -> u64),
}

impl Metric {
    /// Makes the row of a number that only grows.
    pub const fn counter(
        name: &'static str,
        help: &'static str,
        info: Info,
        source: Source,
    ) -> Metric {
        let kind = MetricKind::Counter;
        Metric {
            name,
            help,
            kind,
            info,
            source,
        }
    }

    /// Makes the row of a number that rises and falls.
    pub const fn gauge(
        name: &'static str,
        help: &'static str,
        info: Info,
        source: Source,
    ) -> Metric {
        let kind = MetricKind::Gauge;
        Metric {
            name,
            help,
            kind,
            info,
            source,
        }
    }

    /// Returns its name on `/metrics`, without `durkenzo_`.
    pub fn family(&self) -> String {
        match self.kind {
            MetricKind::Counter => format!("{}_total", self.name),
            MetricKind::Gauge => self.name.to_owned(),
        }
    }

    /// Returns its name in this section of INFO, or `None` if that section doesn't have it.
    pub fn name_in(&self, section: Section) -> Option<&'static str> {
        match self.info {
            Info::Own(found) if found == section => Some(self.name),
            Info::Redis(found, name) if found == section => Some(name),
            Info::Own(_) | Info::Redis(..) | Info::Absent(_) => None,
        }
    }

    /// Reads it, with the sum of all threads. Returns `None` if this process doesn't have the number.
    pub fn value(&self, cluster: &Cluster) -> Option<u64> {
        match self.source {
            Source::Thread(of) => Some(cluster.inlets().iter().map(|it| of(it.stats())).sum()),
            Source::Process(of) => Some(of(cluster)),
            Source::Store(of) => cluster.storage.durable().map(|it| of(it)),
            Source::Sent(of) => cluster.storage.counts().map(of),
            Source::Peers(of) => cluster.storage.peers().map(|it| of(it)),
        }
    }
}

/// Returns all rows, each section's in INFO's order.
pub fn all() -> impl Iterator<Item = &'static Metric> {
    OF_THREADS.iter().chain(&OF_PROCESSES)
}

const OF_LEADER: Info = Info::Absent("INFO names the server whose process leads");
const KEPT: &str =
    "Processes whose last requests shards may keep: there is room for 16 whose rounds were full";
const CLIENTS: &str =
    "Clients whose last request is kept, at the shard that keeps most: 131072 are a full one";

/// Returns whether the process has a lease by its clock. Without a lease it knows nothing of the others, because its
/// knowledge may be out of date.
pub(crate) fn is_leased(peers: &Peers) -> bool {
    peers.member().lease_left().is_some()
}

/// The numbers that a process has once.
static OF_PROCESSES: [Metric; 27] = [
    Metric::gauge(
        "uptime_seconds",
        "Seconds since the start",
        Info::Redis(Section::Server, "uptime_in_seconds"),
        Source::Process(|it| it.started.elapsed().as_secs()),
    ),
    Metric::counter(
        "log_lines_dropped",
        "Lines that are missing in the log, because nobody read it",
        Info::Own(Section::Server),
        Source::Process(|_| log::dropped()),
    ),
    Metric::gauge(
        "memory_used_bytes",
        "Memory that is in use",
        Info::Redis(Section::Memory, "used_memory"),
        Source::Process(|_| used()),
    ),
    Metric::gauge(
        "memory_bytes",
        "Memory of the process",
        Info::Redis(Section::Memory, "used_memory_rss"),
        Source::Process(|_| resident()),
    ),
    Metric::gauge(
        "memory_max_bytes",
        "--max-memory, or 0",
        Info::Redis(Section::Memory, "maxmemory"),
        Source::Process(|_| CEILING.most()),
    ),
    Metric::gauge(
        "clients_kept",
        CLIENTS,
        Info::Own(Section::Persistence),
        Source::Store(|it| it.clients_kept() as u64),
    ),
    Metric::gauge(
        "store_silent_seconds",
        "Seconds since the store answered anything",
        Info::Own(Section::Persistence),
        Source::Sent(|it| it.silence(Instant::now()).as_secs()),
    ),
    Metric::gauge(
        "store_full",
        "Whether the store had no room for the last write that it judged",
        Info::Own(Section::Persistence),
        Source::Sent(|it| u64::from(it.is_full())),
    ),
    Metric::counter(
        "store_written_bytes",
        "Bytes of keys and values that transactions wrote",
        Info::Own(Section::Persistence),
        Source::Sent(StoreCounts::bytes_written),
    ),
    Metric::gauge(
        "store_file_bytes",
        "Bytes of etcd's file, as this process read them last while it led, or 0",
        Info::Own(Section::Persistence),
        Source::Sent(|it| it.size().file),
    ),
    Metric::gauge(
        "store_used_bytes",
        "Bytes of that file that hold something, old revisions among them",
        Info::Own(Section::Persistence),
        Source::Sent(|it| it.size().used),
    ),
    Metric::gauge(
        "store_quota_bytes",
        "The most bytes of that file, or 0 if etcd doesn't tell",
        Info::Own(Section::Persistence),
        Source::Sent(|it| it.size().quota.unwrap_or(0)),
    ),
    Metric::gauge(
        "shards_unread",
        "Shards that this process was to read last and couldn't, so that what comes to them waits",
        Info::Own(Section::Persistence),
        Source::Store(|it| it.unread_count() as u64),
    ),
    Metric::gauge(
        "lease_kept",
        "Whether this process has a lease that hasn't ended by its clock",
        Info::Own(Section::Cluster),
        Source::Peers(|it| u64::from(is_leased(it))),
    ),
    Metric::gauge(
        "lease_left_milliseconds",
        "How much time is left of this process's lease, as it was kept last",
        Info::Own(Section::Cluster),
        Source::Peers(|it| {
            it.member()
                .lease_left()
                .map_or(0, |it| it.as_millis() as u64)
        }),
    ),
    Metric::gauge(
        "leads",
        "Whether this process leads, and its lease is kept",
        OF_LEADER,
        Source::Peers(|it| u64::from(is_leased(it) && it.leader() == Some(it.member().server()))),
    ),
    Metric::gauge(
        "led",
        "Whether this process sees one that leads, while its own lease is kept",
        OF_LEADER,
        Source::Peers(|it| u64::from(is_leased(it) && it.leader().is_some())),
    ),
    Metric::gauge(
        "servers_there",
        "Servers whose process this one sees, while its own lease is kept",
        Info::Own(Section::Cluster),
        Source::Peers(|it| match is_leased(it) {
            true => it.member().members().len() as u64,
            false => 0,
        }),
    ),
    Metric::gauge(
        "processes_reached",
        "Processes that this one has reached",
        Info::Own(Section::Cluster),
        Source::Peers(|it| it.connections().0 as u64),
    ),
    Metric::gauge(
        "processes_answered",
        "Processes that reached this one",
        Info::Own(Section::Cluster),
        Source::Peers(|it| it.connections().1 as u64),
    ),
    Metric::gauge(
        "processes_kept",
        KEPT,
        Info::Own(Section::Cluster),
        Source::Peers(|it| it.member().processes_kept()),
    ),
    Metric::counter(
        "balance_moves",
        "Shards that this process, while it led, began to move to even out servers",
        Info::Own(Section::Cluster),
        Source::Process(|it| it.balance_moves.load(Ordering::Relaxed)),
    ),
    Metric::counter(
        "works_sent",
        "Works that went to other processes",
        Info::Own(Section::Cluster),
        Source::Peers(|it| it.counts().sent()),
    ),
    Metric::counter(
        "works_came",
        "Works that came from other processes",
        Info::Own(Section::Cluster),
        Source::Peers(|it| it.counts().came()),
    ),
    Metric::counter(
        "works_again",
        "Works that came back and went on here",
        Info::Own(Section::Cluster),
        Source::Peers(|it| it.counts().again()),
    ),
    Metric::counter(
        "works_refused",
        "Works for which a process couldn't be asked",
        Info::Own(Section::Cluster),
        Source::Peers(|it| it.counts().refused()),
    ),
    Metric::counter(
        "reads_by_lease",
        "Reads that a lease answered, without a transaction",
        Info::Own(Section::Cluster),
        Source::Store(Durable::read_by_lease),
    ),
];

#[cfg(test)]
mod tests {
    use super::*;
    use std::collections::BTreeSet;

    #[test]
    fn each_number_has_one_name_and_is_told_in_both_places() {
        let (mut families, mut lines) = (BTreeSet::new(), BTreeSet::new());
        for metric in all() {
            let name = metric.name;
            assert!(families.insert(metric.family()), "{name} is there twice");
            assert!(
                !name.ends_with("_total") && !metric.help.is_empty(),
                "{name}"
            );
            let line = match metric.info {
                Info::Own(_) => name,
                Info::Redis(_, redis) => redis,
                Info::Absent(why) => {
                    assert!(!why.is_empty(), "{name} says why INFO hasn't it");
                    continue;
                }
            };
            assert!(lines.insert(line), "INFO has {line} twice");
        }
    }
}
