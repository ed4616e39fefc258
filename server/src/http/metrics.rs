use crate::cluster::Cluster;
use crate::error_names::error_names;
use crate::metric::{self, is_leased, Metric, Source};
use crate::snapshot::Snapshot;
use crate::stats::LATENCY_BOUNDS;
use durkenzo_store::{StoreCounts, TRANSACTION_BOUNDS};
use prometheus::{Encoder, IntCounterVec, IntGaugeVec, Opts, Registry, TextEncoder};

const LATENCY: &str =
    "Seconds from when commands were there to be read, or began to wait, until they were answered";

const TRANSACTIONS: &str = "Seconds from when transactions went to the store until it answered";

/// Returns the state of the server, in Prometheus' text format.
pub(super) fn text(cluster: &Cluster, snapshot: &Snapshot) -> prometheus::Result<Vec<u8>> {
    let registry = Registry::new_custom(Some("durkenzo".into()), None)?;
    for metric in metric::all() {
        told(&registry, metric, cluster)?;
    }
    servers(&registry, cluster, snapshot)?;
    by_name(&registry, cluster)?;
    peers(&registry, cluster)?;
    shards(&registry, snapshot)?;
    let mut text = Vec::new();
    TextEncoder::new().encode(&registry.gather(), &mut text)?;
    text.extend_from_slice(latencies(cluster).as_bytes());
    text.extend_from_slice(transactions(cluster).as_bytes());
    Ok(text)
}

/// Adds a number of the table, for each thread if each thread has it. A number that this process doesn't have is left
/// out.
fn told(registry: &Registry, metric: &Metric, cluster: &Cluster) -> prometheus::Result<()> {
    let Source::Thread(of) = metric.source else {
        if let Some(value) = metric.value(cluster) {
            Family::new(registry, &metric.family(), metric.help, &[])?.set(&[], value);
        }
        return Ok(());
    };
    let threads = Family::new(registry, &metric.family(), metric.help, &["thread"])?;
    for (thread, inlet) in cluster.inlets().iter().enumerate() {
        threads.set(&[&thread.to_string()], of(inlet.stats()));
    }
    Ok(())
}

/// Returns how long commands took.
fn latencies(cluster: &Cluster) -> String {
    let (mut counts, mut sum) = ([0; LATENCY_BOUNDS.len() + 1], 0);
    for inlet in cluster.inlets() {
        let latency = &inlet.stats().latency;
        let both = counts.iter_mut().zip(latency.counts());
        both.for_each(|(all, it)| *all += it);
        sum += latency.sum();
    }
    histogram(
        "durkenzo_command_seconds",
        LATENCY,
        &LATENCY_BOUNDS,
        &counts,
        sum,
    )
}

/// Returns how long transactions took, if there is a store.
fn transactions(cluster: &Cluster) -> String {
    let told = |it: &StoreCounts| {
        let (name, times) = ("durkenzo_transaction_seconds", it.times());
        histogram(name, TRANSACTIONS, &TRANSACTION_BOUNDS, &times, it.micros())
    };
    cluster.storage.counts().map(told).unwrap_or_default()
}

/// Writes times as a histogram: how many are at most each of these bounds of microseconds, and last how many are
/// longer.
fn histogram(name: &str, help: &str, bounds: &[u64], counts: &[u64], micros: u64) -> String {
    let mut text = format!("# HELP {name} {help}\n# TYPE {name} histogram\n");
    let bounds = bounds.iter().map(|it| (*it as f64 / 1e6).to_string());
    let mut total = 0;
    for (bound, count) in bounds.chain(["+Inf".to_owned()]).zip(counts) {
        total += count;
        text += &format!("{name}_bucket{{le=\"{bound}\"}} {total}\n");
    }
    text + &format!("{name}_sum {}\n{name}_count {total}\n", micros as f64 / 1e6)
}

/// Adds the numbers that are counted by name.
fn by_name(registry: &Registry, cluster: &Cluster) -> prometheus::Result<()> {
    let help = "Errors by which clients were answered";
    let errors = Family::new(registry, "errors_total", help, &["name"])?;
    // Each name is there from the start, because otherwise the first error of a name would be no increase.
    error_names().for_each(|it| errors.set(&[it], 0));
    for inlet in cluster.inlets() {
        for (name, count) in inlet.stats().errors() {
            errors.set(&[&name], count);
        }
    }
    let help = "Changes of shards and steps of restarts that this process made";
    let changes = Family::new(registry, "changes_total", help, &["change"])?;
    for (word, count) in cluster.changes_made.counts() {
        changes.set(&[word], count);
    }
    if let Some(counts) = cluster.storage.counts() {
        let help = "Transactions of this process by what became of them";
        let sent = Family::new(registry, "transactions_total", help, &["outcome"])?;
        for (outcome, count) in counts.outcomes() {
            sent.set(&[outcome], count);
        }
        let help = "Compactions of the store's history that this process asked for";
        let compactions = Family::new(registry, "compactions_total", help, &["outcome"])?;
        for (outcome, count) in counts.compactions() {
            compactions.set(&[outcome], count);
        }
    }
    Ok(())
}

/// Adds the servers that are there and that this process has asked. Without a lease it doesn't know who is there.
fn peers(registry: &Registry, cluster: &Cluster) -> prometheus::Result<()> {
    let Some(peers) = cluster.storage.peers().filter(|it| is_leased(it)) else {
        return Ok(());
    };
    let family = |name, help| Family::new(registry, name, help, &["server"]);
    let help = "Whether this process reaches the server, which has its lease";
    let reached = family("peer_reached", help)?;
    let help = "How long the server's process took to greet this one when it was last reached";
    let round_trip = family("peer_round_trip_microseconds", help)?;
    for (server, status) in peers.statuses() {
        let server = server.to_string();
        reached.set(&[&server], u64::from(status.is_reached));
        if let Some(time) = status.round_trip {
            round_trip.set(&[&server], time.as_micros() as u64);
        }
    }
    Ok(())
}

fn servers(registry: &Registry, cluster: &Cluster, snapshot: &Snapshot) -> prometheus::Result<()> {
    let (help, labels) = (
        "Commands with keys by the server that did them",
        ["server", "answer"],
    );
    let requests = Family::new(registry, "requests_total", help, &labels)?;
    let family = |name, help| Family::new(registry, name, help, &["server"]);
    let admissions = family("admissions_total", "Admissions of the server to shards")?;
    let owned = family("owned_shards", "Shards that the server owns")?;
    let up = family("up", "Whether requests reach the server")?;
    for row in &snapshot.servers {
        let server = row.server.to_string();
        owned.set(&[&server], row.shards as u64);
        let is_away = matches!(row.standing, "stopped" | "failed");
        up.set(&[&server], u64::from(!is_away));
        // A family without a number is left out.
        let Some(count) = row.admissions else {
            continue;
        };
        admissions.set(&[&server], count);
        for inlet in cluster.inlets() {
            let of = &inlet.stats().servers[usize::from(row.server) - 1];
            requests.set(&[&server, "error"], of.errors.get());
            requests.set(&[&server, "done"], of.done.get());
        }
    }
    Ok(())
}

fn shards(registry: &Registry, snapshot: &Snapshot) -> prometheus::Result<()> {
    let family = |name, help| Family::new(registry, name, help, &["shard"]);
    let keys = family("keys", "Keys of the shard that hold something")?;
    let generation = family("generation", "Steps of the shard's history")?;
    let owner = family("owner", "The server that owns the shard, or 0")?;
    let labels = ["shard", "stand"];
    let stand = Family::new(registry, "stand", "1 for the shard's stand", &labels)?;
    for row in &snapshot.shards {
        let shard = row.shard.to_string();
        if let Some(count) = row.keys {
            keys.set(&[&shard], count);
        }
        generation.set(&[&shard], row.generation);
        owner.set(&[&shard], row.owner.into());
        stand.set(&[&shard, row.stand], 1);
    }
    Ok(())
}

/// Numbers with the same name: counters if the name ends in `_total`, otherwise gauges.
enum Family {
    Counters(IntCounterVec),
    Gauges(IntGaugeVec),
}

impl Family {
    fn new(
        registry: &Registry,
        name: &str,
        help: &str,
        labels: &[&str],
    ) -> prometheus::Result<Family> {
        let opts = Opts::new(name, help);
        if name.ends_with("_total") {
            let counters = IntCounterVec::new(opts, labels)?;
            registry.register(Box::new(counters.clone()))?;
            Ok(Family::Counters(counters))
        } else {
            let gauges = IntGaugeVec::new(opts, labels)?;
            registry.register(Box::new(gauges.clone()))?;
            Ok(Family::Gauges(gauges))
        }
    }

    /// Sets the number with these labels. If it is a counter, adds to it.
    fn set(&self, labels: &[&str], value: u64) {
        match self {
            Family::Counters(counters) => counters.with_label_values(labels).inc_by(value),
            Family::Gauges(gauges) => {
                let value = i64::try_from(value).unwrap_or(i64::MAX);
                gauges.with_label_values(labels).set(value);
            }
        }
    }
}
