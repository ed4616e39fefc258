//! The content of INFO.
use super::talk::REDIS_VERSION;
use crate::cluster::Cluster;
use crate::metric::{self, Section};
use crate::resp::Command;
use crate::VERSION;
use std::fmt::Write;

/// A section of INFO: its name, and its lines.
type NamedSection = (&'static str, fn(&Cluster) -> String);

const SECTIONS: [NamedSection; 8] = [
    ("Server", server),
    ("Clients", clients),
    ("Memory", memory),
    ("Persistence", persistence),
    ("Stats", stats),
    ("Cluster", cluster),
    ("Keyspace", keyspace),
    ("Durkenzo", durkenzo),
];

/// Returns the sections that the command names, or all if it names none.
pub fn told(command: Command<'_>, cluster: &Cluster) -> String {
    let names = command.from(1);
    let is_all = ["all", "default", "everything"];
    let is_asked = |section: &str| {
        names.is_empty()
            || (0..names.len())
                .any(|it| names.is(it, section) || is_all.iter().any(|all| names.is(it, all)))
    };
    // An empty section would say that there are no keys.
    let is_known = |section: &str| section != "Keyspace" || cluster.storage.has_counts();
    let sections = SECTIONS
        .iter()
        .filter(|it| is_asked(it.0) && is_known(it.0));
    let told: Vec<_> = sections
        .map(|(name, lines)| format!("# {name}\r\n{}", lines(cluster)))
        .collect();
    told.join("\r\n")
}

/// Returns the numbers of a section, each with its name there. A number that this process doesn't have is left out.
fn numbers(cluster: &Cluster, section: Section) -> impl Iterator<Item = (&'static str, u64)> + '_ {
    metric::all().filter_map(move |it| Some((it.name_in(section)?, it.value(cluster)?)))
}

/// Returns a line for each number of the section.
fn told_numbers(cluster: &Cluster, section: Section) -> String {
    numbers(cluster, section).fold(String::new(), |text, (name, value)| {
        text + &lines([(name, value.to_string())])
    })
}

/// Returns a line for each name and its value.
fn lines<const N: usize>(values: [(&str, String); N]) -> String {
    values
        .iter()
        .fold(String::new(), |mut text, (name, value)| {
            // Writing to a string never fails.
            let _ = write!(text, "{name}:{value}\r\n");
            text
        })
}

fn server(cluster: &Cluster) -> String {
    let days = cluster.started.elapsed().as_secs() / 86_400;
    let process = lines([
        ("redis_version", REDIS_VERSION.to_owned()),
        ("durkenzo_version", VERSION.to_owned()),
        ("redis_mode", "standalone".to_owned()),
        ("os", std::env::consts::OS.to_owned()),
        ("arch_bits", usize::BITS.to_string()),
        ("process_id", std::process::id().to_string()),
    ]);
    let rest = lines([
        ("uptime_in_days", days.to_string()),
        ("io_threads_active", cluster.inlets().len().to_string()),
    ]);
    process + &told_numbers(cluster, Section::Server) + &rest
}

fn clients(cluster: &Cluster) -> String {
    let most = cluster.configuration.most_clients.to_string();
    told_numbers(cluster, Section::Clients) + &lines([("maxclients", most)])
}

/// Amounts of memory are also written for people to read.
fn memory(cluster: &Cluster) -> String {
    let human = |bytes: u64| format!("{:.2}M", bytes as f64 / 1_048_576.0);
    let told = numbers(cluster, Section::Memory).fold(String::new(), |text, (name, bytes)| {
        let for_people = format!("{name}_human:{}\r\n", human(bytes));
        text + &lines([(name, bytes.to_string())]) + &for_people
    });
    told + &lines([("maxmemory_policy", "noeviction".to_owned())])
}

fn persistence(cluster: &Cluster) -> String {
    let store = lines([
        ("loading", "0".to_owned()),
        ("aof_enabled", "0".to_owned()),
        ("storage", cluster.storage.description().to_owned()),
    ]);
    store + &told_numbers(cluster, Section::Persistence)
}

fn stats(cluster: &Cluster) -> String {
    told_numbers(cluster, Section::Stats)
}

fn cluster(cluster: &Cluster) -> String {
    // This is about Redis' cluster mode, for which clients ask: to them this is a single server.
    let told = lines([("cluster_enabled", "0".to_owned())]);
    let Some(peers) = cluster.storage.peers() else {
        return told;
    };
    let member = peers.member();
    let own = lines([
        ("server", member.server().to_string()),
        ("process", member.process().to_string()),
        ("leader", peers.leader().unwrap_or(0).to_string()),
    ]);
    told + &own + &told_numbers(cluster, Section::Cluster)
}

fn keyspace(cluster: &Cluster) -> String {
    match cluster.storage.all_keys() {
        None | Some(0) => String::new(),
        Some(keys) => lines([("db0", format!("keys={keys},expires=0,avg_ttl=0"))]),
    }
}

fn durkenzo(cluster: &Cluster) -> String {
    let configuration = &cluster.configuration;
    lines([
        ("servers", cluster.presence.servers().to_string()),
        ("shards", cluster.shards().to_string()),
        ("keys_by", configuration.rule.name().to_owned()),
        ("restarts_at_once", cluster.presence.restarts().to_string()),
        ("wait_ms", configuration.wait.as_millis().to_string()),
        (
            "library_is_proved",
            u8::from(durkenzo::IS_PROVED).to_string(),
        ),
        ("limits", configuration.limits().to_owned()),
    ])
}
