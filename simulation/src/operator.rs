//! Random commands of a cluster's operators.
use crate::chance::Chance;

/// Returns a random command for a cluster with these numbers of shards and servers.
pub fn asked(chance: &mut Chance, shards: u16, servers: u16) -> Vec<String> {
    let shard = chance.below(u64::from(shards)).to_string();
    let server = (1 + chance.below(u64::from(servers))).to_string();
    let (shard, server) = (shard.as_str(), server.as_str());
    let words: &[&str] = match chance.below(20) {
        0..=5 => &["MIGRATE", shard, server],
        6..=8 => &["RESTART", server],
        9 | 10 => &["DRAIN", server],
        11 | 12 => &["SPREAD"],
        13 => &["FAIL", server],
        14 => &["PAUSE", shard],
        15 => &["RESUME", shard],
        16 => &["BACK", server],
        17 => &["REASSIGN", shard, server],
        18 => &["CANCEL", shard],
        _ => &["PLACE"],
    };
    let words = ["SM"].iter().chain(words);
    words.map(|it| (*it).to_owned()).collect()
}
