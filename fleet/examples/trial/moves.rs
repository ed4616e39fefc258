//! Random migrations and drains, while clients call.
use crate::client::{Chance, Shared};
use durkenzo_fleet::Router;
use std::collections::BTreeMap;
use std::sync::atomic::Ordering;
use std::thread;
use std::time::Duration;

/// The longest time for a command.
const LONG: Duration = Duration::from_secs(20);
/// The number of migrations after which a server is drained, and shards are spread.
const DRAIN: u64 = 100;

/// Moves shards between this many servers until the trial is over, and rests this long between two moves. Returns the
/// reasons for which commands were refused, with their counts.
pub fn run(
    shared: &Shared,
    router: &Router,
    mut chance: Chance,
    (servers, rest): (u64, Duration),
) -> BTreeMap<String, u64> {
    let mut refused = BTreeMap::new();
    let shards = u64::from(router.sharding().shards());
    for turn in 1.. {
        if shared.is_over.load(Ordering::SeqCst) {
            break;
        }
        let server = (chance.below(servers) + 1).to_string();
        let mut made = |words: &[&str]| {
            let told = router.command(words, LONG);
            if let Err(why) = &told {
                let name: Vec<&str> = why.split([' ', ':']).take(2).collect();
                *refused.entry(name.join(" ")).or_insert(0) += 1;
            }
            told.is_ok()
        };
        if turn % DRAIN == 0 {
            if made(&["DRAIN", &server]) {
                shared.tally.drained();
            }
            made(&["SPREAD"]);
        } else if made(&["MIGRATE", &chance.below(shards).to_string(), &server]) {
            shared.tally.migrated();
        }
        thread::sleep(rest);
    }
    refused
}
