//! Tests the example of a cache with three processes. A key is loaded once, is kept when its shard moves, and is never
//! old.
#[allow(dead_code)]
#[path = "../examples/cache.rs"]
mod cache;
mod example_fleet;
mod processes;

use cache::Warm;
use durkenzo_fleet::Retry;
use example_fleet::{ExampleFleet, Folder, SERVERS};
use processes::{until, PATIENCE};
use std::fs;

const KEYS: usize = 20;

#[test]
fn memory_is_bounded_and_what_is_used_stays() {
    let mut warm = Warm::default();
    let value = "v".repeat(1_000);
    warm.put("hot", value.clone());
    for turn in 0..5_000 {
        warm.put(&format!("key-{turn}"), value.clone());
        assert!(warm.get("hot").is_some(), "it is used all the time");
    }
    let kept = (0..5_000).filter(|it| warm.get(&format!("key-{it}")).is_some());
    assert!((400..1_100).contains(&kept.count()));
    assert!(warm.get("key-4999").is_some() && warm.get("key-0").is_none());
}

/// Returns the answer to this request for the key.
fn asked(fleet: &ExampleFleet, key: &str, request: &str) -> String {
    let request = format!("{key} {request}");
    let answer = fleet
        .router
        .call(key.as_bytes(), request.as_bytes(), Retry::Until(PATIENCE));
    String::from_utf8(answer.unwrap().bytes).unwrap()
}

#[test]
fn what_was_loaded_moves_with_its_shard_and_is_loaded_again_after_a_kill() {
    let folder = Folder::new("slow");
    let keys: Vec<_> = (0..KEYS).map(|it| format!("page-{it}")).collect();
    keys.iter()
        .for_each(|it| fs::write(folder.0.join(it), "first").unwrap());
    let Some(mut fleet) = ExampleFleet::begin("cache", ("SLOW", &folder.0)) else {
        return;
    };
    let all_say = |fleet: &ExampleFleet, expected: &str| {
        keys.iter()
            .for_each(|it| assert_eq!(asked(fleet, it, "get"), expected, "{it}"));
    };
    all_say(&fleet, "loaded: first");
    all_say(&fleet, "kept: first");
    assert_eq!(
        asked(&fleet, "nothing", "get").split(':').next(),
        Some("error")
    );

    // A hot shard goes to each server in turn.
    let hot = fleet.router.sharding().shard_of(keys[0].as_bytes());
    for to in 1..=SERVERS {
        fleet.migrate(hot.into(), to);
        all_say(&fleet, "kept: first");
    }
    keys.iter()
        .for_each(|it| assert_eq!(asked(&fleet, it, "set second"), "stored"));
    all_say(&fleet, "kept: second");
    let page = fs::read_to_string(folder.0.join(&keys[0]));
    assert_eq!(page.unwrap(), "second");

    fleet.migrate(hot.into(), SERVERS);
    drop(fleet.servers.pop());
    until("others own what was killed", || {
        let owners = fleet.owners();
        !owners.is_empty() && !owners.contains(&SERVERS)
    });
    assert_eq!(asked(&fleet, &keys[0], "get"), "loaded: second");
}
