mod blocks;
mod limits;
mod numbers;
mod plain;
mod state;
mod step;
mod twins;

use limits::holds_bytes;
use numbers::Numbers;
use sm_map::{ArenaMap, Val};
use state::{make_all_in_two, rebuilt_in_two};
use std::alloc::Global;
use std::process::Abort;
use std::test::Fail;
use step::{Step, make_all, rebuilt};
use twins::Twins;

// Whether these are all pairs of the map, by a scan and key by key.
fn holds(map: &ArenaMap, pairs: &[(&[u8], Val<'_>)]) -> bool {
    let Ok(rows) = map.scan(b"", b"\xff", usize::MAX) else {
        return false;
    };
    let each = pairs.iter().all(|pair| map.get(pair.0) == Some(pair.1));
    each && map.len() == pairs.len() as u128 && rows.as_slice() == pairs
}

#[test]
fn puts_gets_and_removes(rt: HostRuntime) -> Result<(), Fail> {
    let mut map = ArenaMap::new(rt.alloc());
    map.put(b"a", Val::Text(b"x"))?;
    map.put(b"b", Val::Count(2))?;
    assert_eq!(rt; map.get(b"a"), Some(Val::Text(b"x")));
    assert!(rt; map.remove(b"b"));
    assert_eq!(rt; map.get(b"b"), None);
    Ok(())
}

// Searches once, finds nothing, and puts the value there.
fn puts_new(map: &mut ArenaMap, key: &[u8], value: Val<'_>) -> bool {
    let position = map.locate(key);
    map.get_at(position).is_none() && map.put_at(position, value).is_ok()
}

// Searches once, finds a text, and appends to it there.
fn appends(map: &mut ArenaMap, key: &[u8], tail: &[u8]) -> bool {
    let position = map.locate(key);
    if let Some(Val::Text(_)) = map.get_at(position) {
        return map.append_at(position, tail).is_ok();
    }
    false
}

fn one_search_serves(map: &mut ArenaMap) -> bool {
    puts_new(map, b"a", Val::Text(b"x"))
        && appends(map, b"a", b"y")
        && map.get(b"a") == Some(Val::Text(b"xy"))
}

#[test]
fn one_search_serves_several_calls(rt: HostRuntime) {
    let mut map = ArenaMap::new(rt.alloc());
    assert!(rt; one_search_serves(&mut map));
}

// Makes the key hold so many bytes with their memory.
fn gives(rt: &impl Abort, alloc: Global, map: &mut ArenaMap, key: &[u8], count: usize) -> bool {
    let text = vec![in alloc; b'x'; count].ok().expect(rt, "memory");
    let position = map.locate(key);
    map.put_owned_at(position, text).is_ok()
}

// Texts join at a new key and over a text.
fn texts_join(rt: &impl Abort, alloc: Global, map: &mut ArenaMap) -> bool {
    gives(rt, alloc, map, b"a", 5_000)
        && gives(rt, alloc, map, b"b", 3)
        && gives(rt, alloc, map, b"a", 4_096)
        && holds_bytes(map, b"a", 4_096)
        && holds_bytes(map, b"b", 3)
}

#[test]
fn texts_join_with_their_memory(rt: HostRuntime) {
    let mut map = ArenaMap::new(rt.alloc());
    assert!(rt; texts_join(&rt, rt.alloc(), &mut map));
    assert!(rt; map.bytes() == 1 + 1 + 4_096 + 3 && map.dead() == 5_000);
}

// Writes over a text, whose byte is dead then.
fn writes_over(rt: &impl Abort, map: &mut ArenaMap) {
    let steps = [
        Step::Put(b"a", Val::Text(b"x")),
        Step::Put(b"a", Val::Text(b"yy")),
        Step::Put(b"b", Val::Text(b"")),
    ];
    make_all(rt, map, &steps);
    assert!(*rt; map.len() == 2 && map.dead() == 1);
}

#[test]
fn arena_and_rebuild(rt: HostRuntime) {
    let mut map = ArenaMap::new(rt.alloc());
    writes_over(&rt, &mut map);
    let map = rebuilt(&rt, map);
    let pairs: [(&[u8], Val<'_>); 2] = [(b"a", Val::Text(b"yy")), (b"b", Val::Text(b""))];
    assert!(rt; map.dead() == 0 && holds(&map, &pairs));
}

// Keys that begin alike, an empty key, and bytes that are not UTF-8, each with a count.
const KEYS: [&[u8]; 5] = [b"", b"m", b"m\0", b"mm", b"\xff"];

fn put_keys(rt: &impl Abort, map: &mut ArenaMap) {
    for key in KEYS {
        Step::Put(key, Val::Count(1)).make(rt, map);
    }
}

// Whether a scan gives these keys.
fn scans(map: &ArenaMap, low: &[u8], high: &[u8], max: usize, keys: &[&[u8]]) -> bool {
    match map.scan(low, high, max) {
        Ok(rows) => rows.iter().map(|row| row.0).eq(keys.iter().copied()),
        Err(_) => false,
    }
}

fn scans_ranges(map: &ArenaMap) -> bool {
    scans(map, b"m", b"mm", 9, &[b"m", b"m\0"])
        && scans(map, b"a", b"mm", 1, &[b"m"])
        && scans(map, b"m", b"mm", 0, &[])
        && scans(map, b"m", b"m", 9, &[])
        && scans(map, b"z", b"a", 9, &[])
}

#[test]
fn scans_from_low_to_below_high(rt: HostRuntime) {
    let mut map = ArenaMap::new(rt.alloc());
    put_keys(&rt, &mut map);
    assert!(rt; scans_ranges(&map));
}

// Each text and count is written once or twice, and 11 bytes are dead then.
fn writes_in_two(rt: &impl Abort, map: &mut ArenaMap) {
    let steps = [
        Step::Put(b"\0\0\0b", Val::Text(b"one")),
        Step::Put(b"\0\0\0a", Val::Count(7)),
        Step::Append(b"\0\0\0b", b", two"),
        Step::Put(b"\0\0\0c", Val::Text(b"three")),
        Step::Put(b"\0\0\0b", Val::Text(b"four")),
        Step::Put(b"\0\0\0d", Val::Text(b"")),
    ];
    make_all_in_two(rt, map, &steps);
    assert!(*rt; map.dead() == 11);
}

// Whether the map holds what was written. A refused scan is made again, too.
fn holds_in_two(map: &ArenaMap) -> bool {
    let pairs: [(&[u8], Val<'_>); 4] = [
        (b"\0\0\0a", Val::Count(7)),
        (b"\0\0\0b", Val::Text(b"four")),
        (b"\0\0\0c", Val::Text(b"three")),
        (b"\0\0\0d", Val::Text(b"")),
    ];
    holds(map, &pairs) || holds(map, &pairs)
}

// With each allocation refused in turn (`tools/run-tests` does it) a refused call leaves the map as it was, and
// the same call made again does its work.
#[test]
fn keeps_what_memory_refuses(rt: HostRuntime) {
    let mut map = ArenaMap::new(rt.alloc());
    writes_in_two(&rt, &mut map);
    let map = rebuilt_in_two(&rt, map);
    assert!(rt; map.dead() == 0 && holds_in_two(&map));
}

#[test]
fn random_operations(rt: HostRuntime) {
    let mut numbers = Numbers::new(1);
    let mut twins = Twins::new(rt.alloc());
    for _ in 0..4 {
        twins.operate(&rt, &mut numbers, 500);
        twins = twins.rebuilt(&rt);
    }
}
