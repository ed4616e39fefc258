use super::step::{Step, rebuilt};
use sm_map::{ArenaMap, Val};
use std::alloc::Global;
use std::process::Abort;

const PAIRS: u32 = 2_000;

// A key of 255 bytes, which ends with the number.
fn longest_key(number: u32) -> [u8; 255] {
    let mut key = [b'k'; 255];
    key[251..].copy_from_slice(&number.to_be_bytes());
    key
}

// A map from each of so many keys to its number. The keys come in no order.
fn filled(rt: &impl Abort, alloc: Global, pairs: u32) -> ArenaMap {
    let mut map = ArenaMap::new(alloc);
    for turn in 0..pairs {
        let number = turn * 7_919 % pairs;
        let put = map.put(&longest_key(number), Val::Count(number as i64));
        assert!(*rt; put.is_ok());
    }
    map
}

// Whether each key holds its number.
fn has_each(map: &ArenaMap) -> bool {
    for number in 0..PAIRS {
        if map.get(&longest_key(number)) != Some(Val::Count(number as i64)) {
            return false;
        }
    }
    true
}

// Whether a scan gives so many pairs, and the numbers from this one on.
fn scans_from(map: &ArenaMap, low: &[u8], first: u32, count: usize) -> bool {
    let Ok(rows) = map.scan(low, b"\xff", usize::MAX) else {
        return false;
    };
    for (row, number) in rows.iter().zip(first..PAIRS) {
        if row.1 != Val::Count(number as i64) {
            return false;
        }
    }
    rows.len() == count
}

// Removes every key, and tells whether each was there.
fn removes_each(map: &mut ArenaMap) -> bool {
    for number in 0..PAIRS {
        if !map.remove(&longest_key(number)) {
            return false;
        }
    }
    true
}

#[test]
fn longest_keys_hold(rt: HostRuntime) {
    let map = filled(&rt, rt.alloc(), PAIRS);
    assert!(rt; map.len() == 2_000 && map.bytes() == 510_000);
    assert!(rt; has_each(&map));
    assert!(rt; has_each(&rebuilt(&rt, map)));
}

fn scans_and_removes(map: &mut ArenaMap) -> bool {
    scans_from(map, b"", 0, 2_000)
        && scans_from(map, &longest_key(1_999), 1_999, 1)
        && removes_each(map)
        && map.len() == 0
        && map.dead() == 510_000
}

#[test]
fn longest_keys_are_scanned_and_removed(rt: HostRuntime) {
    let mut map = filled(&rt, rt.alloc(), PAIRS);
    assert!(rt; scans_and_removes(&mut map));
}

// Whether the key holds a text of so many bytes `x`.
pub(crate) fn holds_bytes(map: &ArenaMap, key: &[u8], count: usize) -> bool {
    match map.get(key) {
        Some(Val::Text(text)) => text.len() == count && text.iter().all(|byte| *byte == b'x'),
        _ => false,
    }
}

// Puts a text of a mebibyte, and appends as much to it.
fn doubles(rt: &impl Abort, map: &mut ArenaMap, text: &[u8]) {
    let key = longest_key(7);
    assert!(*rt; Step::Put(&key, Val::Text(text)).make(rt, map));
    assert!(*rt; holds_bytes(map, &key, 1_048_576));
    assert!(*rt; Step::Append(&key, text).make(rt, map));
    assert!(*rt; holds_bytes(map, &key, 2_097_152) && map.dead() == 1_048_576);
}

#[test]
fn longest_texts_hold(rt: HostRuntime) {
    let text = vec![in rt.alloc(); b'x'; 1_048_576]
        .ok()
        .expect(&rt, "a text");
    let mut map = ArenaMap::new(rt.alloc());
    doubles(&rt, &mut map, &text);
}

// Whether a scan from this key on, of 100 pairs at most, gives the next 100 numbers.
fn scans_a_hundred(map: &ArenaMap, first: u32) -> bool {
    match map.scan(&longest_key(first), b"\xff", 100) {
        Ok(rows) => rows.iter().map(|row| row.1).eq((first..first + 100).map(|number| Val::Count(
            number as i64,
        ))),
        Err(_) => false,
    }
}

#[test]
fn scans_a_hundred_from_the_middle(rt: HostRuntime) {
    let map = filled(&rt, rt.alloc(), 4_096);
    assert!(rt; map.len() == 4_096);
    assert!(rt; scans_a_hundred(&map, 2_048) && scans_a_hundred(&map, 3_996));
}
