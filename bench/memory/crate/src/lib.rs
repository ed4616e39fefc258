//! Whole runs over an arena and a map in it, for bench/memory, which takes the time round each call. Keys have 16 bytes and texts 32, one
//! after another, and an order says which of them come in turn. Each call answers a sum of what it saw, and the greatest number
//! where memory was refused.
#![tactic(auto)]

ghost use Rattle.std.specs.Prelude.{◌≡◌, ◌≤◌};

use sm_arena::arena::Arena;
use sm_map::arena_map::ArenaMap;
use sm_map::val::Val;
use std::alloc::Global;

const KEY_BYTES: usize = 16;

const TEXT_BYTES: usize = 32;

/// The row of so many bytes at a place, or the empty one past the last.
fn row(bytes: &[u8], length: usize, at: u32) -> &[u8]
    requires { length ≤ 32 }
{
    let start = at as usize * length;
    bytes.get(start..start + length).unwrap_or(&[])
}

/// Puts all keys in, in their order, and tells whether there was memory for them.
fn put_all(map: &mut ArenaMap, keys: &[u8], texts: &[u8]) -> bool {
    for (key, text) in keys
        .chunks_exact(KEY_BYTES)
        .zip(texts.chunks_exact(TEXT_BYTES))
    {
        if map.put(key, Val::Text(text)).is_err() {
            return false;
        }
    }
    true
}

/// A map of all keys.
fn map_of(alloc: Global, keys: &[u8], texts: &[u8]) -> Option<ArenaMap> {
    let mut map = ArenaMap::new(alloc);
    if put_all(&mut map, keys, texts) {
        Some(map)
    } else {
        None
    }
}

/// A number made of a text's length and its first byte.
fn seen(value: Option<Val<'_>>) -> u64 {
    match value {
        Some(Val::Text(text)) => {
            let first = text.first().copied().unwrap_or(0);
            (text.len() as u64).wrapping_add(first as u64)
        }
        _ => 0,
    }
}

/// The sum over all keys.
fn sum_of(map: &ArenaMap, keys: &[u8]) -> u64 {
    let mut sum: u64 = 0;
    for key in keys.chunks_exact(KEY_BYTES) {
        sum = sum.wrapping_add(seen(map.get(key)));
    }
    sum
}

fn placed(alloc: Global, piece: &[u8], count: usize) -> Option<u64> {
    let mut arena = Arena::new(alloc);
    for _ in 0..count {
        arena.place(piece).ok()?;
    }
    u64::try_from(arena.bytes()).ok()
}

fn read(alloc: Global, keys: &[u8], texts: &[u8], order: &[u32]) -> Option<u64> {
    let map = map_of(alloc, keys, texts)?;
    let mut sum: u64 = 0;
    for at in order {
        sum = sum.wrapping_add(seen(map.get(row(keys, KEY_BYTES, *at))));
    }
    Some(sum)
}

/// Rebuilds the map where more than `most_dead` bytes are dead, and tells whether there was memory for it.
fn tidy(map: &mut ArenaMap, most_dead: u64) -> bool {
    if map.dead() <= most_dead as u128 {
        return true;
    }
    match map.copy() {
        Ok(copy) => {
            *map = copy;
            true
        }
        Err(_) => false,
    }
}

/// Writes over the keys in turn, each with the text that comes at that place in the order from its end, and tells whether there was
/// memory for them.
fn write_over(
    map: &mut ArenaMap,
    keys: &[u8],
    texts: &[u8],
    order: &[u32],
    most_dead: u64,
) -> bool {
    for (at, other) in order.iter().zip(order.iter().rev()) {
        let text = Val::Text(row(texts, TEXT_BYTES, *other));
        if map.put(row(keys, KEY_BYTES, *at), text).is_err() || !tidy(map, most_dead) {
            return false;
        }
    }
    true
}

fn written_over(
    alloc: Global,
    keys: &[u8],
    texts: &[u8],
    order: &[u32],
    most_dead: u64,
) -> Option<u64> {
    let mut map = map_of(alloc, keys, texts)?;
    if write_over(&mut map, keys, texts, order, most_dead) {
        Some(sum_of(&map, keys))
    } else {
        None
    }
}

/// Appends to the key's text, where it holds one, and tells whether there was memory for it.
fn append(map: &mut ArenaMap, key: &[u8], tail: &[u8]) -> bool {
    let position = map.locate(key);
    match map.get_at(position) {
        Some(Val::Text(_)) => map.append_at(position, tail).is_ok(),
        _ => true,
    }
}

fn append_each(map: &mut ArenaMap, keys: &[u8], texts: &[u8], order: &[u32]) -> bool {
    for at in order {
        if !append(map, row(keys, KEY_BYTES, *at), row(texts, TEXT_BYTES, *at)) {
            return false;
        }
    }
    true
}

/// Appends to the keys' texts in turn.
fn lengthened(alloc: Global, keys: &[u8], texts: &[u8], order: &[u32]) -> Option<u64> {
    let mut map = map_of(alloc, keys, texts)?;
    if append_each(&mut map, keys, texts, order) {
        Some(sum_of(&map, keys))
    } else {
        None
    }
}

/// The sum over pairs.
fn sum_of_pairs(pairs: &[(&[u8], Val<'_>)]) -> u64 {
    let mut sum: u64 = 0;
    for (key, value) in pairs {
        sum = sum
            .wrapping_add(key.len() as u64)
            .wrapping_add(seen(Some(*value)));
    }
    sum
}

/// The sum over up to 100 pairs from the key on.
fn sum_from(map: &ArenaMap, key: &[u8]) -> Option<u64> {
    let pairs = map.scan(key, b"\xff", 100).ok()?;
    Some(sum_of_pairs(&pairs))
}

/// Reads up to 100 pairs from each key in turn.
fn scanned(alloc: Global, keys: &[u8], texts: &[u8], order: &[u32]) -> Option<u64> {
    let map = map_of(alloc, keys, texts)?;
    let mut sum: u64 = 0;
    for at in order {
        sum = sum.wrapping_add(sum_from(&map, row(keys, KEY_BYTES, *at))?);
    }
    Some(sum)
}

fn put_each(map: &mut ArenaMap, keys: &[u8], texts: &[u8], order: &[u32]) -> bool {
    for at in order {
        let text = Val::Text(row(texts, TEXT_BYTES, *at));
        if map.put(row(keys, KEY_BYTES, *at), text).is_err() {
            return false;
        }
    }
    true
}

/// A map into which the keys were put in turn.
fn filled(alloc: Global, keys: &[u8], texts: &[u8], order: &[u32]) -> Option<ArenaMap> {
    let mut map = ArenaMap::new(alloc);
    if put_each(&mut map, keys, texts, order) {
        Some(map)
    } else {
        None
    }
}

/// How many pairs such a map has.
fn inserted(alloc: Global, keys: &[u8], texts: &[u8], order: &[u32]) -> Option<u64> {
    let map = filled(alloc, keys, texts, order)?;
    u64::try_from(map.len()).ok()
}

/// How many such a map has once it was rebuilt.
fn rebuilt(alloc: Global, keys: &[u8], texts: &[u8], order: &[u32]) -> Option<u64> {
    let map = filled(alloc, keys, texts, order)?;
    let map = map.rebuild().ok()?;
    u64::try_from(map.len()).ok()
}

/// Makes the key hold so many copies of the text in turn, each with its memory, and tells whether there was memory for
/// them.
fn put_owned(alloc: Global, map: &mut ArenaMap, key: &[u8], text: &[u8], count: usize) -> bool {
    for _ in 0..count {
        let Ok(copy) = Vec::from_slice(alloc, text) else {
            return false;
        };
        let position = map.locate(key);
        if map.put_owned_at(position, copy).is_err() {
            return false;
        }
    }
    true
}

/// The sum over the key, once it was made to hold so many copies of the text.
fn given(alloc: Global, key: &[u8], text: &[u8], count: usize) -> Option<u64> {
    let mut map = ArenaMap::new(alloc);
    if put_owned(alloc, &mut map, key, text, count) {
        Some(seen(map.get(key)))
    } else {
        None
    }
}

/// Places the piece so many times.
#[unsafe(no_mangle)]
pub extern "C" fn bench_map_place(alloc: Global, piece: &[u8], count: usize) -> u64 {
    placed(alloc, piece, count).unwrap_or(u64::MAX)
}

/// Reads the keys in turn.
#[unsafe(no_mangle)]
pub extern "C" fn bench_map_get(alloc: Global, keys: &[u8], texts: &[u8], order: &[u32]) -> u64 {
    read(alloc, keys, texts, order).unwrap_or(u64::MAX)
}

/// Writes over the keys in turn.
#[unsafe(no_mangle)]
pub extern "C" fn bench_map_put(
    alloc: Global,
    keys: &[u8],
    texts: &[u8],
    order: &[u32],
    most_dead: u64,
) -> u64 {
    written_over(alloc, keys, texts, order, most_dead).unwrap_or(u64::MAX)
}

/// Makes the key hold so many copies of the text in turn, each with its memory.
#[unsafe(no_mangle)]
pub extern "C" fn bench_map_given(alloc: Global, key: &[u8], text: &[u8], count: usize) -> u64 {
    given(alloc, key, text, count).unwrap_or(u64::MAX)
}

/// Appends to the keys' texts in turn.
#[unsafe(no_mangle)]
pub extern "C" fn bench_map_append(alloc: Global, keys: &[u8], texts: &[u8], order: &[u32]) -> u64 {
    lengthened(alloc, keys, texts, order).unwrap_or(u64::MAX)
}

/// Scans from the keys in turn.
#[unsafe(no_mangle)]
pub extern "C" fn bench_map_scan(alloc: Global, keys: &[u8], texts: &[u8], order: &[u32]) -> u64 {
    scanned(alloc, keys, texts, order).unwrap_or(u64::MAX)
}

/// Puts the keys into an empty map in turn, and rebuilds it.
#[unsafe(no_mangle)]
pub extern "C" fn bench_map_rebuild(
    alloc: Global,
    keys: &[u8],
    texts: &[u8],
    order: &[u32],
) -> u64 {
    rebuilt(alloc, keys, texts, order).unwrap_or(u64::MAX)
}

/// Puts the keys into an empty map in turn.
#[unsafe(no_mangle)]
pub extern "C" fn bench_map_insert(alloc: Global, keys: &[u8], texts: &[u8], order: &[u32]) -> u64 {
    inserted(alloc, keys, texts, order).unwrap_or(u64::MAX)
}
