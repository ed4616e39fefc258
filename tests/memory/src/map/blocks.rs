use super::state::{State, copied_in_two, make_all_in_two, rebuilt_in_two};
use super::step::Step;
use sm_map::{ArenaMap, Val};
use std::alloc::{AllocError, Global};
use std::process::Abort;

const KEYS: u32 = 10_000;

// In which order the keys come.
#[derive(Clone, Copy)]
enum Order {
    Rising,
    Falling,
    Scattered,
}

impl Order {
    fn number(self, turn: u32) -> u32 {
        match self {
            Order::Rising => turn % KEYS,
            Order::Falling => (KEYS - 1).saturating_sub(turn),
            Order::Scattered => turn.wrapping_mul(7_919) % KEYS,
        }
    }
}

// A map from the first so many keys in their order to their numbers.
fn filled(alloc: Global, order: Order, count: u32) -> Result<ArenaMap, AllocError> {
    let mut map = ArenaMap::new(alloc);
    for turn in 0..count {
        let number = order.number(turn);
        map.put(&number.to_be_bytes(), Val::Count(number as i64))?;
    }
    Ok(map)
}

// A plain sorted list: the numbers from the first on, each so many above the one before.
fn numbers(alloc: Global, first: u32, step: u32) -> Result<Vec<u32>, AllocError> {
    let mut numbers = Vec::new(alloc);
    for number in first..KEYS {
        if number.saturating_sub(first) % step.max(1) == 0 {
            numbers.push(number)?;
        }
    }
    Ok(numbers)
}

// Whether the pair is that of the number, and its key gets the same.
fn is_pair(map: &ArenaMap, pair: &(&[u8], Val<'_>), number: u32) -> bool {
    let value = Val::Count(number as i64);
    pair.0 == number.to_be_bytes().as_slice() && pair.1 == value && map.get(pair.0) == Some(value)
}

// Whether the map has these numbers and no others.
fn is_list(map: &ArenaMap, numbers: &[u32]) -> bool {
    let Ok(pairs) = map.scan(b"", b"\xff", usize::MAX) else {
        return false;
    };
    for (pair, number) in pairs.iter().zip(numbers) {
        if !is_pair(map, pair, *number) {
            return false;
        }
    }
    pairs.len() == numbers.len() && map.len() == numbers.len() as u128
}

// Whether the map has the numbers from the first on, each so many above the one before, and no others.
fn has_from(alloc: Global, map: &ArenaMap, first: u32, step: u32) -> bool {
    match numbers(alloc, first, step) {
        Ok(numbers) => is_list(map, numbers.as_slice()),
        Err(_) => false,
    }
}

// Removes every second key, and tells whether each was there.
fn removes_even(map: &mut ArenaMap) -> bool {
    for half in 0..KEYS / 2 {
        if !map.remove(&(2 * half).to_be_bytes()) {
            return false;
        }
    }
    true
}

// Puts keys in, removes every second one, and compares both with a plain sorted list.
fn is_sorted_list(rt: &impl Abort, alloc: Global, order: Order) -> bool {
    let mut map = filled(alloc, order, KEYS).ok().expect(rt, "a map");
    has_from(alloc, &map, 0, 1) && removes_even(&mut map) && has_from(alloc, &map, 1, 2)
}

#[test]
fn keys_in_three_orders(rt: HostRuntime) {
    for order in [Order::Rising, Order::Falling, Order::Scattered] {
        assert!(rt; is_sorted_list(&rt, rt.alloc(), order));
    }
}

// Whether the blocks have these lengths.
fn has_blocks(map: &ArenaMap, lengths: &[usize]) -> bool {
    for (at, length) in lengths.iter().enumerate() {
        if at >= map.blocks() || map.block_len(at) != *length {
            return false;
        }
    }
    map.blocks() == lengths.len()
}

// A map of the first so many keys.
fn first_keys(rt: &impl Abort, alloc: Global, count: u32) -> ArenaMap {
    filled(alloc, Order::Rising, count).ok().expect(rt, "a map")
}

// The 65th key splits the one full block.
#[test]
fn blocks_split(rt: HostRuntime) {
    let map = first_keys(&rt, rt.alloc(), 65);
    assert!(rt; has_blocks(&map, &[32, 33]));
}

// The same where it comes before all others.
#[test]
fn blocks_split_below(rt: HostRuntime) {
    let map = filled(rt.alloc(), Order::Falling, 65).ok();
    assert!(rt; has_blocks(&map.expect(&rt, "a map"), &[33, 32]));
}

// Whether the one block goes with its last pair.
fn goes_empty(map: &mut ArenaMap) -> bool {
    has_blocks(map, &[1])
        && map.remove(&0u32.to_be_bytes())
        && has_blocks(map, &[])
        && map.len() == 0
}

#[test]
fn empty_blocks_go(rt: HostRuntime) {
    let mut map = first_keys(&rt, rt.alloc(), 1);
    assert!(rt; goes_empty(&mut map));
}

// A copy's blocks are full, but for the last one.
#[test]
fn copies_fill_blocks(rt: HostRuntime) {
    let map = first_keys(&rt, rt.alloc(), 130);
    assert!(rt; has_blocks(&map, &[32, 32, 32, 34]));
    let copy = map.copy().ok().expect(&rt, "a copy");
    assert!(rt; has_blocks(&copy, &[64, 64, 2]));
}

// The put splits the one full block.
fn splits_in_two(rt: &impl Abort, map: &mut ArenaMap) {
    let (first, last) = (0u32.to_be_bytes(), 99u32.to_be_bytes());
    let steps = [
        Step::Put(&last, Val::Text(b"text")),
        Step::Append(&last, b"s"),
        Step::Remove(&first),
    ];
    make_all_in_two(rt, map, &steps);
    assert!(*rt; has_blocks(map, &[31, 33]) && map.dead() == 8);
}

// Passes with each allocation refused in turn (`tools/run-tests` does it).
#[test]
fn blocks_keep_what_memory_refuses(rt: HostRuntime) {
    if let Ok(mut map) = filled(rt.alloc(), Order::Rising, 64) {
        splits_in_two(&rt, &mut map);
    }
}

// The put splits the one full block, and what room its upper half gives back is memory's to refuse.
fn splits_below_in_two(rt: &impl Abort, map: &mut ArenaMap) {
    let (first, last) = (0u32.to_be_bytes(), (KEYS - 1).to_be_bytes());
    let steps = [
        Step::Put(&first, Val::Text(b"text")),
        Step::Append(&first, b"s"),
        Step::Remove(&last),
    ];
    make_all_in_two(rt, map, &steps);
    assert!(*rt; has_blocks(map, &[33, 31]) && map.dead() == 8);
}

// Passes with each allocation refused in turn, too.
#[test]
fn halves_keep_what_memory_refuses(rt: HostRuntime) {
    if let Ok(mut map) = filled(rt.alloc(), Order::Falling, 64) {
        splits_below_in_two(&rt, &mut map);
    }
}

// Copies and rebuilds the map, which both hold the same as it does.
fn copies_in_two(rt: &impl Abort, map: ArenaMap) {
    let before = State::of(&map);
    let copy = State::of(&copied_in_two(rt, &map));
    assert!(*rt; copy.holds_as(&before));
    assert!(*rt; State::of(&rebuilt_in_two(rt, map)) == copy);
}

// Passes with each allocation refused in turn, too.
#[test]
fn copies_keep_what_memory_refuses(rt: HostRuntime) {
    if let Ok(map) = filled(rt.alloc(), Order::Rising, 200) {
        copies_in_two(&rt, map);
    }
}
