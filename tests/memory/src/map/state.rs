use super::step::Step;
use sm_map::{ArenaMap, Val};
use std::process::Abort;

// What a map shows of itself, and a number made of what the keys hold that spell the numbers up to 100 by four bytes. It takes
// no memory.
#[derive(Clone, Copy, PartialEq, Eq)]
pub(crate) struct State {
    pairs: u128,
    bytes: u128,
    dead: u128,
    blocks: usize,
    held: u64,
}

impl State {
    pub(crate) fn of(map: &ArenaMap) -> State {
        State {
            pairs: map.len(),
            bytes: map.bytes(),
            dead: map.dead(),
            blocks: map.blocks(),
            held: held(map),
        }
    }

    // Whether both maps hold the same.
    pub(crate) fn holds_as(&self, other: &State) -> bool {
        self.held == other.held
    }
}

fn held(map: &ArenaMap) -> u64 {
    let mut digest: u64 = 0;
    for number in 0u32..101 {
        let seen = seen(map.get(&number.to_be_bytes()));
        digest = digest.wrapping_mul(31).wrapping_add(seen);
    }
    digest
}

// A number made of what a key holds.
fn seen(value: Option<Val<'_>>) -> u64 {
    match value {
        Some(Val::Text(text)) => digest(text),
        Some(Val::Count(count)) => count.unsigned_abs().wrapping_add(2_000),
        None => 1,
    }
}

fn digest(text: &[u8]) -> u64 {
    let mut digest: u64 = 1_000;
    for byte in text {
        digest = digest.wrapping_mul(31).wrapping_add(1 + *byte as u64);
    }
    digest
}

// Does the step; where memory is refused, sees that nothing has changed, and does it again.
pub(crate) fn make_in_two(rt: &impl Abort, map: &mut ArenaMap, step: Step<'_>) {
    let before = State::of(map);
    if step.try_on(map).is_err() {
        assert!(*rt; before == State::of(map));
        step.make(rt, map);
    }
}

// Does each of the steps so.
pub(crate) fn make_all_in_two(rt: &impl Abort, map: &mut ArenaMap, steps: &[Step<'_>]) {
    for step in steps {
        make_in_two(rt, map, *step);
    }
}

// Copies the map in the same way.
pub(crate) fn copied_in_two(rt: &impl Abort, map: &ArenaMap) -> ArenaMap {
    let before = State::of(map);
    if let Ok(copy) = map.copy() {
        return copy;
    }
    assert!(*rt; before == State::of(map));
    map.copy().ok().expect(rt, "memory")
}

// Rebuilds the map in the same way.
pub(crate) fn rebuilt_in_two(rt: &impl Abort, map: ArenaMap) -> ArenaMap {
    let before = State::of(&map);
    match map.rebuild() {
        Ok(map) => map,
        Err((map, _)) => {
            assert!(*rt; before == State::of(&map));
            map.rebuild().ok().expect(rt, "memory")
        }
    }
}
