use crate::raw;

/// How many counters are read together.
const ROW: usize = 64;

/// Which branches ran so far, and roughly how often in one input.
#[derive(Debug, Default)]
pub struct Coverage {
    seen: Vec<u8>,
}

impl Coverage {
    /// Forgets the counts of the last input.
    pub fn begin(&mut self) {
        raw::with_counters(|row| row.fill(0));
    }

    /// Returns whether the input reached a branch that none before it reached.
    pub fn is_new(&mut self) -> bool {
        let (mut at, mut is_new) = (0, false);
        raw::with_counters(|row| {
            self.seen.resize(self.seen.len().max(at + row.len()), 0);
            // Most branches don't run.
            let some = row.chunks(ROW).zip(self.seen[at..].chunks_mut(ROW));
            for (row, seen) in some.filter(|it| it.0.iter().any(|count| *count != 0)) {
                is_new |= is_new_in(row, seen);
            }
            at += row.len();
        });
        is_new
    }

    /// Returns how many branches ran.
    pub fn branches(&self) -> usize {
        self.seen.iter().filter(|it| **it != 0).count()
    }
}

/// Notes these counts, and returns whether one is new.
fn is_new_in(row: &[u8], seen: &mut [u8]) -> bool {
    let mut is_new = false;
    for (seen, count) in seen.iter_mut().zip(row) {
        let bit = bit_of(*count);
        is_new |= bit & !*seen != 0;
        *seen |= bit;
    }
    is_new
}

/// Returns the bit of a count: there is one for each of eight ranges.
fn bit_of(count: u8) -> u8 {
    match count {
        0 => 0,
        1 => 1,
        2 => 2,
        3 => 4,
        4..=7 => 8,
        8..=15 => 16,
        16..=31 => 32,
        32..=127 => 64,
        _ => 128,
    }
}
