//! The faults of a schedule. Each kind has its own stream of random numbers, and its faults are numbered in the order
//! in which they are drawn. So if a run leaves some faults out, it still draws the same faults of the other kinds.
use crate::chance::Chance;
use crate::fault::{Fault, NumberedFault};
use crate::timeline::{Column, Timeline};
use std::collections::BTreeSet;
use std::sync::{Arc, Mutex};

/// Says which of the drawn faults strike.
#[derive(Clone, Debug, Default)]
pub enum Kept {
    #[default]
    All,
    Only(BTreeSet<NumberedFault>),
}

impl Kept {
    fn has(&self, fault: &NumberedFault) -> bool {
        match self {
            Kept::All => true,
            Kept::Only(kept) => kept.contains(fault),
        }
    }
}

struct Drawn {
    seed: u64,
    chances: Vec<Chance>,
    /// How many faults of each kind were drawn, including those that were left out.
    counts: [u32; Fault::ALL.len()],
    struck: Vec<NumberedFault>,
    kept: Kept,
}

/// The faults of one schedule, shared by all that draw them.
#[derive(Clone)]
pub struct Faults {
    drawn: Arc<Mutex<Drawn>>,
    timeline: Timeline,
}

impl Faults {
    /// Returns the faults of this seed. Only the kept ones strike.
    pub fn new(seed: u64, kept: Kept, timeline: Timeline) -> Faults {
        let chances = (0..Fault::ALL.len() as u64).map(|it| Chance::new(mixed(seed, it)));
        let drawn = Drawn {
            seed,
            chances: chances.collect(),
            counts: [0; Fault::ALL.len()],
            struck: Vec::new(),
            kept,
        };
        Faults {
            drawn: Arc::new(Mutex::new(drawn)),
            timeline,
        }
    }

    /// Draws whether this fault strikes, with a probability of `times` in `of`. If it strikes, returns the random
    /// numbers for its details.
    pub fn strike(&self, fault: Fault, times: u64, of: u64, column: Column) -> Option<Chance> {
        let mut drawn = self
            .drawn
            .lock()
            .expect("no schedule goes on after a panic");
        let kind = fault as usize;
        if !drawn.chances[kind].is_true(times, of) {
            return None;
        }
        drawn.counts[kind] += 1;
        let numbered = NumberedFault {
            fault,
            number: drawn.counts[kind],
        };
        if !drawn.kept.has(&numbered) {
            return None;
        }
        drawn.struck.push(numbered);
        self.timeline.note(column, || format!("! {numbered}"));
        let seed = mixed(drawn.seed, (kind as u64) << 32 | u64::from(numbered.number));
        Some(Chance::new(seed))
    }

    /// Draws whether this fault strikes, with a probability of `times` in `of`.
    pub fn strikes(&self, fault: Fault, times: u64, of: u64, column: Column) -> bool {
        self.strike(fault, times, of, column).is_some()
    }

    /// Returns all faults that struck, in their order.
    pub fn struck(&self) -> Vec<NumberedFault> {
        let drawn = self
            .drawn
            .lock()
            .expect("no schedule goes on after a panic");
        drawn.struck.clone()
    }
}

/// Returns another seed for each number.
fn mixed(seed: u64, number: u64) -> u64 {
    Chance::new(seed ^ Chance::new(number).drawn()).drawn()
}
