//! Finds the fewest faults with which a schedule still breaks a law, by delta debugging.
use crate::fault::NumberedFault;
use crate::faults::Kept;
use crate::plan::Plan;
use crate::world::run_by;
use std::collections::BTreeSet;

/// How many runs may be spent to shrink one schedule.
const MOST_RUNS: u32 = 2_000;

/// Returns faults of this plan that are enough to break the same law. If one of them is left out, they aren't enough
/// any more, unless there were too many runs. Returns `None` if the plan breaks no law.
pub fn shrunk(plan: &Plan) -> Option<Vec<NumberedFault>> {
    let ran = run_by(plan);
    let law = ran.verdict.err()?.law;
    let mut runs = 0;
    let is_broken_by = |faults: &[NumberedFault]| {
        runs += 1;
        let kept = Kept::Only(faults.iter().copied().collect::<BTreeSet<_>>());
        let tried = Plan {
            kept,
            ..plan.clone()
        };
        runs <= MOST_RUNS && run_by(&tried).verdict.is_err_and(|it| it.law == law)
    };
    Some(fewest(ran.struck, is_broken_by))
}

/// Returns few of these items that still fail together. All of them together must fail. If one of the returned items is
/// left out, the others don't fail any more.
pub fn fewest<T: Clone>(mut all: Vec<T>, mut fails: impl FnMut(&[T]) -> bool) -> Vec<T> {
    let mut parts = 2;
    if fails(&[]) {
        return Vec::new();
    }
    while all.len() > 1 {
        let size = all.len().div_ceil(parts);
        let without = |at: usize| {
            let after = all[(at + size).min(all.len())..].iter();
            all[..at].iter().chain(after).cloned().collect::<Vec<T>>()
        };
        let mut left_out = (0..all.len()).step_by(size).map(without);
        match left_out.find(|it| fails(it)) {
            Some(fewer) => (all, parts) = (fewer, (parts - 1).max(2)),
            None if size == 1 => return all,
            None => parts = (2 * parts).min(all.len()),
        }
    }
    all
}

#[cfg(test)]
mod tests {
    use super::fewest;

    #[test]
    fn finds_the_fewest_that_fail() {
        for needed in [vec![], vec![7], vec![0, 99], vec![3, 50, 51, 98]] {
            let fails = |it: &[u32]| needed.iter().all(|needed| it.contains(needed));
            assert_eq!(fewest((0..100).collect(), fails), needed);
        }
    }
}
