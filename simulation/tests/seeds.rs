//! Checks that seeds that failed once fail no more, and that a schedule that still fails is shrunk and drawn. A plan
//! that is run twice must draw the same.
use simulation::bug::Bug;
use simulation::faults::Kept;
use simulation::plan::Plan;
use simulation::shrink::shrunk;
use simulation::world::{run, run_by};

/// The seeds that failed, each with its part and the reason.
const SEEDS: &str = include_str!("../seeds.txt");

#[test]
fn seeds_that_failed_fail_no_more() {
    let lines = SEEDS.lines().filter(|it| !it.starts_with('#'));
    for line in lines {
        let (seed, rest) = line.split_once(' ').expect("a seed and more");
        let (part, why) = rest.split_once(' ').expect("a part and why");
        let (seed, part) = (
            seed.parse().expect("a number"),
            part.parse().expect("a part"),
        );
        if let Err(broken) = run_by(&Plan::of_part(seed, part)).verdict {
            panic!("seed {seed}, {part}, {why}: {}: {}", broken.law, broken.by);
        }
    }
}

/// Returns the timeline of a plan.
fn shown(plan: &Plan) -> String {
    let ran = run_by(&Plan {
        is_shown: true,
        ..plan.clone()
    });
    ran.timeline.expect("it is shown")
}

/// Checks that a bug that needs faults is shrunk to few. These must break the same law again, and be in the timeline.
#[test]
fn what_fails_is_shrunk_and_drawn() {
    let bug = Some(Bug::UnknownAsLost);
    let found = (0..).find(|it| run(*it, bug).1.is_err());
    let plan = Plan::new(found.expect("a seed"), bug);
    let law = run_by(&plan).verdict.expect_err("it fails").law;
    let faults = shrunk(&plan).expect("it fails");
    assert!((1..=8).contains(&faults.len()), "{faults:?}");
    let kept = |it: &[_]| Plan {
        kept: Kept::Only(it.iter().copied().collect()),
        ..plan.clone()
    };
    let shrunk = kept(&faults);
    let ran = run_by(&shrunk);
    assert_eq!(ran.verdict.expect_err("it fails").law, law);
    assert_eq!(ran.struck.len(), faults.len());
    let timeline = shown(&shrunk);
    assert_eq!(timeline, shown(&shrunk));
    for fault in &faults {
        assert!(
            timeline.contains(&format!("! {fault}")),
            "{fault}: {timeline}"
        );
    }
    // If any of them is left out, the same law must not be broken.
    for at in 0..faults.len() {
        let fewer = [&faults[..at], &faults[at + 1..]].concat();
        let verdict = run_by(&kept(&fewer)).verdict;
        assert!(
            verdict.map_or_else(|it| it.law != law, |()| true),
            "{fewer:?}"
        );
    }
}
