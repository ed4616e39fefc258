//! Checks that random schedules find each planted bug, and that they find nothing if no bug is planted.
use simulation::bug::{Bug, BUGS};
use simulation::part::Part;
use simulation::plan::Plan;
use simulation::world::{run, run_by, transcript};

const SCHEDULES: u64 = 50_000;

fn found(bug: Bug) -> Option<(u64, &'static str)> {
    (0..SCHEDULES).find_map(|seed| run(seed, Some(bug)).1.err().map(|it| (seed + 1, it.law)))
}

#[test]
fn planted_bugs_are_found() {
    for bug in BUGS {
        let found = found(bug);
        println!("{bug:?}: {found:?}");
        assert!(
            found.is_some(),
            "{bug:?} isn't found in {SCHEDULES} schedules"
        );
    }
}

#[test]
fn one_seed_is_one_run() {
    for seed in 0..50 {
        assert!(transcript(seed) == transcript(seed), "seed {seed}");
        for part in Part::ALL {
            let plan = Plan {
                is_shown: true,
                ..Plan::of_part(seed, part)
            };
            let shown = || run_by(&plan).timeline.expect("it is shown");
            assert!(shown() == shown(), "seed {seed}, {part}");
        }
    }
}

#[test]
fn nothing_is_found_where_nothing_is_planted() {
    for (part, seed) in Part::ALL
        .into_iter()
        .flat_map(|it| (0..2_000).map(move |seed| (it, seed)))
    {
        let verdict = run_by(&Plan::of_part(seed, part)).verdict;
        verdict.unwrap_or_else(|it| panic!("seed {seed}, {part}: {}: {}", it.law, it.by));
    }
}
