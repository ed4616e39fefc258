//! Checks that schedules leave no memory behind. The memory of the whole process is measured, so this must be the only
//! test in this file.
use simulation::part::Part;
use simulation::plan::Plan;
use simulation::world::run_by;
use std::fs;

/// How many schedules run before memory is measured, how many run after that, and by how many kilobytes memory may grow
/// meanwhile.
const FIRST: u64 = 400;
const LATER: u64 = 2_000;
const MOST_GROWTH: u64 = 8_192;

/// Returns the memory of this process in kilobytes.
fn memory() -> u64 {
    let status = fs::read_to_string("/proc/self/status").expect("Linux tells it");
    let line = status.lines().find_map(|it| it.strip_prefix("VmRSS:"));
    let number = line.and_then(|it| it.trim().strip_suffix(" kB"));
    number.and_then(|it| it.parse().ok()).expect("kilobytes")
}

/// Checks that processes and clients leave no memory behind when they have ended, whatever waited in them.
#[test]
fn schedules_leave_no_memory_behind() {
    for part in Part::ALL {
        let pass = |it| drop(run_by(&Plan::of_part(it, part)));
        (0..FIRST).for_each(pass);
        let before = memory();
        (FIRST..FIRST + LATER).for_each(pass);
        let grown = memory().saturating_sub(before);
        assert!(
            grown < MOST_GROWTH,
            "{LATER} schedules of {part} left {grown} kB"
        );
    }
}
