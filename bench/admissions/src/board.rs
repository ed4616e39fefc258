//! The proved board. Each loop makes its own, as a board can't cross to Rust.

unsafe extern "C" {
    fn bench_rule_looks(looks: u64) -> u64;
    fn bench_rule_chained_looks(looks: u64) -> u64;
    fn bench_rule_admissions(tries: u64) -> u64;
    fn bench_rule_executions(tries: u64) -> u64;
    fn bench_rule_refusals(tries: u64) -> u64;
    fn bench_rule_notes(notes: u64) -> u64;
    fn bench_rule_meetings(notes: u64) -> u64;
}

pub fn looks(operations: u64) -> u64 {
    // SAFETY: bench_rule of crate/ defines it with this signature; its allocator has no bytes, and so isn't passed.
    unsafe { bench_rule_looks(operations) }
}

pub fn chained_looks(operations: u64) -> u64 {
    // SAFETY: as in `looks`.
    unsafe { bench_rule_chained_looks(operations) }
}

pub fn admissions(operations: u64) -> u64 {
    // SAFETY: as in `looks`.
    unsafe { bench_rule_admissions(operations) }
}

pub fn executions(operations: u64) -> u64 {
    // SAFETY: as in `looks`.
    unsafe { bench_rule_executions(operations) }
}

pub fn refusals(operations: u64) -> u64 {
    // SAFETY: as in `looks`.
    unsafe { bench_rule_refusals(operations) }
}

pub fn notes(operations: u64) -> u64 {
    // SAFETY: as in `looks`.
    unsafe { bench_rule_notes(operations) }
}

pub fn meetings(operations: u64) -> u64 {
    // SAFETY: as in `looks`.
    unsafe { bench_rule_meetings(operations) }
}
