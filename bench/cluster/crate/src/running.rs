//! A whole run, from the start of its cluster to the stop.
use crate::calling::{call_all, load_all};
use crate::directing::direct;
use crate::plan::{Direction, Plan};
use crate::progress::Progress;
use crate::starting::{assign_all, start, stop};
use crate::tally::Tally;
use sm_cluster::{Client, Cluster};
use sm_service::CounterText;
use std::alloc::Global;
use std::rt::Clock;
use std::sync::Wait;
use std::thread::{Threads, join_mut};

/// What came of a run.
#[derive(Drop)]
pub(crate) struct Outcome {
    pub(crate) tally: Tally,
    /// How many requests the bodies have applied.
    pub(crate) applied: u64,
    /// The nanoseconds from the run's start until the cluster was started, all shards were published, all clients had
    /// left, and the cluster was stopped.
    pub(crate) marks: [u64; 4],
    /// The nanoseconds of each migration, or how many steps by chance were made.
    pub(crate) figures: Vec<u64>,
}

/// Runs the plan, or answers nothing where a size, memory, a thread or the clock is refused, or a stop gives no bodies.
pub(crate) fn run<R: Threads + Wait + Clock + Clone + Send + Sync + Drop + 'static>(
    rt: &R,
    alloc: Global,
    plan: Plan,
) -> Option<Outcome> {
    let progress = Progress::new(rt, alloc, plan)?;
    let (cluster, clients) = start(rt, alloc, plan)?;
    progress.note(rt, 0);
    let (applied, figures) = run_started(rt, alloc, cluster, clients, &progress)?;
    Some(Outcome {
        tally: progress.tally(),
        applied,
        marks: progress.marks(),
        figures,
    })
}

// How many requests the bodies have applied at the stop, and the figures of what was done.
fn run_started<R: Threads + Wait + Clock + Sync>(
    rt: &R,
    alloc: Global,
    mut cluster: Cluster<CounterText>,
    clients: Vec<Client<CounterText>>,
    progress: &Progress,
) -> Option<(u64, Vec<u64>)> {
    assign_all(rt, &mut cluster, progress.plan);
    progress.note(rt, 1);
    let figures = work(rt, alloc, &mut cluster, clients, progress);
    let applied = stop(rt, alloc, cluster)?;
    progress.note(rt, 3);
    Some((applied, figures))
}

// Has the clients call, beside what the plan says, until all have left.
fn work<R: Threads + Wait + Clock + Sync>(
    rt: &R,
    alloc: Global,
    cluster: &mut Cluster<CounterText>,
    mut clients: Vec<Client<CounterText>>,
    progress: &Progress,
) -> Vec<u64> {
    let figures = match progress.plan.direction {
        Direction::Load => {
            load_all(rt, alloc, clients.as_mut_slice(), progress);
            Vec::new(alloc)
        }
        _ => call_beside(rt, alloc, cluster, clients.as_mut_slice(), progress),
    };
    progress.note(rt, 2);
    figures
}

// Has the clients call in threads of their own, beside what the plan says.
fn call_beside<R: Threads + Wait + Clock + Sync>(
    rt: &R,
    alloc: Global,
    cluster: &mut Cluster<CounterText>,
    clients: &mut [Client<CounterText>],
    progress: &Progress,
) -> Vec<u64> {
    let (_, figures) = join_mut(
        rt,
        &mut || call_all(rt, alloc, clients, progress),
        &mut || direct(rt, alloc, cluster, progress),
    );
    figures
}
