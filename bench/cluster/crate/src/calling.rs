//! Clients, each in a thread of its own, whose requests add 1 to a count.
use crate::progress::Progress;
use crate::tally::Tally;
use sm_cluster::Client;
use sm_load::load;
use sm_ranges::key::Key;
use sm_service::{CounterText, Request};
use sm_threads::KeyCount;
use std::alloc::Global;
use std::rt::Clock;
use std::sync::Wait;
use std::thread;
use std::thread::Threads;

/// How many threads call at most.
const MOST_THREADS: usize = 64;

/// Has all clients make their calls.
pub(crate) fn call_all<R: Threads + Wait + Clock + Sync>(
    rt: &R,
    alloc: Global,
    clients: &mut [Client<CounterText>],
    run: &Progress,
) {
    let each = |at: usize, client: &mut Client<CounterText>| {
        call_each(rt, alloc, run, at, client)
    };
    thread::for_each_mut(rt, clients, MOST_THREADS, &each);
}

// Makes the calls of one client.
fn call_each<R: Wait + Clock>(
    rt: &R,
    alloc: Global,
    run: &Progress,
    at: usize,
    client: &mut Client<CounterText>,
) {
    let mut tally = Tally::new();
    for turn in 0..run.turns() {
        if run.is_over() {
            break;
        }
        let before = run.mark(rt);
        insist(
            rt,
            alloc,
            run,
            run.plan.key_at(at, turn),
            client,
            &mut tally,
        );
        tally.longest = tally.longest.max(run.mark(rt).saturating_sub(before));
        run.count_turn(at, turn);
    }
    run.leave(at, tally);
}

// Makes a call, and makes it anew until it is answered, or as often as the plan says.
fn insist<R: Wait>(
    rt: &R,
    alloc: Global,
    run: &Progress,
    key: [u8; 3],
    client: &mut Client<CounterText>,
    tally: &mut Tally,
) {
    for _ in 0..run.plan.tries() {
        if call(rt, alloc, key, client, tally) {
            return;
        }
        thread::yield_now();
    }
}

// Makes a call, and says whether it was answered.
fn call<R: Wait>(
    rt: &R,
    alloc: Global,
    key: [u8; 3],
    client: &mut Client<CounterText>,
    tally: &mut Tally,
) -> bool {
    let Ok(key) = Key::new(alloc, &key) else {
        return false;
    };
    match client.call(rt, alloc, 7, Request::Inc(key, 1)) {
        Ok(answer) => {
            tally.answered(&client.learn(answer).reply);
            true
        }
        Err(_) => {
            tally.refused = tally.refused.wrapping_add(1);
            false
        }
    }
}

/// Has `load` make the calls of all clients but the first.
pub(crate) fn load_all<R: Threads + Wait + Sync>(
    rt: &R,
    alloc: Global,
    clients: &mut [Client<CounterText>],
    run: &Progress,
) {
    let Ok(key) = Key::new(alloc, b"\0\0load") else {
        return;
    };
    if clients.len() < 2 || clients.len() > MOST_THREADS {
        return;
    }
    let report = load(rt, alloc, clients, &KeyCount { alloc, key }, run.plan.calls);
    let after = report.after.unwrap_or(0);
    let tally = Tally {
        acked: report.acked,
        refused: report.refused,
        longest: 0,
        told: u64::try_from(after).unwrap_or(0),
    };
    run.leave(0, tally);
}
