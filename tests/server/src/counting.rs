//! What the counters of a cluster count.
use crate::calls::shard;
use sm_counts::{Counters, ServerCounts};
use sm_desk::Command;
use sm_ownership::change::Change;
use sm_ranges::ServerId;
use std::alloc::{AllocError, Global};
use std::process::Abort;
use std::test::Fail;

// A change of a shard is counted there. It is the example of the crate's documentation.
#[test]
fn counts_a_change(rt: HostRuntime) -> Result<(), Fail> {
    let (alloc, k, server) = (rt.alloc(), shard(0), ServerId::of(1));
    let counters = Counters::new(alloc, 2, 1)?;
    counters.count_command(&Command::Change(k, Change::Assign(server)));
    assert_eq!(rt; (counters.changes(k), counters.retried()), (1, 0));
    Ok(())
}

// Counters of two servers and three shards, made again where memory is refused.
fn counters_in_two<R: Abort>(rt: &R, alloc: Global) -> Counters {
    match Counters::new(alloc, 2, 3) {
        Ok(counters) => counters,
        Err(AllocError) => Counters::new(alloc, 2, 3).ok().expect(rt, "the counters"),
    }
}

// What was counted of the servers, told again where memory is refused.
fn rows_in_two<R: Abort>(rt: &R, alloc: Global, counters: &Counters) -> Vec<ServerCounts> {
    let servers = [ServerId::of(1), ServerId::of(2)];
    match counters.servers(alloc, &servers) {
        Ok(rows) => rows,
        Err(AllocError) => counters
            .servers(alloc, &servers)
            .ok()
            .expect(rt, "the rows"),
    }
}

// With each allocation refused in turn (`tools/run-tests` does it).
#[test]
fn refused_memory_changes_nothing(rt: HostRuntime) {
    let (alloc, k) = (rt.alloc(), shard(2));
    let counters = counters_in_two(&rt, alloc);
    counters.count_command(&Command::Change(k, Change::Pause));
    let rows = rows_in_two(&rt, alloc, &counters);
    assert!(rt; rows.len() == 2 && rows.iter().all(|row| row.by_fate == [0; 14]));
    assert!(rt; counters.changes(k) == 1);
}
