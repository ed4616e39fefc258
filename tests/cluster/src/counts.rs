//! What a cluster counts while a shard moves under calls.
ghost use Rattle.std.specs.Prelude.{◌≡◌};

use crate::holding::Holding;
use crate::loads::Increments;
use crate::running::{bodies_of, setup_of, shard};
use sm_cluster::{Client, Cluster, Counts, Fate, Open, ServerCounts};
use sm_desk::Command;
use sm_load::load;
use sm_ownership::Change;
use sm_ranges::{Key, ServerId};
use std::alloc::Global;
use std::process::Abort;
use std::sync::Wait;
use std::test::Fail;
use std::thread::Threads;

// Makes the change of shard 0.
fn change<R: Abort>(rt: &R, cluster: &mut Cluster<Holding>, change: Change)
    ensures { cluster.new.control.chair.board ≡ cluster.old.control.chair.board }
{
    assert!(rt; cluster.command(Command::Change(shard(0), change)).is_ok());
}

// Four clients make 25 incs each by the route that was published at first, and a fifth reads the count twice.
fn load_all<R: Threads + Wait + Abort + Sync>(
    rt: &R,
    alloc: Global,
    clients: &mut [Client<Holding>],
    increments: &Increments,
) {
    assert!(rt; clients.len() == 5);
    let report = load(rt, alloc, clients, increments, 25);
    assert!(rt; report.acked + report.refused == 100);
}

// How many envelopes the server took. One that was overtaken was served again, and is counted then.
fn taken(row: &ServerCounts) -> u64 {
    let mut sum = 0u64;
    for count in row.by_fate {
        sum = sum.wrapping_add(count);
    }
    sum.wrapping_sub(row.of(Fate::Raced))
}

// The first server took all calls, and those that it forwarded came to the second one, which took no others.
fn adds_up(counts: &Counts) -> bool {
    let [first, second, third] = counts.servers.as_slice() else {
        return false;
    };
    let [moved, other] = counts.shards.as_slice() else {
        return false;
    };
    taken(first) == counts.retried.wrapping_add(306)
        && taken(second) == first.of(Fate::Forwarded)
        && taken(third) == 0
        && first.of(Fate::Forwarded) > 0
        && moved.admissions
            == first
                .of(Fate::Answered)
                .wrapping_add(second.of(Fate::Answered))
        && moved.changes == 4
        && other.admissions == 0
        && other.changes == 0
}

// Calls are made before a migration, while the first server forwards to the next one, and once that one owns the shard.
#[test]
fn counts_add_up(rt: HostRuntime) -> Result<(), Fail> {
    let alloc = rt.alloc();
    let key = Key::new(alloc, b"a")?;
    let (setup, bodies) = (setup_of(alloc)?, bodies_of(alloc, 1_000, None)?);
    let (mut cluster, mut clients) = Cluster::start(&rt, alloc, setup, bodies, 2, 5, Open)
        .ok()
        .expect(&rt, "a cluster");
    let increments = Increments { alloc, key };
    change(&rt, &mut cluster, Change::Assign(ServerId::of(1)));
    assert!(rt; cluster.publish(&rt, shard(0)).is_ok());
    load_all(&rt, alloc, clients.as_mut_slice(), &increments);
    change(&rt, &mut cluster, Change::PrepareAddShard(ServerId::of(2)));
    change(&rt, &mut cluster, Change::PrepareDropShard);
    load_all(&rt, alloc, clients.as_mut_slice(), &increments);
    change(&rt, &mut cluster, Change::AddShard);
    load_all(&rt, alloc, clients.as_mut_slice(), &increments);
    let counts = cluster.counts(alloc).ok().expect(&rt, "memory");
    assert!(rt; adds_up(&counts));
    drop(clients);
    assert!(rt; cluster.stop(&rt, Vec::new(alloc)).is_ok());
    Ok(())
}
