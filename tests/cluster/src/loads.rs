//! What a load adds up to.
use crate::running::{bodies_of, inc_of, kept_of, setup_of, shard};
use sm_cluster::{Cluster, Open};
use sm_desk::Command;
use sm_load::{Counting, load};
use sm_ownership::Change;
use sm_ranges::{Key, ServerId};
use sm_service::{Reply, Request};
use std::alloc::{AllocError, Global};
use std::test::Fail;

/// Requests on one key.
#[derive(Drop)]
pub(crate) struct Increments {
    pub(crate) alloc: Global,
    pub(crate) key: Key,
}

impl Counting<Request, Reply> for Increments {
    ghost use Rattle.std.specs.Prelude.{pos};
    ghost use Rattle.test_cluster.specs.Counts.{count_of};
    ghost use Rattle.sm_service.specs.declared.request.Request.TheVariants.{Get, Inc};

    ghost asks = { λ increments. Get increments.key };

    ghost adds = { λ increments. Inc increments.key (pos 1) };

    ghost tells = { λ increments. count_of };

    fn get(&self) -> Result<Request, AllocError> {
        Ok(Request::Get(self.key.try_clone(self.alloc)?))
    }

    fn inc(&self) -> Result<Request, AllocError> {
        Ok(Request::Inc(self.key.try_clone(self.alloc)?, 1))
    }

    fn count(&self, reply: &Reply) -> Option<i64> {
        match reply {
            Reply::Count(count) => Some(*count),
            _ => None,
        }
    }
}

// Four clients make 25 incs each. What was answered is the difference of the counts, and with both gets what the body keeps.
#[test]
fn load_adds_up(rt: HostRuntime) -> Result<(), Fail> {
    let (alloc, k) = (rt.alloc(), shard(0));
    let key = Key::new(alloc, b"a")?;
    let (setup, bodies) = (setup_of(alloc)?, bodies_of(alloc, 1_000, None)?);
    let (mut cluster, mut clients) = Cluster::start(&rt, alloc, setup, bodies, 2, 5, Open)
        .ok()
        .expect(&rt, "a cluster");
    let assigned = Command::Change(k, Change::Assign(ServerId::of(1)));
    assert!(rt; cluster.command(assigned).is_ok() && cluster.publish(&rt, k).is_ok());
    let increments = Increments { alloc, key };
    let report = load(&rt, alloc, clients.as_mut_slice(), &increments, 25);
    assert!(rt; report.acked + report.refused == 100 && report.acked > 0);
    assert!(rt; report.before == Some(0));
    assert!(rt; report.after.and_then(|after| u64::try_from(after).ok()) == Some(report.acked));
    drop(clients);
    let rows = cluster
        .stop(&rt, Vec::new(alloc))
        .ok()
        .expect(&rt, "no client is out");
    assert!(rt; kept_of(&rows, k).map(|kept| kept as u64) == Some(report.acked.wrapping_add(2)));
    Ok(())
}

// A shard that keeps at most 10 requests is full after the first count and 9 of 20 incs. The others are refused, and so is the last count.
#[test]
fn load_counts_what_is_refused(rt: HostRuntime) -> Result<(), Fail> {
    let (alloc, k) = (rt.alloc(), shard(0));
    let key = Key::new(alloc, b"a")?;
    let (setup, bodies) = (setup_of(alloc)?, bodies_of(alloc, 10, None)?);
    let (mut cluster, mut clients) = Cluster::start(&rt, alloc, setup, bodies, 2, 5, Open)
        .ok()
        .expect(&rt, "a cluster");
    let assigned = Command::Change(k, Change::Assign(ServerId::of(1)));
    assert!(rt; cluster.command(assigned).is_ok() && cluster.publish(&rt, k).is_ok());
    let increments = Increments { alloc, key };
    let report = load(&rt, alloc, clients.as_mut_slice(), &increments, 5);
    assert!(rt; report.acked == 9 && report.refused == 11);
    assert!(rt; report.before == Some(0) && report.after.is_none());
    drop(clients);
    let rows = cluster
        .stop(&rt, Vec::new(alloc))
        .ok()
        .expect(&rt, "no client is out");
    assert!(rt; kept_of(&rows, k) == Some(10));
    Ok(())
}

// While the shard is held, each inc is made anew, and refused at last. Once it is free, each is answered.
#[test]
fn load_of_a_held_shard(rt: HostRuntime) -> Result<(), Fail> {
    let (alloc, k, one) = (rt.alloc(), shard(0), ServerId::of(1));
    let key = Key::new(alloc, b"a")?;
    let (setup, bodies) = (setup_of(alloc)?, bodies_of(alloc, 100, None)?);
    let (mut cluster, mut clients) = Cluster::start(&rt, alloc, setup, bodies, 1, 3, Open)
        .ok()
        .expect(&rt, "a cluster");
    let assigned = Command::Change(k, Change::Assign(one));
    assert!(rt; cluster.command(assigned).is_ok() && cluster.publish(&rt, k).is_ok());
    let increments = Increments { alloc, key };
    assert!(rt; cluster.hold(k, one).is_ok());
    let held = load(&rt, alloc, clients.as_mut_slice(), &increments, 1);
    assert!(rt; held.acked == 0 && held.refused == 2);
    assert!(rt; held.before.is_none() && held.after.is_none());
    assert!(rt; cluster.free(k).is_ok());
    assert!(rt; clients.len() == 3);
    let free = load(&rt, alloc, clients.as_mut_slice(), &increments, 1);
    assert!(rt; free.acked == 2 && free.refused == 0);
    assert!(rt; free.before == Some(0) && free.after == Some(2));
    drop(clients);
    assert!(rt; cluster.stop(&rt, Vec::new(alloc)).is_ok());
    Ok(())
}
