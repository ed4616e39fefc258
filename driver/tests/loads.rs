//! A process tells the leader how much its shards have to do, under its lease.
mod common;

use common::{add, led};
use durkenzo_driver::{
    Acks, Addresses, Chores, Clock, Durable, DurableControl, Member, Own, ShardLoad, ShardOptions,
};
use durkenzo_store::{Embedded, Store};
use std::sync::atomic::{AtomicU64, Ordering};
use std::sync::Arc;
use std::thread;
use std::time::{Duration, Instant};

/// The length of the lease, so long that it isn't lost on a busy machine.
const LEASE: Duration = Duration::from_secs(60);

/// A process of server 1, which owns both shards. The test sets the time by which its shards go.
struct Process {
    durable: Arc<Durable>,
    chores: Chores,
    control: DurableControl,
    passed: Arc<AtomicU64>,
}

impl Process {
    fn new(measures: bool) -> Process {
        let store: Arc<dyn Store> = Arc::new(Embedded::in_memory());
        let (at, on_change) = (Addresses::default(), Box::new(|| {}));
        let member = Arc::new(Member::join(store.clone(), 1, at, LEASE, on_change).unwrap());
        let (began, passed) = (Instant::now(), Arc::new(AtomicU64::new(0)));
        let seconds = passed.clone();
        let clock =
            Clock::new(move || began + Duration::from_secs(seconds.load(Ordering::Relaxed)));
        let (elsewhere, acks) = (Box::new(|_, _| {}), Acks::AsRead);
        let own = Own {
            member,
            elsewhere,
            acks,
        };
        let options = ShardOptions::default();
        let (durable, chores) =
            Durable::open_without_threads(store, 2, options, own, clock).unwrap();
        let durable = Arc::new(durable);
        if measures {
            durable.measure_loads();
        }
        let control = led(&durable);
        Process {
            durable,
            chores,
            control,
            passed,
        }
    }

    /// Lets a measurement end after so many requests a second of shard 1. Returns the loads that are told.
    fn measured(&mut self, requests: u64) -> Vec<(u16, u16, ShardLoad)> {
        (0..5 * requests).for_each(|_| self.durable.count_request(1));
        self.passed.fetch_add(5, Ordering::Relaxed);
        self.chores.tell_loads();
        self.control.loads().unwrap()
    }
}

fn load(shard: u16, requests: u32) -> (u16, u16, ShardLoad) {
    let kibibytes = 0;
    let load = ShardLoad {
        requests,
        kibibytes,
    };
    (1, shard, load)
}

#[test]
fn loads_are_told_under_the_lease_and_go_with_it() {
    let mut process = Process::new(true);
    process.measured(0);
    assert_eq!(process.measured(40), [load(0, 0), load(1, 40)]);
    assert_eq!(process.measured(80), [load(0, 0), load(1, 60)]);
    process.durable.member().unwrap().leave();
    assert_eq!(process.control.loads().unwrap(), []);
}

#[test]
fn requests_and_bytes_of_shards_are_counted() {
    let mut process = Process::new(true);
    process.measured(0);
    process.measured(0);
    thread::scope(|scope| {
        let asking = process.durable.clone();
        let asked = scope.spawn(move || (0..20).for_each(|_| drop(add(&asking, 0, b"k", 1))));
        while !asked.is_finished() {
            while let Some(tell) = process.chores.read(0) {
                tell();
            }
            process.chores.tick();
        }
    });
    // Four a second, of which half counts.
    let mut told = process.measured(30);
    assert!((1..10).contains(&told[0].2.kibibytes), "{told:?}");
    told[0].2.kibibytes = 0;
    assert_eq!(told, [load(0, 2), load(1, 15)]);
}

#[test]
fn nothing_is_told_if_loads_are_not_measured() {
    let mut process = Process::new(false);
    assert_eq!(process.measured(40), []);
    assert_eq!(process.measured(40), []);
}
