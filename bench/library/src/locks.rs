//! A lock for each shard round its count, of std and of parking_lot. Neither knows an owner.
use crate::count_store::{CountStore, CountWorker, SHARDS};
use std::sync::Mutex;

pub struct OfStd(Vec<Mutex<u64>>);

impl CountStore for OfStd {
    type Worker<'a> = &'a OfStd;

    fn new() -> OfStd {
        OfStd((0..SHARDS).map(|_| Mutex::new(0)).collect())
    }

    fn worker(&self) -> &OfStd {
        self
    }
}

impl CountWorker for &OfStd {
    fn look(&mut self, shard: usize) -> u64 {
        *self.0[shard].lock().expect("no thread panics")
    }

    fn count(&mut self, shard: usize) -> u64 {
        let mut count = self.0[shard].lock().expect("no thread panics");
        *count += 1;
        *count
    }
}

pub struct OfParkingLot(Vec<parking_lot::Mutex<u64>>);

impl CountStore for OfParkingLot {
    type Worker<'a> = &'a OfParkingLot;

    fn new() -> OfParkingLot {
        OfParkingLot((0..SHARDS).map(|_| parking_lot::Mutex::new(0)).collect())
    }

    fn worker(&self) -> &OfParkingLot {
        self
    }
}

impl CountWorker for &OfParkingLot {
    fn look(&mut self, shard: usize) -> u64 {
        *self.0[shard].lock()
    }

    fn count(&mut self, shard: usize) -> u64 {
        let mut count = self.0[shard].lock();
        *count += 1;
        *count
    }
}
