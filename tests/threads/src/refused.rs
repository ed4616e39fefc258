//! Scripts on a cluster where memory is refused: the answers to whole lines are written, and the same run once more writes all.

use sm_cluster::{Counts, Open};
use sm_explain::{Listener, Sentence};
use sm_lines::{Dialogue, RunFault, Status};
use sm_load::Counting;
use sm_ranges::Key;
use sm_threads::{CountsListener, KeyCount, run_threads_explained};
use std::alloc::Global;
use std::io::{Read, Write};
use std::process::Abort;
use std::sync::Wait;
use std::thread::Threads;
use test_lines::stops::{Runs, is_written_in_two};

/// Settings of two servers with a worker each, and of one shard; and lines after them.
const SCRIPT: &[u8] =
    b"{\"version\":1,\"bounds\":[\"\"],\"servers\":[{\"id\":1,\"domain\":0,\"capacity\":1},{\"id\":2,\"domain\":1,\"capacity\":1}],\"groups\":[{\"limit\":1,\"down\":1}],\"shards\":[{\"group\":0,\"load\":1,\"cap\":1}],\"ops\":1,\"kept\":100,\"ceiling\":1000,\"workers\":1}\nplace\nassign 0 1\npublish 0\nput a one\nclient append a  two\nat 1 scan a b 9\nat 2 get a\ncheckpoint 0 1\ndrain 1\nlook 0\n";

const ANSWERS: &[u8] =
    b"plan 0>1 left\nok\nok\ndone @1#0\ndone @1#1\npairs 1 1:a t7:one two @1#2\nrefused NotExecutor\nok\nplan 0>2 left\nServing 1 0 idle 9\n";

/// Runs scripts on a cluster, and tells an ear why lines were refused and what the cluster counted.
#[derive(Drop)]
struct Told<'a, R> {
    rt: &'a R,
}

/// It hears all, and keeps nothing.
#[derive(Clone, Copy, Drop)]
struct Ear;

impl Listener for Ear {
    fn hear(&self, _line: u64, _answer: &str, _sentence: Sentence) {}
}

impl CountsListener for Ear {
    fn hear_counts(&self, _counts: &Counts) {}
}

impl<T: Threads + Wait + Clone + Send + Sync + Drop + 'static> Runs for Told<'_, T> {
    fn run_on<R: Read + Drop, W: Write + Drop>(
        &self,
        alloc: Global,
        reader: R,
        writer: W,
    ) -> Result<Status, RunFault> {
        let mut dialogue = Dialogue::new(alloc, reader, writer)?;
        run_threads_explained(self.rt, alloc, &mut dialogue, &Open, Ear, Ear)
    }
}

// The requests of a load on a key, each made again where memory is refused.
fn asks_in_two<R: Abort>(rt: &R, alloc: Global) {
    let key = Key::new(alloc, b"a").ok().expect(rt, "a key");
    let count = KeyCount { alloc, key };
    assert!(rt; count.get().is_ok() || count.get().is_ok());
    assert!(rt; count.inc().is_ok() || count.inc().is_ok());
}

// With each allocation refused in turn (`tools/run-tests` does it), those of the cluster's threads too.
#[test]
fn refused_memory_stops_between_lines(rt: HostRuntime) {
    let alloc = rt.alloc();
    let room = Vec::with_capacity(alloc, 400);
    let mut written: Vec<u8> = room.ok().expect(&rt, "memory");
    let told = Told { rt: &rt };
    assert!(rt; is_written_in_two(&told, alloc, SCRIPT, &mut written, ANSWERS));
    asks_in_two(&rt, alloc);
}
