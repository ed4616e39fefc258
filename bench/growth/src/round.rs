//! A round: threads make requests for a while. If shards must move, another thread moves them meanwhile.
use crate::round_result::RoundResult;
use crate::sizes::Sizes;
use std::sync::atomic::{AtomicBool, Ordering::Relaxed};
use std::sync::Barrier;
use std::thread;
use std::time::{Duration, Instant};

/// How long a thread sleeps at most before it checks again whether the round is over.
const NAP: Duration = Duration::from_millis(5);

/// The state that the threads of a round share. By it they begin together, and end soon after each other.
pub struct TimedRound {
    start: Barrier,
    is_over: AtomicBool,
}

impl TimedRound {
    /// Waits until all threads are ready.
    pub fn begin(&self) {
        self.start.wait();
    }

    pub fn is_over(&self) -> bool {
        self.is_over.load(Relaxed)
    }

    /// Does the work at this rate a second until the round is over, or less often if it takes longer. Returns how often
    /// it was done. The work gets the number of times that it was done before.
    pub fn paced(&self, rate: u64, mut work: impl FnMut(u64)) -> u64 {
        let (began, mut made) = (Instant::now(), 0);
        while !self.is_over() {
            let next = Duration::from_secs_f64(made as f64 / rate as f64);
            match next.checked_sub(began.elapsed()) {
                Some(early) => thread::sleep(early.min(NAP)),
                None => {
                    work(made);
                    made += 1;
                }
            }
        }
        made
    }
}

/// Runs a round with this many threads. Each makes requests, and returns how many it made and the times of some. If
/// shards must move, one thread moves them, and returns how many it moved.
pub fn run(
    sizes: &Sizes,
    threads: usize,
    work: impl Fn(usize, &TimedRound) -> (u64, Vec<u64>) + Sync,
    migrate: impl FnOnce(&TimedRound) -> u64 + Send,
) -> RoundResult {
    let is_moving = sizes.migrations > 0;
    let round = &TimedRound {
        start: Barrier::new(threads + usize::from(is_moving) + 1),
        is_over: AtomicBool::new(false),
    };
    thread::scope(|scope| {
        let work = &work;
        let workers: Vec<_> = (0..threads)
            .map(|thread| scope.spawn(move || work(thread, round)))
            .collect();
        let mover = is_moving.then(|| scope.spawn(move || migrate(round)));
        round.begin();
        let began = Instant::now();
        thread::sleep(Duration::from_millis(sizes.milliseconds));
        round.is_over.store(true, Relaxed);
        let taken = began.elapsed();
        let told: Vec<_> = workers
            .into_iter()
            .map(|it| it.join().expect("no thread panics"))
            .collect();
        RoundResult {
            requests: told.iter().map(|it| it.0).sum(),
            migrations: mover.map_or(0, |it| it.join().expect("no thread panics")),
            taken,
            times: told.into_iter().flat_map(|it| it.1).collect(),
        }
    })
}
