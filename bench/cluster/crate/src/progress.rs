//! What the threads of a run share.
use crate::plan::Plan;
use crate::tally::Tally;
use std::alloc::Global;
use std::rt::Clock;
use std::sync::atomic::{AtomicBool, AtomicU64, Ordering};
use std::thread;
use std::time::Instant;

/// How often a thread looks for another one's turn before it gives up.
const LOOKS: u32 = 1_000_000;

/// The turn of a client that makes no more calls.
const LEFT: u64 = u64::MAX;

/// How a client gets on, and what it was told once it has left.
#[derive(Drop)]
struct Seat {
    turn: AtomicU64,
    acked: AtomicU64,
    refused: AtomicU64,
    longest: AtomicU64,
    told: AtomicU64,
}

/// How a run gets on.
#[derive(Drop)]
pub(crate) struct Progress {
    pub(crate) plan: Plan,
    start: Instant,
    marks: [AtomicU64; 4],
    seats: Vec<Seat>,
    is_over: AtomicBool,
}

impl Seat {
    fn new() -> Seat {
        Seat {
            turn: AtomicU64::new(0),
            acked: AtomicU64::new(0),
            refused: AtomicU64::new(0),
            longest: AtomicU64::new(0),
            told: AtomicU64::new(0),
        }
    }

    fn leave(&self, tally: Tally) {
        self.acked.store(tally.acked, Ordering::SeqCst);
        self.refused.store(tally.refused, Ordering::SeqCst);
        self.longest.store(tally.longest, Ordering::SeqCst);
        self.told.store(tally.told, Ordering::SeqCst);
        self.turn.store(LEFT, Ordering::SeqCst);
    }

    fn tally(&self) -> Tally {
        Tally {
            acked: self.acked.load(Ordering::SeqCst),
            refused: self.refused.load(Ordering::SeqCst),
            longest: self.longest.load(Ordering::SeqCst),
            told: self.told.load(Ordering::SeqCst),
        }
    }

    // Waits until the call that may be under way has ended.
    fn wait_turn(&self) {
        let turn = self.turn.load(Ordering::SeqCst);
        for _ in 0..LOOKS {
            if turn == LEFT || self.turn.load(Ordering::SeqCst) != turn {
                return;
            }
            thread::yield_now();
        }
    }
}

impl Progress {
    /// A run that starts now, or none where the clock or memory is refused.
    pub(crate) fn new(rt: &impl Clock, alloc: Global, plan: Plan) -> Option<Progress> {
        Some(Progress {
            plan,
            start: Instant::now(rt).ok()?,
            marks: [
                AtomicU64::new(0),
                AtomicU64::new(0),
                AtomicU64::new(0),
                AtomicU64::new(0),
            ],
            seats: seats_of(alloc, plan.clients)?,
            is_over: AtomicBool::new(false),
        })
    }

    /// Notes that this part of the run, 0 to 3, has ended.
    pub(crate) fn note(&self, rt: &impl Clock, part: usize) {
        if let Some(mark) = self.marks.get(part) {
            mark.store(self.nanoseconds(rt), Ordering::SeqCst);
        }
    }

    /// The nanoseconds from the start to the end of each part.
    pub(crate) fn marks(&self) -> [u64; 4] {
        let [first, second, third, fourth] = &self.marks;
        [
            first.load(Ordering::SeqCst),
            second.load(Ordering::SeqCst),
            third.load(Ordering::SeqCst),
            fourth.load(Ordering::SeqCst),
        ]
    }

    /// The nanoseconds since the start.
    pub(crate) fn nanoseconds(&self, rt: &impl Clock) -> u64 {
        match self.start.elapsed(rt) {
            Ok(time) => u64::try_from(time.as_nanos()).unwrap_or(0),
            Err(_) => 0,
        }
    }

    /// The same where calls are timed, else 0.
    pub(crate) fn mark(&self, rt: &impl Clock) -> u64 {
        if self.plan.is_directed() {
            self.nanoseconds(rt)
        } else {
            0
        }
    }

    /// How many calls each client makes at most.
    pub(crate) fn turns(&self) -> u64 {
        match self.plan.calls {
            0 => u64::MAX,
            calls => u64::from(calls),
        }
    }

    /// Whether clients that go on until the direction has ended are to leave.
    pub(crate) fn is_over(&self) -> bool {
        self.plan.calls == 0 && self.is_over.load(Ordering::SeqCst)
    }

    /// The direction has ended.
    pub(crate) fn end(&self) {
        self.is_over.store(true, Ordering::SeqCst);
    }

    /// The client has made a call.
    pub(crate) fn count_turn(&self, client: usize, turn: u64) {
        if let Some(seat) = self.seats.get(client) {
            seat.turn.store(turn.wrapping_add(1), Ordering::SeqCst);
        }
    }

    /// The client makes no more calls.
    pub(crate) fn leave(&self, client: usize, tally: Tally) {
        if let Some(seat) = self.seats.get(client) {
            seat.leave(tally);
        }
    }

    /// Waits until all calls that may be under way have ended.
    pub(crate) fn wait_round(&self) {
        for seat in self.seats.iter() {
            seat.wait_turn();
        }
    }

    /// What all clients were told that have left.
    pub(crate) fn tally(&self) -> Tally {
        let mut all = Tally::new();
        for seat in self.seats.iter() {
            all.add(seat.tally());
        }
        all
    }
}

fn seats_of(alloc: Global, clients: usize) -> Option<Vec<Seat>> {
    let mut seats = Vec::new(alloc);
    for _ in 0..clients {
        seats.push(Seat::new()).ok()?;
    }
    Some(seats)
}
