use super::used;
use std::sync::atomic::{AtomicBool, AtomicU64, Ordering};
use std::sync::{Mutex, TryLockError};
use std::time::{Duration, Instant};

/// How much of the process' memory may be in use before commands are refused whose data may take more.
pub static CEILING: Ceiling = Ceiling::new();

/// The next check comes after one part in so many of the bytes that are left; but not before this many bytes, and not
/// before one part in so many of all.
const OF_LEFT: u64 = 8;
const LEAST_STEP: u64 = 64 << 10;
const OF_ALL: u64 = 1_024;
/// The least time before the next check after commands were refused.
const PAUSE: Duration = Duration::from_millis(10);
/// A check that took long is followed by a pause of so many times its length, but of no more than this. If so many
/// times the bytes came that were allowed before the next check, it is checked sooner.
const REST: u32 = 20;
const LONGEST_REST: Duration = Duration::from_millis(100);
const MUCH: u64 = 4;

/// How much memory may be in use, and whether more is. The process' memory isn't measured at each command. It is
/// measured once clients have sent so much, or commands have made so much of less, that the bound could be exceeded.
#[derive(Debug)]
pub struct Ceiling {
    /// How many bytes may be in use; 0 means any number.
    most: AtomicU64,
    is_passed: AtomicBool,
    /// How many bytes came since the last check, and after how many the next check is due.
    came: AtomicU64,
    step: AtomicU64,
    /// The earliest time of the next check.
    earliest: Mutex<Option<Instant>>,
}

impl Ceiling {
    const fn new() -> Ceiling {
        Ceiling {
            most: AtomicU64::new(0),
            is_passed: AtomicBool::new(false),
            came: AtomicU64::new(0),
            step: AtomicU64::new(0),
            earliest: Mutex::new(None),
        }
    }

    /// Sets how many bytes may be in use; 0 means any number.
    pub fn set(&self, most: u64) {
        self.most.store(most, Ordering::Relaxed);
        self.look();
    }

    /// Returns how many bytes may be in use; 0 means any number.
    pub fn most(&self) -> u64 {
        self.most.load(Ordering::Relaxed)
    }

    /// Notes that so many bytes came from a client, by which data may grow; or that a command made data grow by so many
    /// bytes that the client didn't send.
    #[inline]
    pub fn note_came(&self, bytes: usize) {
        if self.most() == 0 {
            return;
        }
        let came = self.came.fetch_add(bytes as u64, Ordering::Relaxed) + bytes as u64;
        if came >= self.step.load(Ordering::Relaxed) {
            self.look();
        }
    }

    /// Returns whether more is in use than allowed. If so, it measures again, because data may have been deleted.
    #[inline]
    pub fn is_passed(&self) -> bool {
        self.is_passed.load(Ordering::Relaxed) && self.look()
    }

    /// Measures whether more is in use than allowed, unless it has just been measured.
    #[cold]
    pub fn look(&self) -> bool {
        let most = self.most();
        let earliest = match self.earliest.try_lock() {
            Err(TryLockError::WouldBlock) => None,
            Err(TryLockError::Poisoned(it)) => Some(it.into_inner()),
            Ok(it) => Some(it),
        };
        // Another thread measures, or has just measured.
        let Some(mut earliest) = earliest else {
            return self.is_passed.load(Ordering::Relaxed);
        };
        let began = Instant::now();
        let is_passed = self.is_passed.load(Ordering::Relaxed);
        let much = MUCH * self.step.load(Ordering::Relaxed);
        let is_much = !is_passed && self.came.load(Ordering::Relaxed) >= much;
        if most == 0 || !is_much && earliest.is_some_and(|it| began < it) {
            return is_passed;
        }
        let used = used();
        let left = most.saturating_sub(used);
        let step = (left / OF_LEFT).max(most / OF_ALL).max(LEAST_STEP);
        self.step.store(step, Ordering::Relaxed);
        self.came.store(0, Ordering::Relaxed);
        self.is_passed.store(used > most, Ordering::Relaxed);
        let rest = (began.elapsed() * REST).min(LONGEST_REST);
        let rest = if used > most { rest.max(PAUSE) } else { rest };
        *earliest = Some(began + rest);
        used > most
    }
}
