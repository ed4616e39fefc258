use super::look::Look;
use super::LeaseClock;
use std::sync::{Arc, Mutex};
use std::time::Duration;

/// A machine whose clocks a test moves.
#[derive(Clone, Debug)]
pub(crate) struct Machine(Arc<Mutex<Clocks>>);

#[derive(Debug)]
struct Clocks {
    boot: Duration,
    real: Duration,
    /// How long it takes to get from one clock to the next one at a look.
    looks_for: Duration,
}

impl Machine {
    /// Returns the clock of leases on this machine.
    pub(crate) fn clock(&self) -> LeaseClock {
        let machine = self.clone();
        LeaseClock::new(move || machine.look())
    }

    /// Lets time pass: the machine runs, or is suspended and wakes up.
    pub(crate) fn go_on(&self, time: Duration) {
        let mut clocks = self.0.lock().unwrap();
        clocks.boot += time;
        clocks.real += time;
    }

    /// Pauses the guest for so long, and sets its clock when it goes on.
    pub(crate) fn pause(&self, time: Duration) {
        self.0.lock().unwrap().real += time;
    }

    /// Sets the machine's clock back.
    pub(crate) fn set_back(&self, time: Duration) {
        self.0.lock().unwrap().real -= time;
    }

    /// Makes each look wait so long between one clock and the next.
    pub(crate) fn look_for(&self, time: Duration) {
        self.0.lock().unwrap().looks_for = time;
    }

    fn look(&self) -> Look {
        let wait = self.0.lock().unwrap().looks_for;
        let before = self.0.lock().unwrap().boot;
        self.go_on(wait);
        let real = self.0.lock().unwrap().real;
        self.go_on(wait);
        let after = self.0.lock().unwrap().boot;
        Look::of(before, real, after)
    }
}

impl Default for Machine {
    fn default() -> Machine {
        Machine(Arc::new(Mutex::new(Clocks {
            boot: Duration::from_secs(100),
            real: Duration::from_secs(1_000_000),
            looks_for: Duration::ZERO,
        })))
    }
}
