use crate::chance::Chance;
use crate::time::Time;
use std::time::{Duration, Instant};

/// How many ticks an exact clock counts in some time. Other clocks count more or fewer ticks in the same time.
const EXACT: u32 = 1_000;
/// How many of these ticks a clock may lose, if it is within the bound.
pub const DRIFT: u32 = 300;
/// Each clock begins at a time below this, in seconds.
const LATEST: u64 = 1_000;

/// The clock of a machine, which all its processes read. It begins at a random time, and may be fast or slow. It never
/// goes back.
#[derive(Clone)]
pub struct MachineClock {
    time: Time,
    began: Duration,
    ticks: u32,
}

/// How exact the clocks of a schedule are.
#[derive(Clone, Copy, Debug, PartialEq, Eq)]
pub enum Clocks {
    /// All clocks are exact.
    Exact,
    /// No clock is slower than the bound.
    Within,
    /// Some clocks may be slower than the bound.
    Beyond,
}

impl Clocks {
    /// Draws how exact the clocks of a schedule are.
    pub fn drawn(chance: &mut Chance) -> Clocks {
        match chance.below(8) {
            0..=2 => Clocks::Exact,
            3..=6 => Clocks::Within,
            _ => Clocks::Beyond,
        }
    }

    /// Draws the clock of a machine.
    pub fn of_machine(self, chance: &mut Chance, time: &Time) -> MachineClock {
        let slowest = EXACT - DRIFT;
        let ticks = match (self, chance.below(3)) {
            (Clocks::Exact, _) => EXACT,
            (Clocks::Within, 0) => slowest,
            (Clocks::Within, _) => slowest + chance.below(u64::from(2 * DRIFT) + 1) as u32,
            (Clocks::Beyond, _) => EXACT / 2 + chance.below(u64::from(EXACT)) as u32,
        };
        MachineClock {
            time: time.clone(),
            began: Duration::from_secs(chance.below(LATEST)),
            ticks,
        }
    }

    /// Returns the longest time until each of these clocks has counted this time.
    pub fn longest(self, counted: Duration) -> Duration {
        let slowest = match self {
            Clocks::Exact => EXACT,
            Clocks::Within => EXACT - DRIFT,
            Clocks::Beyond => EXACT / 2,
        };
        counted * EXACT / slowest
    }
}

impl MachineClock {
    /// Returns the time that the clock shows.
    pub fn passed(&self) -> Duration {
        self.began + self.time.passed() * self.ticks / EXACT
    }

    /// Returns this moment. The seed decides only the time between two moments of one machine.
    pub fn now(&self) -> Instant {
        self.time.moment(self.passed())
    }

    /// Returns the moment that is as long ago by this clock as `moment` is by the other clock.
    pub fn moment_of(&self, other: &MachineClock, moment: Instant) -> Instant {
        let passed = other.now().saturating_duration_since(moment);
        let now = self.now();
        now.checked_sub(passed).unwrap_or(now)
    }
}

#[cfg(test)]
mod tests {
    use super::*;

    #[test]
    fn a_clock_within_the_bound_counts_no_less() {
        let (mut chance, time) = (Chance::new(1), Time::new());
        let clocks: Vec<_> = (0..100)
            .map(|_| Clocks::Within.of_machine(&mut chance, &time))
            .collect();
        let began: Vec<_> = clocks.iter().map(MachineClock::passed).collect();
        let counted = Duration::from_millis(u64::from(EXACT - DRIFT));
        time.pass(Clocks::Within.longest(counted).as_millis() as u64);
        let slowest = clocks
            .iter()
            .zip(began)
            .map(|(it, began)| it.passed() - began)
            .min();
        assert_eq!(slowest, Some(counted));
    }

    #[test]
    fn a_moment_is_as_long_ago_by_another_clock() {
        let (mut chance, time) = (Chance::new(2), Time::new());
        let mut clock = || Clocks::Beyond.of_machine(&mut chance, &time);
        let (one, other) = (clock(), clock());
        time.pass(700);
        let moment = one.now();
        time.pass(300);
        let ago = one.now() - moment;
        assert_eq!(other.now() - other.moment_of(&one, moment), ago);
    }
}
