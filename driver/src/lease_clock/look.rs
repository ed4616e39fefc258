use super::Moment;
use rustix::time::{clock_gettime, clock_gettime_dynamic, ClockId, DynamicClockId};
use std::time::{Duration, SystemTime, UNIX_EPOCH};

/// The machine's clocks at one look.
#[derive(Clone, Copy, Debug, PartialEq, Eq)]
pub(super) struct Look {
    /// CLOCK_BOOTTIME before the other clock was read, and after that.
    before: Duration,
    after: Duration,
    /// CLOCK_REALTIME, since 1970.
    real: Duration,
}

impl Look {
    /// Reads the clocks.
    pub(super) fn now() -> Look {
        let before = booted();
        // A clock that was set to before 1970 counts as standing there.
        let real = SystemTime::now().duration_since(UNIX_EPOCH);
        Look::of(before, real.unwrap_or_default(), booted())
    }

    /// Makes a look with these clock readings, in this order.
    pub(super) fn of(before: Duration, real: Duration, after: Duration) -> Look {
        Look {
            before,
            after,
            real,
        }
    }

    /// Returns how much further CLOCK_REALTIME went on than CLOCK_BOOTTIME since an earlier look, beyond the time that
    /// the looks took.
    pub(super) fn step_since(&self, earlier: &Look) -> Duration {
        let passed = self.after.saturating_sub(earlier.before);
        let passed_by_real = self.real.saturating_sub(earlier.real);
        passed_by_real.saturating_sub(passed)
    }

    /// Returns whether CLOCK_REALTIME went on as far as CLOCK_BOOTTIME since an earlier look, within the time that the
    /// looks took.
    pub(super) fn is_stepless_since(&self, earlier: &Look) -> bool {
        let least = self.before.saturating_sub(earlier.after);
        self.step_since(earlier).is_zero() && self.real >= earlier.real.saturating_add(least)
    }

    /// Returns whether this look ended so soon after an earlier one began.
    pub(super) fn is_within(&self, time: Duration, earlier: &Look) -> bool {
        self.after.saturating_sub(earlier.before) < time
    }

    /// Returns the moment of the look's end, after steps of this sum.
    pub(super) fn moment(&self, steps: Duration) -> Moment {
        Moment(self.after.saturating_add(steps))
    }
}

/// Reads CLOCK_BOOTTIME, which Linux has had since 2.6.39.
fn booted() -> Duration {
    let told = clock_gettime_dynamic(DynamicClockId::Boottime);
    let told = told.unwrap_or_else(|_| clock_gettime(ClockId::Monotonic));
    // Neither is negative, and the nanoseconds are less than a second.
    let seconds = u64::try_from(told.tv_sec).unwrap_or(0);
    Duration::from_secs(seconds) + Duration::from_nanos(u64::try_from(told.tv_nsec).unwrap_or(0))
}
