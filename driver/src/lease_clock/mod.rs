mod look;
#[cfg(test)]
mod machine;
mod moment;

use look::Look;
#[cfg(test)]
pub(crate) use machine::Machine;
pub(crate) use moment::Moment;
use std::sync::{PoisonError, RwLock, TryLockError};
use std::time::Duration;

/// For this long after a look, the clocks are compared with that look, so that looks of many threads don't wait for
/// each other.
const RECENT: Duration = Duration::from_millis(1);

/// The clock by which leases are judged. It goes on while the machine is suspended, because CLOCK_BOOTTIME does.
///
/// CLOCK_BOOTTIME stops while a guest is paused. The guest learns of its pause only if its CLOCK_REALTIME is then set
/// forward, so this clock adds each step forward. If a step wasn't a pause, a lease ends early. A step back takes
/// nothing away.
pub(crate) struct LeaseClock {
    look: Box<dyn Fn() -> Look + Send + Sync>,
    /// The last look, and the sum of all steps that were seen until then.
    seen: RwLock<(Look, Duration)>,
}

impl LeaseClock {
    /// Makes a clock from this function, which reads the machine's clocks. It is called for each moment.
    fn new(look: impl Fn() -> Look + Send + Sync + 'static) -> LeaseClock {
        LeaseClock {
            seen: RwLock::new((look(), Duration::ZERO)),
            look: Box::new(look),
        }
    }

    /// Makes a clock from this function, which returns the time since some beginning and must never go back.
    pub(crate) fn by(passed: impl Fn() -> Duration + Send + Sync + 'static) -> LeaseClock {
        LeaseClock::new(move || {
            let passed = passed();
            Look::of(passed, passed, passed)
        })
    }

    /// Returns this moment, which isn't before any moment that was returned earlier.
    pub(crate) fn now(&self) -> Moment {
        let (last, steps) = *self.seen.read().unwrap_or_else(PoisonError::into_inner);
        // It is later than the last look, which was noted before.
        let look = (self.look)();
        // A step that another thread has noted meanwhile may have been taken back before this look.
        let again = self.seen.read().unwrap_or_else(PoisonError::into_inner).1;
        let is_stepless = steps == again && look.is_stepless_since(&last);
        if is_stepless && look.is_within(RECENT, &last) {
            return look.moment(steps);
        }
        let mut seen = match self.seen.try_write() {
            Ok(seen) => seen,
            // Another thread is noting a look about as late as this one.
            Err(TryLockError::WouldBlock) if is_stepless => return look.moment(steps),
            Err(_) => self.seen.write().unwrap_or_else(PoisonError::into_inner),
        };
        // If another thread has noted a look meanwhile, this one may be earlier. From now on no thread does.
        let look = if seen.0 == last { look } else { (self.look)() };
        let (last, steps) = *seen;
        *seen = (look, steps.saturating_add(look.step_since(&last)));
        look.moment(seen.1)
    }
}

impl Default for LeaseClock {
    /// Returns the clock of this machine.
    fn default() -> LeaseClock {
        LeaseClock::new(Look::now)
    }
}

#[cfg(test)]
mod tests {
    use super::*;

    const SECOND: Duration = Duration::from_secs(1);

    /// Returns how much time has passed by a machine's clock after each of these was done to it.
    fn passed(done: &[&dyn Fn(&Machine)]) -> Duration {
        let machine = Machine::default();
        let clock = machine.clock();
        let began = clock.now();
        done.iter().for_each(|it| {
            it(&machine);
            clock.now();
        });
        clock.now().since(began)
    }

    #[test]
    fn it_goes_on_with_the_machine() {
        assert_eq!(passed(&[]), Duration::ZERO);
        let goes_on = |it: &Machine| it.go_on(SECOND);
        assert_eq!(passed(&[&goes_on, &goes_on]), 2 * SECOND);
    }

    #[test]
    fn it_goes_on_over_pauses() {
        let goes_on = |it: &Machine| it.go_on(SECOND);
        let pauses = |it: &Machine| it.pause(3 * SECOND);
        assert_eq!(passed(&[&pauses, &goes_on, &pauses]), 7 * SECOND);
    }

    #[test]
    fn a_step_back_takes_nothing_away_and_hides_no_pause() {
        let goes_on = |it: &Machine| it.go_on(SECOND);
        let is_set_back = |it: &Machine| it.set_back(100 * SECOND);
        let pauses = |it: &Machine| it.pause(3 * SECOND);
        assert_eq!(passed(&[&goes_on, &is_set_back, &goes_on]), 2 * SECOND);
        assert_eq!(passed(&[&is_set_back, &pauses, &goes_on]), 4 * SECOND);
    }

    #[test]
    fn a_slew_changes_it_by_no_more_than_the_slew() {
        let is_fast = |it: &Machine| {
            it.go_on(SECOND);
            it.pause(SECOND / 2000);
        };
        let is_slow = |it: &Machine| {
            it.go_on(SECOND);
            it.set_back(SECOND / 2000);
        };
        assert_eq!(passed(&[&is_fast, &is_slow]), 2 * SECOND + SECOND / 2000);
    }

    #[test]
    fn looks_of_many_threads_go_on_and_count_each_pause_once() {
        let machine = Machine::default();
        let clock = machine.clock();
        let began = clock.now();
        std::thread::scope(|scope| {
            let look = || {
                let mut last = clock.now();
                for _ in 0..2_000 {
                    let now = clock.now();
                    assert!(now >= last, "{now:?} {last:?}");
                    last = now;
                }
            };
            (0..4).for_each(|_| drop(scope.spawn(look)));
            for _ in 0..100 {
                machine.go_on(SECOND / 3_000);
                machine.pause(SECOND);
                machine.set_back(SECOND);
                machine.pause(SECOND);
            }
        });
        let passed = clock.now().since(began);
        // The looks together take no longer than the machine ran, and a step may be counted short by the time that its
        // looks took.
        let (paused, ran) = (100 * SECOND, 100 * (SECOND / 3_000));
        assert!(passed >= paused, "{passed:?}");
        assert!(passed <= 2 * paused + ran, "{passed:?}");
    }

    #[test]
    fn looks_that_take_long_are_no_steps() {
        let machine = Machine::default();
        let clock = machine.clock();
        let began = clock.now();
        for looks_for in [1, 30, 2] {
            machine.look_for(looks_for * SECOND);
            clock.now();
        }
        machine.look_for(Duration::ZERO);
        assert_eq!(clock.now().since(began), 2 * 33 * SECOND);
    }

    #[test]
    fn the_clocks_of_this_machine_go_on() {
        let clock = LeaseClock::default();
        let (began, by_monotonic) = (clock.now(), std::time::Instant::now());
        std::thread::sleep(Duration::from_millis(20));
        let passed_by_monotonic = by_monotonic.elapsed();
        let passed = clock.now().since(began);
        assert!(passed >= passed_by_monotonic, "{passed:?}");
    }
}
