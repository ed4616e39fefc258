//! How the guessing of passwords is slowed down.
use std::collections::HashMap;
use std::net::IpAddr;
use std::sync::{Mutex, PoisonError};
use std::time::{Duration, Instant};

/// How many wrong passwords cost nothing, because people mistype them.
const FREE: u32 = 3;
/// How long a guess waits at first. Each next one waits twice as long, up to the most.
const FIRST: Duration = Duration::from_millis(10);
const LONGEST: Duration = Duration::from_secs(1);
/// Wrong passwords are forgotten if no other one comes for this long.
const FORGOTTEN: Duration = Duration::from_secs(60);
/// The most origins that are remembered at a time.
const MOST: usize = 4_096;

/// The origin of clients: an IPv4 address, or the IPv6 network that one site usually has.
#[derive(Clone, Copy, Debug, PartialEq, Eq, Hash)]
pub struct ClientOrigin(u64);

impl From<IpAddr> for ClientOrigin {
    fn from(address: IpAddr) -> ClientOrigin {
        match address.to_canonical() {
            IpAddr::V4(four) => ClientOrigin(u32::from(four).into()),
            // No network of IPv6 in use begins with so many zeros.
            IpAddr::V6(six) => ClientOrigin((u128::from(six) >> 64) as u64),
        }
    }
}

/// The origins of recent wrong passwords.
#[derive(Debug, Default)]
pub struct Guesses {
    wrong: Mutex<HashMap<ClientOrigin, Wrong>>,
}

#[derive(Clone, Copy, Debug)]
struct Wrong {
    count: u32,
    last: Instant,
}

impl Wrong {
    fn is_forgotten(&self, now: Instant) -> bool {
        now.saturating_duration_since(self.last) >= FORGOTTEN
    }
}

impl Guesses {
    /// Returns how long a guess from this origin waits before it is checked, on a connection that has given so many
    /// wrong ones.
    pub fn wait(&self, origin: ClientOrigin, of_connection: u32, now: Instant) -> Duration {
        let wrong = self.wrong.lock().unwrap_or_else(PoisonError::into_inner);
        let found = wrong.get(&origin).filter(|it| !it.is_forgotten(now));
        let of_origin = found.map_or(0, |it| it.count);
        wait_after(of_origin.max(of_connection))
    }

    /// Notes that a wrong password came from there. If too many origins are remembered, the oldest one is forgotten.
    pub fn note_wrong(&self, origin: ClientOrigin, now: Instant) {
        let mut wrong = self.wrong.lock().unwrap_or_else(PoisonError::into_inner);
        if wrong.len() >= MOST && !wrong.contains_key(&origin) {
            wrong.retain(|_, it| !it.is_forgotten(now));
            let oldest = wrong.iter().min_by_key(|it| it.1.last).map(|it| *it.0);
            oldest
                .filter(|_| wrong.len() >= MOST)
                .map(|it| wrong.remove(&it));
        }
        let last = now;
        let found = wrong.entry(origin).or_insert(Wrong { count: 0, last });
        let before = match found.is_forgotten(now) {
            true => 0,
            false => found.count,
        };
        let count = before.saturating_add(1);
        *found = Wrong { count, last };
    }
}

/// Returns how long a guess waits after so many wrong ones.
fn wait_after(wrong: u32) -> Duration {
    match wrong.checked_sub(FREE) {
        None => Duration::ZERO,
        Some(more) => LONGEST.min(FIRST.saturating_mul(1 << more.min(16))),
    }
}

#[cfg(test)]
mod tests {
    use super::*;

    fn origin(address: &str) -> ClientOrigin {
        address.parse::<IpAddr>().unwrap().into()
    }

    #[test]
    fn each_wrong_password_makes_the_next_guess_wait_longer() {
        let (guesses, here, there) = (Guesses::default(), origin("10.0.0.1"), origin("10.0.0.2"));
        let now = Instant::now();
        let waits = (0..12).map(|_| {
            guesses.note_wrong(here, now);
            guesses.wait(here, 0, now).as_millis()
        });
        let wanted = [0, 0, 10, 20, 40, 80, 160, 320, 640, 1_000, 1_000, 1_000];
        assert_eq!(waits.collect::<Vec<_>>(), wanted);
        assert_eq!(guesses.wait(there, 2, now), Duration::ZERO);
        assert_eq!(guesses.wait(there, 4, now), 2 * FIRST);
        (0..200).for_each(|_| guesses.note_wrong(here, now));
        assert_eq!(guesses.wait(here, u32::MAX, now), LONGEST);
        assert_eq!(guesses.wait(here, 0, now + FORGOTTEN), Duration::ZERO);
    }

    #[test]
    fn a_place_has_one_origin() {
        assert_eq!(origin("::ffff:10.0.0.1"), origin("10.0.0.1"));
        assert_eq!(origin("2001:db8:1:2:3::4"), origin("2001:db8:1:2::"));
        assert_ne!(origin("2001:db8:1:2::"), origin("2001:db8:1:3::"));
    }

    #[test]
    fn no_more_origins_are_known_than_there_is_room_for() {
        let guesses = Guesses::default();
        for number in 0..3 * MOST as u32 {
            guesses.note_wrong(IpAddr::V4(number.into()).into(), Instant::now());
        }
        assert_eq!(guesses.wrong.lock().unwrap().len(), MOST);
    }
}
