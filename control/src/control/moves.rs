//! Migrations of one task that are under way at the same time.
//!
//! Several tasks may move shards at the same time. No two of them move shards back and forth forever:
//!
//! - **Two drains for good**: only one of them moves shards at a time (`Controller::is_drained_now`). The later one may
//!   send shards to the server that was drained before.
//! - **A drain for good and a spread**: the spread doesn't count the drain's server, from the drain's beginning, also
//!   while it waits for another drain, until the spread's end. So that server gets no shards from the spread, and loses
//!   none to it. The next leader knows of drains that aren't over. A shard that is on its way there when the drain
//!   begins gets there, and the drain moves it on.
//! - **A drain for good and a return home**: at its beginning the drain withdraws the intents by which shards come home
//!   to its server. While spreads leave the server out, no shard that leaves it comes home later, whether it leaves for
//!   a restart or because the server fails.
//! - **A drain for good and the drain of a restart**: a server whose restart is approved gets no shard, so only one of
//!   the two can move shards to the other one's server.
//! - **Two drains of restarts**: neither server gets a shard.
//! - **A spread and a return home**: the spread withdraws the return of the shards that it moves, and a return leaves
//!   such a shard alone.
//! - **A spread and the drain of a restart**: the spread counts only servers that are up.
//! - **Two spreads**: each move goes from a server to one that has at least two shards fewer. A shard that the other
//!   spread is moving isn't moved by this one.
//! - **Two returns home**: a shard has one home.
//! - **A migration by hand**, as by `SM MIGRATE`, and any of these: it moves its shard once, and that shard doesn't
//!   come home any more.
use super::advance::Advance;
use super::controller::Controller;
use super::migration::Migration;
use super::task::Task;
use super::Refusal;
use std::collections::BTreeSet;
use std::time::{Duration, Instant};

/// The most migrations of one task that are under way at the same time, if they wait for other processes. Each takes
/// room at two servers meanwhile.
const MOST: usize = 64;
/// How often a waiting migration checks again, while others go on.
const LOOK: Duration = Duration::from_millis(3);

/// Migrations of one task that are under way at the same time. While one waits until servers have acked its record,
/// others take their next steps. If all servers are in one process, nothing waits, and migrations go one after another.
#[derive(Debug, Default)]
pub(super) struct Moves {
    /// They are in the order of their beginnings, and take their steps in that order. So a shard doesn't stay long
    /// between two owners.
    under_way: Vec<Move>,
}

#[derive(Debug)]
struct Move {
    migration: Migration,
    to: u16,
    /// When it takes its next step; at once if no moment is set.
    due: Option<Instant>,
}

/// A migration that isn't under way any more.
#[derive(Debug)]
pub(super) struct EndedMove {
    pub(super) shard: u16,
    /// The destination.
    pub(super) to: u16,
    /// Why it didn't get there, if it was refused.
    pub(super) outcome: Result<(), Refusal>,
}

impl Moves {
    /// Returns whether another migration may begin.
    pub(super) fn has_room(&self, control: &Controller) -> bool {
        let most = if control.peers.is_some() { MOST } else { 1 };
        self.under_way.len() < most
    }

    /// Returns whether no migration is under way.
    pub(super) fn is_empty(&self) -> bool {
        self.under_way.is_empty()
    }

    /// Returns how many are under way.
    pub(super) fn len(&self) -> usize {
        self.under_way.len()
    }

    /// Returns whether the shard's migration is one of them.
    pub(super) fn has(&self, shard: u16) -> bool {
        self.shards().any(|it| it == shard)
    }

    /// Returns the shards that are on their way.
    pub(super) fn shards(&self) -> impl Iterator<Item = u16> + '_ {
        self.under_way.iter().map(|it| it.migration.shard())
    }

    /// Returns whether each has begun, as its shard's record tells.
    pub(super) fn have_begun(&self) -> bool {
        self.under_way.iter().all(|it| it.migration.has_begun())
    }

    /// Adds a migration to this server. Its next step is due at that moment, or at once.
    pub(super) fn add(&mut self, migration: Migration, to: u16, due: Option<Instant>) {
        self.under_way.push(Move { migration, to, due });
    }

    /// Drops migrations to these servers that can't have begun.
    pub(super) fn leave_out(&mut self, servers: &BTreeSet<u16>) {
        let stays = |it: &Move| it.migration.may_have_begun() || !servers.contains(&it.to);
        self.under_way.retain(stays);
    }

    /// Makes the first migration that is due take its next step. If that was the last one, returns the migration.
    ///
    /// # Errors
    ///
    /// If the store doesn't let it go on. Then it stays under way.
    pub(super) fn advance(
        &mut self,
        control: &mut Controller,
    ) -> Result<Option<EndedMove>, Refusal> {
        let is_alone = self.under_way.len() == 1;
        for place in 0..self.under_way.len() {
            let it = &mut self.under_way[place];
            let now = control.now();
            if it.due.is_some_and(|due| now < due) {
                continue;
            }
            let pause = match it.migration.advance(control) {
                Ok(Advance::Done(_)) => return Ok(Some(self.ended(place, Ok(())))),
                Err(refusal) if !refusal.is_of_store() => {
                    return Ok(Some(self.ended(place, Err(refusal))));
                }
                Err(refusal) => return Err(refusal),
                Ok(Advance::Again) => {
                    it.due = Some(control.now() + control.host.pace());
                    return Ok(None);
                }
                Ok(Advance::After(pause)) if is_alone => pause,
                Ok(Advance::After(pause)) => pause.max(LOOK),
                Ok(Advance::Later | Advance::Told(_)) => LOOK,
            };
            // It made no step, so the next one has its turn.
            it.due = Some(now + pause);
        }
        Ok(None)
    }

    fn ended(&mut self, place: usize, outcome: Result<(), Refusal>) -> EndedMove {
        let Move { migration, to, .. } = self.under_way.remove(place);
        EndedMove {
            shard: migration.shard(),
            to,
            outcome,
        }
    }

    /// Returns how their task goes on: as soon as the first of them is due; or after a while if none is under way.
    pub(super) fn wait(&self, control: &Controller) -> Advance {
        let now = control.now();
        let left = |it: &Move| {
            let due = it.due.map(|it| it.saturating_duration_since(now));
            due.unwrap_or_default()
        };
        let first = self.under_way.iter().map(left).min();
        first.map_or(Advance::Later, Advance::After)
    }

    /// Lets the control go on with those under way, because their task ends.
    pub(super) fn hand_over(&mut self, control: &mut Controller) {
        let left = std::mem::take(&mut self.under_way);
        let shards = left.iter().map(|it| it.migration.shard());
        control.tasks.extend(shards.map(Task::going_on));
    }

    /// Ends them as they are: each shard belongs to one server only.
    ///
    /// # Errors
    ///
    /// The first refusal, after all were tried.
    pub(super) fn give_up(&self, control: &mut Controller) -> Result<(), Refusal> {
        let given_up = self
            .under_way
            .iter()
            .map(|it| it.migration.give_up(control));
        given_up.fold(Ok(()), Result::and)
    }
}

#[cfg(test)]
mod tests {
    use super::super::plain_backend::{asked, PlainBackend, Told};
    use super::super::progress::Doing;
    use super::super::ControlAnswer;
    use super::*;
    use durkenzo::Stand;
    use durkenzo_driver::Intent;

    /// Returns backends with four shards of server 1, over a store and in memory.
    fn backends() -> [PlainBackend; 2] {
        [false, true].map(|lasts| {
            let backend = PlainBackend::of(4, Stand::Serving(1));
            backend.plain().lasts = lasts;
            backend
        })
    }

    /// Asks for all these, each in a turn, and goes on to their ends. Returns their answers.
    fn told<const N: usize>(
        backend: &PlainBackend,
        control: &mut Controller,
        lines: [&str; N],
    ) -> [Told; N] {
        let told = lines.map(|it| asked(control, it));
        for _ in 0..10_000 {
            backend.plain().passed += LOOK;
            control.turn(None);
        }
        told.map(|it| it.try_recv().expect("shards go to and fro"))
    }

    fn assert_owned(backend: &PlainBackend, owners: [u16; 4]) {
        assert_eq!(backend.plain().stands, owners.map(Stand::Serving));
    }

    #[test]
    fn a_spread_undoes_no_drain() {
        for backend in backends() {
            let mut control = backend.control();
            for answer in told(&backend, &mut control, ["SM DRAIN 1", "SM SPREAD"]) {
                answer.unwrap();
            }
            assert_owned(&backend, [2; 4]);
        }
    }

    #[test]
    fn a_spread_counts_a_server_whose_drain_has_ended() {
        for backend in backends() {
            let mut control = backend.control();
            let drained = asked(&mut control, "SM DRAIN 1");
            let has_ended = (0..10_000).any(|_| {
                backend.plain().passed += LOOK;
                control.turn(None);
                drained.try_recv().is_ok()
            });
            let [spread] = told(&backend, &mut control, ["SM SPREAD"]);
            assert!(has_ended && spread.is_ok());
            let stands = &backend.plain().stands;
            let count_of = |stand| stands.iter().filter(|it| **it == stand).count();
            assert_eq!([1, 2].map(|it| count_of(Stand::Serving(it))), [2, 2]);
        }
    }

    #[test]
    fn a_drain_moves_what_a_spread_has_go_to_its_server() {
        for (turns, backend) in (0..8).flat_map(|turns| backends().map(|it| (turns, it))) {
            let mut control = backend.control();
            let spread = asked(&mut control, "SM SPREAD");
            for _ in 0..turns {
                control.turn(None);
            }
            let [drained] = told(&backend, &mut control, ["SM DRAIN 2"]);
            drained.unwrap();
            spread.try_recv().unwrap().unwrap();
            assert_owned(&backend, [1; 4]);
        }
    }

    #[test]
    fn a_spread_counts_no_server_whose_drain_waits() {
        for backend in backends() {
            let mut control = backend.control();
            let lines = ["SM DRAIN 1", "SM DRAIN 2", "SM SPREAD"];
            let moves = |to| Ok(ControlAnswer::of_moves((0..4).map(|it| (it, to))));
            let none = Ok(ControlAnswer::Lines(Vec::new()));
            // The later drain may send shards to the server from which the earlier one took them.
            assert_eq!(
                told(&backend, &mut control, lines),
                [moves(2), moves(1), none]
            );
        }
    }

    #[test]
    fn no_shard_comes_home_to_a_server_that_is_drained() {
        let [_, backend] = backends();
        let mut control = backend.control();
        control.have_come_home(0, 1).unwrap();
        assert_eq!(control.shards_of_home(1), [0, 1, 2, 3]);
        let drain = asked(&mut control, "SM DRAIN 1");
        assert!(control.shards_of_home(1).is_empty());
        // It may fail meanwhile, or somebody may ask for its restart.
        control.have_come_home(3, 1).unwrap();
        assert!(control.shards_of_home(1).is_empty());
        told(&backend, &mut control, []);
        drain.try_recv().unwrap().unwrap();
        assert_owned(&backend, [2; 4]);
    }

    #[test]
    fn whoever_leads_next_has_no_shard_come_home_to_a_server_that_is_drained() {
        let [_, backend] = backends();
        backend.plain().intents = vec![Intent::Drain(1)];
        let mut control = backend.control();
        control.note_homes().unwrap();
        control.have_come_home(0, 1).unwrap();
        assert!(control.shards_of_home(1).is_empty());
    }

    #[test]
    fn who_was_drained_is_known_to_each_leader_until_a_spread_or_undrain() {
        for word in ["SM SPREAD", "SM UNDRAIN 1"] {
            let [_, backend] = backends();
            told(&backend, &mut backend.control(), ["SM DRAIN 1"])[0]
                .clone()
                .unwrap();
            assert_eq!(backend.plain().intents, [Intent::Drained(1)]);
            let mut next = backend.control();
            next.go_on_with_intents().unwrap();
            assert_eq!(next.kept_empty, [1].into());
            assert_eq!(backend.plain().doing.get(&1), Some(&Doing::Drained));
            told(&backend, &mut next, [word])[0].clone().unwrap();
            assert!(next.kept_empty.is_empty() && backend.plain().intents.is_empty());
            assert_eq!(backend.plain().doing.get(&1), None);
        }
    }

    #[test]
    fn a_server_without_shards_that_is_drained_is_kept_empty() {
        let [memory, backend] = backends();
        told(&backend, &mut backend.control(), ["SM DRAIN 2"])[0]
            .clone()
            .unwrap();
        assert_eq!(backend.plain().intents, [Intent::Drained(2)]);
        // In memory nobody moves shards unless somebody asks for that.
        told(&memory, &mut memory.control(), ["SM DRAIN 2"])[0]
            .clone()
            .unwrap();
        assert_eq!(memory.plain().intents, []);
    }

    #[test]
    fn a_spread_does_not_undrain_a_server_whose_drain_goes_on() {
        let [_, backend] = backends();
        let mut control = backend.control();
        for answer in told(&backend, &mut control, ["SM DRAIN 1", "SM SPREAD"]) {
            answer.unwrap();
        }
        assert_eq!(control.kept_empty, [1].into());
        let drain = asked(&mut control, "SM DRAIN 2");
        let refused = asked(&mut control, "SM UNDRAIN 2").try_recv().unwrap();
        assert_eq!(refused, Err(Refusal::under_way()));
        let refused = asked(&mut control, "SM UNDRAIN 3").try_recv().unwrap();
        assert_eq!(refused, Err(Refusal::unknown_server()));
        told(&backend, &mut control, []);
        drain.try_recv().unwrap().unwrap();
    }

    #[test]
    fn what_a_spread_moves_comes_home_no_more() {
        let [_, backend] = backends();
        let mut control = backend.control();
        control.homes.extend((0..4).map(|it| (it, 1)));
        let spread = asked(&mut control, "SM SPREAD");
        control.begin_to_come_home().unwrap();
        told(&backend, &mut control, []);
        spread.try_recv().unwrap().unwrap();
        assert!(control.homes.is_empty() && control.tasks.is_empty());
        assert_owned(&backend, [1, 1, 2, 2]);
    }

    #[test]
    fn what_is_moved_by_hand_is_moved_once() {
        for backend in backends() {
            let mut control = backend.control();
            let lines = [
                "SM SPREAD",
                "SM MIGRATE 0 2",
                "SM SPREAD",
                "SM DRAIN 1",
                "SM MIGRATE 1 1",
            ];
            told(&backend, &mut control, lines)[3].clone().unwrap();
            assert!(control.tasks.is_empty());
        }
    }
}
