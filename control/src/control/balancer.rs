use super::advance::Advance;
use super::balance::Balance;
use super::balanced_shares::{BalancedShares, EveningMove, LeftOut};
use super::controller::Controller;
use super::task::Task;
use super::Refusal;
use durkenzo_driver::{ControlCommand, ServerState};
use std::time::{Duration, Instant};

/// How often it reads the loads that servers have told.
const READING: Duration = Duration::from_secs(2);
/// After how long a shard or a server that refused a move is tried again, if nothing has changed before.
const AGAIN: Duration = Duration::from_secs(60);

/// The part of a leader that evens out by itself how much servers have to do, while nothing else is under way. It
/// chooses the shards; proved code decides whether each of them may move.
#[derive(Debug)]
pub(super) struct Balancer {
    due: Instant,
    /// When it reads loads next.
    reading_due: Instant,
    /// The servers that are up and there, as they were seen last.
    seen: Vec<u16>,
    /// How many changes the control had made then.
    made: u64,
    /// Since when those have been the same, except for this balancer's moves.
    calm_since: Instant,
    /// Whether shards move until servers are even.
    is_evening: bool,
    left_out: LeftOut,
    /// Until when those are left out.
    left_out_until: Instant,
    /// The shards that it moves.
    moving: Vec<u16>,
}

impl Balancer {
    /// Makes the balancer of a process that leads from now on.
    pub(super) fn new(now: Instant) -> Balancer {
        Balancer {
            due: now,
            reading_due: now,
            seen: Vec::new(),
            made: 0,
            calm_since: now,
            is_evening: false,
            left_out: LeftOut::default(),
            left_out_until: now,
            moving: Vec::new(),
        }
    }

    /// Begins to move shards if that is due and nothing else is under way. If the store doesn't let it, it tries again
    /// later.
    pub(super) fn go_on(&mut self, control: &mut Controller) {
        let (now, balance) = (control.now(), control.host.balance());
        if balance == Balance::Off || now < self.due {
            return;
        }
        self.due = now + balance.pause();
        if let Err(refusal) = self.look(control) {
            tracing::info!(%refusal, "no shard moves to even out servers for now");
            control.is_lost |= refusal.is_of_leader();
        }
    }

    fn look(&mut self, control: &mut Controller) -> Result<(), Refusal> {
        let now = control.now();
        if !self.is_calm(control)? {
            (self.calm_since, self.is_evening) = (now, false);
            return Ok(());
        }
        let moves = !control.tasks.is_empty();
        if moves || now.saturating_duration_since(self.calm_since) < control.host.calm() {
            return Ok(());
        }
        self.moving.clear();
        if now >= self.left_out_until {
            self.left_out = LeftOut::default();
        }
        if now >= self.reading_due {
            control.read_loads()?;
            self.reading_due = now + READING;
        }
        let mut shares = BalancedShares::of(control)?;
        self.is_evening = shares.is_uneven(self.is_evening);
        for _ in 0..control.host.balance().most_at_once() {
            match shares.next(&self.left_out).filter(|_| self.is_evening) {
                Some(found) => self.begin(found, control)?,
                None => break,
            }
        }
        Ok(())
    }

    /// Returns whether nothing has changed and nothing is under way, except moves of this balancer; no server restarts;
    /// and the servers that are up and there are those that were seen last.
    fn is_calm(&mut self, control: &mut Controller) -> Result<bool, Refusal> {
        let is_own = |it: &Task| {
            it.shard_going_on()
                .is_some_and(|it| self.moving.contains(&it))
        };
        let are_own = control.tasks.iter().all(is_own);
        let is_unchanged = control.made == self.made || !self.moving.is_empty();
        self.made = control.made;
        let (mut seen, mut is_restarting) = (Vec::new(), false);
        for server in 1..=control.backend.servers() {
            match control.backend.state_of(server)? {
                ServerState::Up if control.is_there(server) => seen.push(server),
                // It has failed, or is about to.
                ServerState::Up | ServerState::Failed => {}
                ServerState::Asked | ServerState::Approved | ServerState::Stopped => {
                    is_restarting = true;
                }
            }
        }
        let is_same = seen == self.seen;
        if !is_same {
            // Perhaps there is room now.
            (self.seen, self.left_out) = (seen, LeftOut::default());
        }
        let is_calm = are_own && is_unchanged && is_same;
        Ok(is_calm && !is_restarting && control.paused.is_empty())
    }

    /// Begins the move, if the proved control allows it.
    fn begin(&mut self, found: EveningMove, control: &mut Controller) -> Result<(), Refusal> {
        let EveningMove {
            shard, from, to, ..
        } = found;
        match control.step(ControlCommand::PrepareAddShard(shard, to)) {
            Ok(Advance::Later) => return Ok(()),
            Ok(_) => {}
            // It may have been made, whatever the store says.
            Err(refusal) if refusal.is_of_store() => {
                self.go_on_with(shard, control);
                return Err(refusal);
            }
            Err(refusal) => {
                tracing::debug!(%refusal, shard, from, to, "a shard stays though servers are uneven");
                self.leave_out(&found, &refusal, control.now());
                return Ok(());
            }
        }
        let (weight, from_weight, to_weight) = (found.weight, found.from_weight, found.to_weight);
        tracing::info!(
            shard,
            from,
            to,
            weight,
            from_weight,
            to_weight,
            "the shard moves, to even out servers"
        );
        control.host.note_balanced();
        self.go_on_with(shard, control);
        Ok(())
    }

    fn go_on_with(&mut self, shard: u16, control: &mut Controller) {
        self.moving.push(shard);
        control.tasks.push(Task::going_on(shard));
    }

    /// Leaves out the shard or the destination of a move that was refused.
    fn leave_out(&mut self, found: &EveningMove, refusal: &Refusal, now: Instant) {
        self.left_out_until = now + AGAIN;
        match refusal.is_of_shard() {
            true => self.left_out.shards.insert(found.shard),
            false => self.left_out.servers.insert(found.to),
        };
    }
}

#[cfg(test)]
mod tests {
    use super::super::plain_backend::{asked, PlainBackend};
    use super::*;
    use durkenzo::Stand;
    use durkenzo_driver::ShardLoad;

    /// A control with a balancer, over shards that all are at server 1.
    struct Balanced {
        backend: PlainBackend,
        control: Controller,
        balancer: Balancer,
    }

    impl Balanced {
        fn of(shards: usize, balance: Balance) -> Balanced {
            let backend = PlainBackend::of(shards, Stand::Serving(1));
            backend.plain().lasts = true;
            backend.plain().balance = balance;
            let control = backend.control();
            let balancer = Balancer::new(control.now());
            Balanced {
                backend,
                control,
                balancer,
            }
        }

        /// Goes on for so many seconds. Returns how many shards are at server 2 then.
        fn after(&mut self, seconds: u64) -> usize {
            for _ in 0..seconds * 50 {
                self.backend.plain().passed += Duration::from_millis(20);
                self.control.run_tasks();
                self.balancer.go_on(&mut self.control);
            }
            let stands = &self.backend.plain().stands;
            stands.iter().filter(|it| **it == Stand::Serving(2)).count()
        }
    }

    #[test]
    fn shards_move_slowly_once_nothing_has_changed_for_a_while() {
        let mut slow = Balanced::of(64, Balance::Slow);
        assert_eq!(slow.after(9), 0);
        let moved = slow.after(6);
        assert!((1..=6).contains(&moved), "{moved}");
        let moved = slow.after(60);
        assert!((29..=32).contains(&moved), "{moved}");
        // It is even, so nothing moves any more.
        assert_eq!(slow.after(60), moved);
    }

    #[test]
    fn many_shards_move_at_once_if_that_is_asked_for() {
        let moved = Balanced::of(64, Balance::Fast).after(4);
        assert!((29..=32).contains(&moved), "{moved}");
    }

    #[test]
    fn nothing_moves_by_itself_if_balancing_is_off() {
        let mut off = Balanced::of(64, Balance::Off);
        assert_eq!(off.after(120), 0);
        assert!(off.control.tasks.is_empty());
    }

    #[test]
    fn nothing_moves_soon_after_somebody_has_moved_a_shard() {
        let mut slow = Balanced::of(8, Balance::Slow);
        assert_eq!(slow.after(8), 0);
        let moved = asked(&mut slow.control, "SM MIGRATE 0 2");
        assert_eq!(slow.after(9), 1);
        moved.try_recv().unwrap().unwrap();
        assert!(slow.after(5) > 1);
    }

    #[test]
    fn nothing_moves_while_a_server_restarts() {
        let mut slow = Balanced::of(8, Balance::Slow);
        slow.backend.plain().approved = Some(2);
        assert_eq!(slow.after(60), 0);
        slow.backend.plain().approved = None;
        assert_eq!(slow.after(9), 0);
        assert!(slow.after(10) > 0);
    }

    #[test]
    fn no_shard_goes_to_a_server_that_was_drained() {
        let mut slow = Balanced::of(8, Balance::Slow);
        let drained = asked(&mut slow.control, "SM DRAIN 2");
        assert_eq!(slow.after(60), 0);
        drained.try_recv().unwrap().unwrap();
        asked(&mut slow.control, "SM UNDRAIN 2")
            .try_recv()
            .unwrap()
            .unwrap();
        let moved = slow.after(60);
        assert!((3..=4).contains(&moved), "{moved}");
    }

    /// Has each server tell its shards' loads. It measures a shard for five seconds before it tells that one.
    fn tell_loads(slow: &Balanced, loads: &[u32], owners: &mut Vec<Stand>) {
        let mut plain = slow.backend.plain();
        let known = owners.iter().zip(&plain.stands).map(|it| it.0 == it.1);
        let rows = (0..).zip(&plain.stands).zip(loads).zip(known);
        let told = rows.filter_map(|(((shard, stand), requests), is_known)| {
            let Stand::Serving(owner) = *stand else {
                return None;
            };
            let load = ShardLoad {
                requests: *requests,
                kibibytes: 0,
            };
            is_known.then_some((owner, shard, load))
        });
        plain.loads = told.collect();
        owners.clone_from(&plain.stands);
    }

    /// Of 256 shards the k-th has a load of k to the power of -0.8, and each of eight servers has the same number. By a
    /// power of -1, the first shard alone would be 1.3 times the mean.
    #[test]
    fn a_load_by_zipf_evens_out_within_a_minute_by_few_moves() {
        for balance in [Balance::Slow, Balance::Fast] {
            let mut it = Balanced::of(256, balance);
            it.backend.plain().servers = 8;
            let begun: Vec<_> = (0..256).map(|it| Stand::Serving(it / 32 + 1)).collect();
            it.backend.plain().stands.clone_from(&begun);
            let loads = (1..=256).map(|it| (20_000.0 / f64::from(it).powf(0.8)) as u32);
            let loads: Vec<u32> = loads.collect();
            let mut owners = begun.clone();
            for _ in 0..12 {
                tell_loads(&it, &loads, &mut owners);
                it.after(5);
            }
            let stands = it.backend.plain().stands.clone();
            let load_of = |server| {
                let own = stands
                    .iter()
                    .zip(&loads)
                    .filter(|it| *it.0 == Stand::Serving(server));
                own.map(|it| *it.1).sum::<u32>()
            };
            let of_servers: Vec<u32> = (1..=8).map(load_of).collect();
            let (most, sum) = (
                of_servers.iter().max().unwrap(),
                of_servers.iter().sum::<u32>(),
            );
            assert!(most * 8 * 10 <= sum * 12, "{of_servers:?}");
            let moves = it.backend.plain().balanced;
            assert!((1..=25).contains(&moves), "{moves}, {of_servers:?}");
        }
    }

    #[test]
    fn a_shard_whose_move_is_refused_holds_up_no_others() {
        let mut slow = Balanced::of(8, Balance::Slow);
        slow.backend.plain().spent = (4..8).collect();
        let moved = slow.after(60);
        assert!((3..=4).contains(&moved), "{moved}");
        let stands = slow.backend.plain().stands.clone();
        assert_eq!(stands[4..], [Stand::Serving(1); 4]);
    }
}
