use super::advance::Advance;
use super::answer::ControlAnswer;
use super::backend::BackendFault;
use super::controller::Controller;
use super::migration::Migration;
use super::moves::{EndedMove, Moves};
use super::planned_moves::PlannedMoves;
use super::progress::{Doing, Share};
use super::Refusal;
use durkenzo::Stand;
use durkenzo_driver::{ControlCommand, Intent, Next};
use std::time::{Duration, Instant};

/// How long until refused moves are planned again.
const PAUSE: Duration = Duration::from_millis(10);

/// The migrations of all shards of a server to the servers in the proved plan.
#[derive(Debug)]
pub(super) struct Drain {
    server: u16,
    /// Whether shards come home when the server is back.
    is_restart: bool,
    /// Whether it is an intent, or may be one, so that the next leader goes on with it.
    is_intended: bool,
    /// Whether the backend has confirmed that it keeps the intent, if it keeps any.
    has_intended: bool,
    /// How many shards must move; nothing before it has begun.
    of: Option<usize>,
    planned: PlannedMoves,
    /// The migrations under way.
    moves: Moves,
    /// Whether no move is planned until one of those under way has ended, because there was none, or no room.
    is_planned: bool,
    /// The shards that moved, and their destinations.
    moved: Vec<(u16, u16)>,
    /// Until when refused moves are planned again.
    end: Option<Instant>,
    /// Until when it waits for others' migrations under way: for the room that they take, or for their shards.
    others_end: Option<Instant>,
    /// Why it is over, until its intent is withdrawn.
    refused: Option<Refusal>,
}

impl Drain {
    /// Returns the drain of the server, for a restart of it or for good.
    pub(super) fn new(server: u16, is_restart: bool) -> Drain {
        Drain {
            server,
            is_restart,
            is_intended: false,
            has_intended: false,
            of: None,
            planned: PlannedMoves::of(server),
            moves: Moves::default(),
            is_planned: false,
            moved: Vec::new(),
            end: None,
            others_end: None,
            refused: None,
        }
    }

    /// Returns a drain for good that has begun.
    pub(super) fn going_on(server: u16) -> Drain {
        Drain {
            is_intended: true,
            has_intended: true,
            ..Drain::new(server, false)
        }
    }

    /// Returns the server that is drained.
    pub(super) fn server(&self) -> u16 {
        self.server
    }

    /// Lets the control go on with the migrations under way, because somebody else decides whether the server leaves.
    pub(super) fn hand_over(&mut self, control: &mut Controller) {
        self.moves.hand_over(control);
    }

    /// Returns whether the next leader goes on with it.
    pub(super) fn is_intended(&self) -> bool {
        self.is_intended
    }

    /// Makes the next step. At the end, tells the destinations of the shards.
    pub(super) fn advance(&mut self, control: &mut Controller) -> Result<Advance, Refusal> {
        let advanced = match self.refused.take() {
            Some(refusal) => Err(refusal),
            None => self.go_on(control),
        };
        let is_over = match &advanced {
            Ok(Advance::Done(_)) => true,
            Ok(_) => false,
            Err(refusal) => !refusal.is_of_store(),
        };
        if is_over {
            self.moves.hand_over(control);
        }
        if !(is_over && self.is_intended) {
            return advanced;
        }
        let withdrawn = control.backend.withdraw(&[Intent::Drain(self.server)]);
        match (advanced, withdrawn) {
            // The next step withdraws it, or the next leader goes on with the drain.
            (Ok(Advance::Done(done)), Err(_)) => Ok(Advance::Told(done)),
            (Err(refusal), Err(fault)) => {
                self.refused = Some(refusal);
                Err(fault.into())
            }
            (advanced, _) => {
                self.is_intended = false;
                advanced
            }
        }
    }

    fn go_on(&mut self, control: &mut Controller) -> Result<Advance, Refusal> {
        if self.of.is_none() {
            self.of = Some(self.begin(control)?);
        }
        if !(self.is_restart || control.is_drained_now(self.server)) {
            control.tell(self.server, Doing::Waiting(None));
            return Ok(Advance::Later);
        }
        if let Some(ended) = self.moves.advance(control)? {
            self.note(ended, control)?;
        }
        match self.moves.has_room(control) && !self.is_planned {
            true => self.begin_next(control),
            false => Ok(self.moves.wait(control)),
        }
    }

    /// Notes the outcome of a move. If it was refused, others go on; with a new plan, if an old plan may be the reason.
    fn note(&mut self, ended: EndedMove, control: &mut Controller) -> Result<(), Refusal> {
        self.is_planned = false;
        let EndedMove { shard, to, outcome } = ended;
        match outcome {
            // If a shard stayed, the plan tells the next step.
            Ok(()) if control.is_at(shard, to)? => {
                self.moved.push((shard, to));
                (self.end, self.others_end) = (None, None);
                Ok(())
            }
            Ok(()) => Ok(()),
            Err(refusal) => self.put_aside(shard, refusal),
        }
    }

    fn put_aside(&mut self, shard: u16, refusal: Refusal) -> Result<(), Refusal> {
        if self.is_restart && refusal.is_for_good() {
            return Err(refusal);
        }
        if !self.planned.forget() {
            self.planned.put_aside(shard, refusal);
        }
        Ok(())
    }

    /// Returns how many shards the server must lose. Fails if there is no such server, or if a shard fits on no other
    /// server and can't wait for this one's return.
    fn begin(&mut self, control: &mut Controller) -> Result<usize, Refusal> {
        if !(1..=control.backend.servers()).contains(&self.server) {
            return Err(Refusal::unknown_server());
        }
        if !self.is_restart {
            // No shard comes home to a server that is drained for good.
            control.forget_homes(self.server)?;
        }
        if !control.backend.lasts() {
            let plan = control.backend.plan(self.server)?;
            if let Some(shard) = plan.left.first() {
                return Err(Refusal::no_room(shard.get()));
            }
        }
        Ok(self.left(control)?.len())
    }

    /// Returns the shards that only this server executes still.
    fn left(&self, control: &mut Controller) -> Result<Vec<u16>, Refusal> {
        let mut left = Vec::new();
        for shard in 0..control.backend.shards() {
            let record = control.backend.record(shard)?;
            if record.is_some_and(|it| it.stand == Stand::Serving(self.server)) {
                left.push(shard);
            }
        }
        Ok(left)
    }

    /// Begins the next move of the plan.
    fn begin_next(&mut self, control: &mut Controller) -> Result<Advance, Refusal> {
        let next = self.planned.next(control)?;
        let is_move = matches!(next, Next::Command(ControlCommand::PrepareAddShard(..)));
        if !is_move && !self.moves.is_empty() {
            // The migrations under way take room, and show which shards are left.
            self.is_planned = true;
            return Ok(self.moves.wait(control));
        }
        match next {
            Next::Waits => Ok(Advance::Later),
            Next::Nothing if self.may_shards_come(control)? => Ok(Advance::After(PAUSE)),
            Next::Nothing => self.ended(control),
            Next::Command(ControlCommand::Pause(shard)) if !control.backend.lasts() => {
                Err(Refusal::no_room(shard))
            }
            Next::Command(ControlCommand::Pause(_)) if self.may_room_come(control)? => {
                Ok(Advance::After(PAUSE))
            }
            Next::Command(command) => {
                self.intend(control, command)?;
                let made = self.make(control, command)?;
                self.tell(control);
                Ok(made)
            }
        }
    }

    /// Returns whether a migration is under way, which takes room at two servers until it ends. Meanwhile no shard is
    /// paused for lack of room, because it would then wait for the server's return.
    fn may_room_come(&mut self, control: &mut Controller) -> Result<bool, Refusal> {
        self.waits_while(control, |stand| match stand {
            Stand::Prepared { .. } | Stand::Forwarding { .. } | Stand::Taken { .. } => true,
            Stand::Vacant | Stand::Serving(_) | Stand::Paused(_) => false,
        })
    }

    /// Returns whether a shard is on its way to the server, because somebody, or a spread, sent it there before the
    /// drain. A restart itself waits for such shards.
    fn may_shards_come(&mut self, control: &mut Controller) -> Result<bool, Refusal> {
        let (server, is_restart) = (self.server, self.is_restart);
        self.waits_while(control, |stand| match stand {
            Stand::Prepared { next: to, .. }
            | Stand::Forwarding { next: to, .. }
            | Stand::Taken { owner: to, .. } => to == server && !is_restart,
            Stand::Vacant | Stand::Serving(_) | Stand::Paused(_) => false,
        })
    }

    /// Returns whether a shard has a stand for whose end the drain waits. It waits only for a while: somebody may go on
    /// with the shard by hand, or not at all.
    fn waits_while(
        &mut self,
        control: &mut Controller,
        is_awaited: impl Fn(Stand) -> bool,
    ) -> Result<bool, Refusal> {
        for shard in 0..control.backend.shards() {
            let record = control.backend.record(shard)?;
            if record.is_some_and(|it| is_awaited(it.stand)) {
                let end = *self.others_end.get_or_insert_with(|| control.patience());
                return Ok(control.now() < end);
            }
        }
        Ok(false)
    }

    /// Ends the drain: except for refused shards, none is left to move.
    fn ended(&mut self, control: &mut Controller) -> Result<Advance, Refusal> {
        let left = self.left(control)?;
        if self.planned.refused().is_some() && !left.is_empty() {
            return self.try_again(control, &left);
        }
        let is_for_good = !self.is_restart && !control.backend.lasts();
        if let Some(shard) = left.first().filter(|_| is_for_good) {
            return Err(Refusal::no_room(*shard));
        }
        if !self.is_restart {
            control.keep_empty(self.server)?;
        }
        if control.peers.is_some() {
            // Those that were under way at the same time ended in any order.
            self.moved.sort_unstable();
        }
        Ok(Advance::Done(ControlAnswer::of_moves(self.moved.drain(..))))
    }

    /// Plans refused moves again for a while, because another task may have their shards.
    fn try_again(&mut self, control: &Controller, left: &[u16]) -> Result<Advance, Refusal> {
        let end = *self.end.get_or_insert_with(|| control.patience());
        let refused = self
            .planned
            .refused()
            .map(|(shard, why)| (shard, why.clone()));
        if control.now() < end && self.planned.take_up_aside() {
            return Ok(Advance::After(PAUSE));
        }
        match refused {
            Some((_, refusal)) if self.is_restart => Err(refusal),
            Some((shard, refusal)) => Err(refusal.with_left(shard, self.server, left)),
            None => Ok(Advance::soon()),
        }
    }

    /// Makes the command. Goes on with the migration that it begins, also if the store doesn't tell that it did.
    fn make(
        &mut self,
        control: &mut Controller,
        command: ControlCommand,
    ) -> Result<Advance, Refusal> {
        let stepped = control.step(command);
        let ControlCommand::PrepareAddShard(shard, to) = command else {
            return stepped;
        };
        match stepped {
            Ok(Advance::Later) => return Ok(Advance::Later),
            Err(refusal) if !refusal.is_of_store() => {
                self.put_aside(shard, refusal)?;
                return Ok(Advance::soon());
            }
            Ok(_) | Err(_) => {}
        }
        let due = control.now() + control.host.pace();
        self.moves.add(Migration::going_on(shard), to, Some(due));
        stepped?;
        Ok(match self.moves.has_room(control) {
            true => Advance::soon(),
            false => self.moves.wait(control),
        })
    }

    /// Before its command, keeps the work as an intent, if the next leader must go on with it.
    fn intend(&mut self, control: &mut Controller, command: ControlCommand) -> Result<(), Refusal> {
        if self.is_restart {
            return match command {
                ControlCommand::PrepareAddShard(shard, _) => {
                    control.have_come_home(shard, self.server)
                }
                _ => Ok(()),
            };
        }
        if !self.has_intended {
            let intents = [Intent::Drain(self.server), Intent::Drained(self.server)];
            let intended = control.backend.intend(&intents);
            let may_lie = intended.as_ref().err().is_none_or(BackendFault::is_unknown);
            // If an earlier attempt may have kept it, a later one doesn't undo that.
            self.is_intended |= may_lie && control.backend.lasts();
            if self.is_intended {
                control.kept_empty.insert(self.server);
            }
            intended?;
            self.has_intended = true;
        }
        Ok(())
    }

    fn tell(&self, control: &Controller) {
        let done = self.moved.len();
        let of = done + self.moves.len();
        let of = of.max(self.of.unwrap_or_default());
        let doing = Doing::Draining(Share { done, of });
        control.tell(self.server, doing);
    }

    /// Ends it as it is: each shard under way belongs to one server only.
    pub(super) fn give_up(&self, control: &mut Controller) -> Result<(), Refusal> {
        self.moves.give_up(control)
    }
}

#[cfg(test)]
mod tests {
    use super::super::plain_backend::PlainBackend;
    use super::*;
    use durkenzo_store::WriteError;

    /// Drains server 1 to the end.
    fn drained(backend: &PlainBackend) -> Result<ControlAnswer, Refusal> {
        ended(backend, Drain::new(1, false))
    }

    /// Runs the drain to its end.
    fn ended(backend: &PlainBackend, mut drain: Drain) -> Result<ControlAnswer, Refusal> {
        let mut control = backend.control();
        loop {
            match drain.advance(&mut control)? {
                Advance::Done(answer) => return Ok(answer),
                Advance::After(wait) => backend.plain().passed += wait,
                Advance::Again | Advance::Later | Advance::Told(_) => {}
            }
        }
    }

    #[test]
    fn a_drain_in_memory_is_planned_once() {
        let backend = PlainBackend::of(50, Stand::Serving(1));
        let told = drained(&backend).unwrap();
        assert_eq!(told, ControlAnswer::of_moves((0..50).map(|it| (it, 2))));
        // It plans before it begins, for its moves, and to find that nothing is left.
        assert!(backend.plain().plans <= 4, "{}", backend.plain().plans);
    }

    #[test]
    fn what_another_task_moved_meanwhile_stays_there() {
        let backend = PlainBackend::of(3, Stand::Serving(1));
        let (mut control, mut drain) = (backend.control(), Drain::new(1, false));
        drain.advance(&mut control).unwrap();
        backend.plain().stands[2] = Stand::Serving(2);
        while backend.plain().stands[1] != Stand::Serving(2) {
            drain.advance(&mut control).unwrap();
        }
        let end = drain.advance(&mut control).unwrap();
        let Advance::Done(told) = end else {
            panic!("{end:?}");
        };
        assert_eq!(told, ControlAnswer::of_moves([(0, 2), (1, 2)]));
    }

    #[test]
    fn no_shard_is_paused_for_want_of_room_while_a_migration_takes_some() {
        let backend = PlainBackend::of(3, Stand::Serving(1));
        let moving = Stand::Prepared { owner: 2, next: 1 };
        (backend.plain().lasts, backend.plain().is_full) = (true, true);
        backend.plain().stands[2] = moving;
        let (mut control, mut drain) = (backend.control(), Drain::new(1, true));
        let waits = drain.advance(&mut control).unwrap();
        assert!(matches!(waits, Advance::After(_)), "{waits:?}");
        // The migration is over, so there is room.
        (backend.plain().stands[2], backend.plain().is_full) = (Stand::Serving(2), false);
        drain.advance(&mut control).unwrap();
        let begun = Stand::Prepared { owner: 1, next: 2 };
        assert_eq!(backend.plain().stands[0], begun);
        // Without a migration there is nothing for which to wait.
        (backend.plain().stands[0], backend.plain().is_full) = (Stand::Serving(2), true);
        ended(&backend, Drain::new(1, true)).unwrap();
        assert_eq!(backend.plain().stands[1], Stand::Paused(1));
    }

    #[test]
    fn a_drain_waits_for_a_while_for_shards_on_their_way_to_its_server() {
        let moving = Stand::Prepared { owner: 2, next: 1 };
        let backend = PlainBackend::of(1, moving);
        let mut drain = Drain::new(1, false);
        let waits = drain.advance(&mut backend.control()).unwrap();
        assert!(matches!(waits, Advance::After(_)), "{waits:?}");
        backend.plain().stands[0] = Stand::Serving(1);
        let told = ended(&backend, drain).unwrap();
        assert_eq!(told, ControlAnswer::of_moves([(0, 2)]));
        // Nobody goes on with it.
        backend.plain().stands[0] = moving;
        let told = drained(&backend).unwrap();
        assert_eq!(told, ControlAnswer::of_moves([]));
    }

    #[test]
    fn a_refused_move_is_planned_anew_for_as_long_after_a_shard_was_paused() {
        let backend = PlainBackend::of(2, Stand::Serving(1));
        (backend.plain().lasts, backend.plain().is_full) = (true, true);
        let (mut control, mut drain) = (backend.control(), Drain::new(1, true));
        drain.advance(&mut control).unwrap();
        assert_eq!(backend.plain().stands[0], Stand::Paused(1));
        // There is room later, and for a while another task has the shard.
        backend.plain().passed += Duration::from_secs(3_600);
        (backend.plain().is_full, backend.plain().busy) = (false, [(1, 5)].into());
        let told = ended(&backend, drain).unwrap();
        assert_eq!(told, ControlAnswer::of_moves([(1, 2)]));
    }

    #[test]
    fn vacant_shards_are_planned_once_in_memory() {
        let backend = PlainBackend::of(50, Stand::Vacant);
        let told = backend.control().place().unwrap();
        assert_eq!(told, ControlAnswer::of_moves((0..50).map(|it| (it, 1))));
        assert!(backend.plain().plans <= 3, "{}", backend.plain().plans);
    }

    #[test]
    fn a_store_plans_each_move_by_what_lies_there() {
        let backend = PlainBackend::of(5, Stand::Serving(1));
        backend.plain().lasts = true;
        drained(&backend).unwrap();
        assert!(backend.plain().plans > 5, "{}", backend.plain().plans);
    }

    #[test]
    fn a_refused_drain_is_over_once_no_leader_goes_on_with_it() {
        let backend = PlainBackend::of(2, Stand::Serving(1));
        (backend.plain().lasts, backend.plain().spent) = (true, [0].into());
        let (mut control, mut drain) = (backend.control(), Drain::new(1, false));
        while backend.plain().stands[1] != Stand::Serving(2) {
            drain.advance(&mut control).unwrap();
        }
        backend.plain().unwithdrawn = [unknown()].into();
        let mut refused = || loop {
            match drain.advance(&mut control) {
                Ok(Advance::Done(done)) => panic!("{done:?}"),
                Ok(_) => backend.plain().passed += Duration::from_secs(1),
                Err(refusal) => return (refusal, drain.is_intended()),
            }
        };
        let (doubtful, is_intended) = refused();
        assert!(doubtful.is_of_store() && is_intended, "{doubtful}");
        let (refusal, is_intended) = refused();
        assert!(refusal.is_for_good() && !is_intended, "{refusal}");
        assert_eq!(backend.plain().intents, [Intent::Drained(1)]);
    }

    #[test]
    fn a_drain_goes_on_that_the_store_may_have_kept() {
        let backend = PlainBackend::of(2, Stand::Serving(1));
        backend.plain().lasts = true;
        backend.plain().unkept = [unknown()].into();
        let (mut control, mut drain) = (backend.control(), Drain::new(1, false));
        let doubtful = drain.advance(&mut control).unwrap_err();
        assert!(doubtful.is_of_store() && drain.is_intended(), "{doubtful}");
        let told = ended(&backend, drain).unwrap();
        assert_eq!(told, ControlAnswer::of_moves([(0, 2), (1, 2)]));
    }

    fn unknown() -> WriteError {
        WriteError::Unknown("a test".to_owned())
    }

    #[test]
    fn a_drain_goes_on_only_if_the_store_may_have_kept_it() {
        for (unkept, goes_on) in [
            (vec![WriteError::Full("a test".to_owned())], false),
            (vec![unknown(), WriteError::Full("a test".to_owned())], true),
        ] {
            let backend = PlainBackend::of(2, Stand::Serving(1));
            backend.plain().lasts = true;
            let (mut control, mut drain) = (backend.control(), Drain::new(1, false));
            for error in unkept {
                backend.plain().unkept = [error].into();
                let refused = drain.advance(&mut control).unwrap_err();
                assert!(refused.is_of_store(), "{refused}");
            }
            assert_eq!(drain.is_intended(), goes_on);
        }
    }

    #[test]
    fn shards_that_cannot_be_moved_hold_no_others_back() {
        for lasts in [false, true] {
            let backend = PlainBackend::of(6, Stand::Serving(1));
            backend.plain().lasts = lasts;
            backend.plain().spent = [0, 3].into();
            let told = drained(&backend).unwrap_err().to_string();
            let wanted =
                "shard 0: the shard's generations are spent; 2 shards are left at server 1: 0, 3; ";
            assert!(
                told.starts_with("REFUSED Spent: ") && told.contains(wanted),
                "{told}"
            );
            let mut stands = [Stand::Serving(2); 6];
            stands[0] = Stand::Serving(1);
            stands[3] = Stand::Serving(1);
            assert_eq!(backend.plain().stands, stands);
        }
    }

    #[test]
    fn what_was_refused_for_a_while_is_moved_after_the_others() {
        let backend = PlainBackend::of(4, Stand::Serving(1));
        backend.plain().busy = [(1, 5)].into();
        let told = drained(&backend).unwrap();
        assert_eq!(
            told,
            ControlAnswer::of_moves([0, 2, 3, 1].map(|it| (it, 2)))
        );
    }

    #[test]
    fn a_restart_is_refused_at_the_first_shard_that_stays_for_good() {
        let backend = PlainBackend::of(4, Stand::Serving(1));
        backend.plain().spent = [1].into();
        let refused = ended(&backend, Drain::new(1, true)).unwrap_err();
        assert!(refused.is_for_good(), "{refused}");
        assert_eq!(backend.plain().stands[2], Stand::Serving(1));
    }
}
