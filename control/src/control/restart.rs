use super::advance::Advance;
use super::answer::ControlAnswer;
use super::backend::StateWait;
use super::controller::Controller;
use super::drain::Drain;
use super::migration::Migration;
use super::moves::{EndedMove, Moves};
use super::progress::{Doing, Share};
use super::Refusal;
use durkenzo_driver::{ControlCommand, Next, ServerState};
use std::time::{Duration, Instant};

/// How often it checks whether threads have acted upon the server's state.
const LOOK: Duration = Duration::from_micros(100);
/// How long until it tries a shard again that another task has.
const PAUSE: Duration = Duration::from_millis(5);

/// A restart of a server, as the proved control allows its steps. Then its shards come home. Each call makes a step.
#[derive(Debug)]
pub(super) struct Restart {
    server: u16,
    phase: Phase,
    /// The wait of this phase: until everybody has acted upon the server's state.
    wait: Option<Box<dyn StateWait>>,
    /// Whether somebody may wait for it. Then it ends, rather than wait for servers that have failed.
    is_awaited: bool,
    drain: Drain,
    /// Why it was given up, if it was.
    refused: Option<Refusal>,
    /// The shards that must still come home, and those on their way.
    left: Vec<u16>,
    home: Share,
    moves: Moves,
    /// Until when it waits for a shard that another task has.
    end: Option<Instant>,
}

#[derive(Clone, Copy, Debug, PartialEq, Eq)]
enum Phase {
    Asks,
    Leaves,
    /// It is stopped, and everybody in this process must act upon that.
    Stops,
    /// It must be brought up again.
    Back,
    /// Another process must run it; or everybody must act upon its being up.
    Away,
    Returns,
}

impl Restart {
    /// Returns the restart of the server.
    pub(super) fn new(server: u16) -> Restart {
        Restart {
            server,
            phase: Phase::Asks,
            wait: None,
            is_awaited: true,
            drain: Drain::new(server, true),
            refused: None,
            left: Vec::new(),
            home: Share { done: 0, of: 0 },
            moves: Moves::default(),
            end: None,
        }
    }

    /// Returns a restart that was asked for, from another process.
    pub(super) fn going_on(server: u16) -> Restart {
        Restart {
            phase: Phase::Leaves,
            is_awaited: false,
            ..Restart::new(server)
        }
    }

    /// Returns a restart whose shards still come home.
    pub(super) fn returning(server: u16) -> Restart {
        Restart {
            phase: Phase::Away,
            ..Restart::new(server)
        }
    }

    /// Returns the server.
    pub(super) fn server(&self) -> u16 {
        self.server
    }

    /// Returns whether it was asked for, so that the next leader goes on with it.
    pub(super) fn has_begun(&self) -> bool {
        self.phase != Phase::Asks
    }

    /// Makes the next step. At the end, tells the result.
    pub(super) fn advance(&mut self, control: &mut Controller) -> Result<Advance, Refusal> {
        match self.phase {
            Phase::Asks => self.ask(control),
            Phase::Leaves => self.leave(control),
            Phase::Stops => self.stop(control),
            Phase::Back => self.come_back(control),
            Phase::Away => self.await_process(control),
            Phase::Returns => self.come_home(control),
        }
    }

    /// Enters this phase, in which it waits until everybody has acted upon the server's state.
    fn enter(&mut self, phase: Phase, control: &mut Controller) {
        self.phase = phase;
        self.wait = control.backend.wait_for_state(self.server);
    }

    fn is_wait_over(&self) -> Result<bool, Refusal> {
        self.wait.as_ref().map_or(Ok(true), |it| it.is_over())
    }

    fn ask(&mut self, control: &mut Controller) -> Result<Advance, Refusal> {
        if control.backend.lasts() && self.was_asked_for(control)? {
            self.is_awaited = false;
            self.begin(control);
            return Ok(Advance::soon());
        }
        let made = control.make(ControlCommand::Ask(self.server));
        // The store may have made it, whatever it says.
        if made.as_ref().err().is_none_or(Refusal::is_of_store) {
            self.begin(control);
        }
        made.map(|()| Advance::soon())
    }

    /// Returns whether a restart was asked for before, under whichever leader. Then it goes on with that restart, and
    /// tells its state.
    fn was_asked_for(&self, control: &mut Controller) -> Result<bool, Refusal> {
        Ok(match control.backend.state_of(self.server)? {
            ServerState::Asked | ServerState::Approved | ServerState::Stopped => true,
            ServerState::Up | ServerState::Failed => false,
        })
    }

    fn begin(&mut self, control: &mut Controller) {
        self.phase = Phase::Leaves;
        *control.restarting.entry(self.server).or_default() += 1;
    }

    fn leave(&mut self, control: &mut Controller) -> Result<Advance, Refusal> {
        match control.backend.next_of_server(self.server)? {
            Next::Command(command) => {
                if let later @ Advance::Later = control.step(command)? {
                    return Ok(later);
                }
                if let ControlCommand::Stopped(server) = command {
                    if control.peers.is_some() {
                        self.enter(Phase::Away, control);
                        return Ok(Advance::Told(stopped(server)));
                    }
                    self.enter(Phase::Stops, control);
                }
                Ok(Advance::soon())
            }
            // Somebody else stopped it, or brought it up.
            Next::Nothing => {
                self.enter(Phase::Away, control);
                self.drain.hand_over(control);
                let is_stopped = control.backend.state_of(self.server)? == ServerState::Stopped;
                Ok(match is_stopped && control.peers.is_some() {
                    true => Advance::Told(stopped(self.server)),
                    false => Advance::soon(),
                })
            }
            Next::Waits if self.is_approved(control)? => match self.drain.advance(control) {
                Ok(Advance::Done(_)) => self.await_shards(control),
                Err(refusal) if !refusal.is_of_store() => Ok(self.give_up(refusal)),
                other => other,
            },
            Next::Waits => self.wait(control),
        }
    }

    /// Waits for shards that other tasks have and that still name the server, and for acks of the shards that are
    /// paused. In memory mode somebody may have begun a change by hand with which nobody goes on: then the restart is
    /// given up after a while.
    fn await_shards(&mut self, control: &mut Controller) -> Result<Advance, Refusal> {
        control.tell(self.server, Doing::LettingGo);
        if control.backend.lasts() {
            return Ok(Advance::Later);
        }
        let end = *self.end.get_or_insert_with(|| control.patience());
        if control.now() < end {
            return Ok(Advance::Later);
        }
        match control.make(ControlCommand::Stopped(self.server)) {
            Ok(()) => {
                self.enter(Phase::Stops, control);
                Ok(Advance::soon())
            }
            Err(refusal) => Ok(self.give_up(refusal)),
        }
    }

    fn is_approved(&self, control: &mut Controller) -> Result<bool, Refusal> {
        Ok(control.backend.state_of(self.server)? == ServerState::Approved)
    }

    /// Waits until the caps let the server go. They may once others are back from their restarts.
    fn wait(&mut self, control: &mut Controller) -> Result<Advance, Refusal> {
        if self.is_awaited && !self.do_others_restart(control)? {
            return self.refuse(control);
        }
        let away = control.away(self.server)?;
        control.tell(self.server, Doing::Waiting(away));
        Ok(Advance::Later)
    }

    /// Returns whether another server is away for a restart that goes on, or may go for one.
    fn do_others_restart(&self, control: &mut Controller) -> Result<bool, Refusal> {
        for server in 1..=control.backend.servers() {
            let goes_on = control.backend.lasts() || control.restarting.contains_key(&server);
            if server == self.server || !goes_on {
                continue;
            }
            if control.backend.state_of(server)?.is_restarting() {
                return Ok(true);
            }
        }
        Ok(false)
    }

    /// Gives the restart up, because the proved control refuses it, and no other restart changes that.
    fn refuse(&mut self, control: &mut Controller) -> Result<Advance, Refusal> {
        let refusal = match control.make(ControlCommand::Approve(self.server)) {
            // The caps let it go by now.
            Ok(()) => return Ok(Advance::soon()),
            Err(refusal) if refusal.is_of_store() => return Err(refusal),
            Err(refusal) => refusal,
        };
        let failed = control.failed()?;
        let refusal = refusal.of_failed(&failed, control.peers.is_some());
        Ok(self.give_up(refusal))
    }

    /// Brings the server up again, and its shards home, before it tells the refusal.
    fn give_up(&mut self, refusal: Refusal) -> Advance {
        self.refused = Some(refusal);
        self.end = None;
        self.phase = Phase::Back;
        Advance::soon()
    }

    /// Waits until everybody in this process has acted upon the server's stop.
    fn stop(&mut self, control: &mut Controller) -> Result<Advance, Refusal> {
        match self.is_wait_over() {
            Ok(true) => self.phase = Phase::Back,
            Ok(false) => {
                control.tell(self.server, Doing::Stopping);
                return Ok(Advance::After(LOOK));
            }
            Err(refusal) => return Ok(self.give_up(refusal)),
        }
        Ok(Advance::soon())
    }

    /// Brings the server up again. If it was stopped, nothing holds anything of it, and it begins with what it reads.
    fn come_back(&mut self, control: &mut Controller) -> Result<Advance, Refusal> {
        if control.backend.state_of(self.server)? != ServerState::Up {
            let made = control.make(ControlCommand::Back(self.server));
            made.map_err(|refusal| match refusal.is_of_store() {
                true => refusal,
                false => self.refused.take().unwrap_or(refusal),
            })?;
        }
        self.enter(Phase::Away, control);
        Ok(Advance::soon())
    }

    /// Waits until the server is up again: once another process runs it, or at once if this process runs all servers.
    fn await_process(&mut self, control: &mut Controller) -> Result<Advance, Refusal> {
        match self.is_wait_over() {
            Ok(true) => {}
            Ok(false) => return Ok(Advance::After(LOOK)),
            // Its shards come home before it tells why the restart was given up.
            Err(refusal) => drop(self.refused.get_or_insert(refusal)),
        }
        let is_of_this = control.peers.is_none();
        if is_of_this && control.backend.state_of(self.server)? == ServerState::Stopped {
            self.phase = Phase::Back;
            return Ok(Advance::soon());
        }
        if let Some(advance) = self.unless_up(control)? {
            return Ok(advance);
        }
        // Shards that were paused for it go on. After a fault, it goes on from here.
        control.resume_left()?;
        self.left = control.shards_of_home(self.server);
        self.home.of = self.left.len();
        self.phase = Phase::Returns;
        Ok(Advance::soon())
    }

    /// Returns how it goes on if the server isn't up. A restart that was given up is refused.
    fn unless_up(&mut self, control: &mut Controller) -> Result<Option<Advance>, Refusal> {
        match control.backend.state_of(self.server)? {
            ServerState::Up => return Ok(None),
            ServerState::Stopped => {
                if control.peers.is_some() {
                    control.tell(self.server, Doing::Ended);
                }
                return Ok(Some(Advance::Later));
            }
            // They come home once another process runs it.
            ServerState::Failed if control.peers.is_some() => {}
            ServerState::Failed => control.forget_homes(self.server)?,
            // Another restart was asked for. At its end the shards come home.
            ServerState::Asked | ServerState::Approved => {}
        }
        match self.refused.take() {
            Some(refusal) => Err(refusal),
            None => Ok(Some(Advance::Done(ControlAnswer::Done))),
        }
    }

    fn come_home(&mut self, control: &mut Controller) -> Result<Advance, Refusal> {
        if let Some(ended) = self.moves.advance(control)? {
            if let Some(pause) = self.note(ended, control) {
                return Ok(pause);
            }
        }
        let is_up = control.backend.state_of(self.server)? == ServerState::Up;
        let may_begin = is_up && self.moves.has_room(control);
        if !(may_begin || self.moves.is_empty()) {
            return Ok(self.moves.wait(control));
        }
        if let Some(advance) = self.unless_up(control)? {
            return Ok(advance);
        }
        let next = self.left.iter().find(|it| !self.moves.has(**it));
        match next.copied() {
            Some(shard) => self.have_come(shard, control).map(|()| Advance::soon()),
            None if !self.moves.is_empty() => Ok(self.moves.wait(control)),
            None => {
                control.forget_homes(self.server)?;
                self.told()
            }
        }
    }

    /// Notes the outcome of a shard's move home. If it must be tried again, returns a pause.
    fn note(&mut self, ended: EndedMove, control: &Controller) -> Option<Advance> {
        match ended.outcome {
            Ok(()) => {}
            Err(refusal) if refusal.is_of_phase() && self.may_try_again(control) => {
                return Some(Advance::After(PAUSE));
            }
            // It went to another server meanwhile, and stays there.
            Err(refusal) => {
                tracing::info!(%refusal, "a shard doesn't come home");
                self.left.retain(|it| *it != ended.shard);
            }
        }
        self.end = None;
        None
    }

    /// Returns whether there is still time for a shard that another task has, for instance because the server to which
    /// it went is drained itself.
    fn may_try_again(&mut self, control: &Controller) -> bool {
        let end = *self.end.get_or_insert_with(|| control.patience());
        control.now() < end
    }

    /// Brings the shard home, once no other work is under way for it.
    fn have_come(&mut self, shard: u16, control: &mut Controller) -> Result<(), Refusal> {
        let is_due = matches!(control.backend.next_of_shard(shard)?, Next::Command(_));
        let record = control.backend.record(shard)?;
        if is_due || record.is_some_and(|it| it.other().is_some()) {
            self.moves
                .add(Migration::going_on(shard), self.server, None);
            return Ok(());
        }
        if control.homes.get(&shard) != Some(&self.server) {
            // Somebody moved it elsewhere for good.
            self.left.retain(|it| *it != shard);
            self.home.of -= 1;
            return Ok(());
        }
        if record.is_some_and(|it| it.owner() == Some(self.server)) {
            self.left.retain(|it| *it != shard);
            self.home.done += 1;
            return Ok(());
        }
        self.moves
            .add(Migration::new(shard, self.server), self.server, None);
        control.tell(self.server, Doing::Returning(self.home));
        Ok(())
    }

    fn told(&mut self) -> Result<Advance, Refusal> {
        if let Some(refusal) = self.refused.take() {
            return Err(refusal);
        }
        let (server, home) = (self.server, self.home);
        let shards = match home.done == home.of {
            true => format!("its {} shards", home.of),
            false => format!("{home} shards"),
        };
        let told = format!("server {server} is back, with {shards}");
        Ok(Advance::Done(ControlAnswer::Line(told)))
    }

    /// Ends it as it is, because the process ends: each shard under way belongs to one server only.
    pub(super) fn give_up_where_it_is(&self, control: &mut Controller) -> Result<(), Refusal> {
        let home = self.moves.give_up(control);
        home.and(self.drain.give_up(control))
    }
}

/// Returns the answer about a server that is stopped and whose process is another one.
fn stopped(server: u16) -> ControlAnswer {
    let told = format!("server {server} is stopped: end its process, and start it again");
    ControlAnswer::Line(told)
}

#[cfg(test)]
mod tests {
    use super::super::plain_backend::PlainBackend;
    use super::*;
    use durkenzo::Stand;

    #[test]
    fn it_is_told_that_a_paused_shard_is_to_be_let_go() {
        let backend = PlainBackend::of(1, Stand::Paused(1));
        (backend.plain().lasts, backend.plain().approved) = (true, Some(1));
        let (mut control, mut restart) = (backend.control(), Restart::going_on(1));
        let waits = restart.advance(&mut control).unwrap();
        assert!(matches!(waits, Advance::Later), "{waits:?}");
        assert_eq!(backend.plain().doing.get(&1), Some(&Doing::LettingGo));
    }
}
