use super::advance::Advance;
use super::answer::ControlAnswer;
use super::asked_command::AskedCommand;
use super::backend::{Backend, BackendFault};
use super::change_log::log_change;
use super::patience::PATIENCE;
use super::planned_moves::PlannedMoves;
use super::progress::{self, Doing};
use super::shares::Shares;
use super::task::{Task, TaskWork};
use super::word_table::{self, Begun, ControlMode};
use super::{Asked, ControlHost, OtherControls, Refusal, ReplyTo};
use durkenzo::Stand;
use durkenzo_driver::{Clock, ControlCommand, Next, Refused, ServerState, ShardLoad, Subject};
use std::collections::{BTreeMap, BTreeSet, VecDeque};
use std::fmt;
use std::sync::Arc;
use std::time::{Duration, Instant};

/// How many pauses of another task's migration a task waits.
const MOST_PAUSES: u32 = 8;
/// The least time after which work goes on that lets others have their turn.
const LEAST_WAIT: Duration = Duration::from_nanos(1);
/// How often waiting work checks again.
const TICK: Duration = Duration::from_millis(10);
/// How long work goes on before clients have their turn.
pub const TURN: Duration = Duration::from_millis(50);
/// How long work without a client waits after the store didn't make one of its commands.
const STORE_PAUSE: Duration = Duration::from_millis(500);

/// Executes `SM` commands, wherever data lies. Proved code behind its backend decides which commands are made and which
/// come next. Long work is a task, and clients are answered between its steps.
pub struct Controller {
    pub(super) host: Arc<dyn ControlHost>,
    pub(super) backend: Box<dyn Backend>,
    clock: Clock,
    pub(super) tasks: Vec<Task>,
    /// The shards that come home, and their servers.
    pub(super) homes: BTreeMap<u16, u16>,
    /// The shards about which the store doesn't say whether it keeps the intent.
    pub(super) unsure_homes: BTreeSet<u16>,
    /// The servers that tasks restart, and by how many tasks.
    pub(super) restarting: BTreeMap<u16, usize>,
    /// The server whose shards a drain is moving.
    draining: Option<u16>,
    /// The servers that are drained for good, or wait for that. While a spread goes on, it also has those whose drains
    /// have ended.
    pub(super) drained: BTreeSet<u16>,
    /// The servers that were drained, where that outlives the process. They get no shard unless somebody asks for that,
    /// until a spread or `SM UNDRAIN`.
    pub(super) kept_empty: BTreeSet<u16>,
    /// How many changes of shards and servers it has made.
    pub(super) made: u64,
    /// The load of each shard, as its owner told it last.
    pub(super) loads: BTreeMap<u16, ShardLoad>,
    /// The other processes, if this one leads several.
    pub(super) peers: Option<Arc<dyn OtherControls>>,
    /// Whether another process leads, as far as a command's outcome has shown.
    pub(super) is_lost: bool,
    /// Whether a server may have failed since a leader went on with the shards of failed servers.
    pub(super) has_fallen: bool,
    /// The servers for which a step may have been made that nobody noted, because the store didn't tell its outcome.
    unnoted: BTreeSet<u16>,
    /// The shards that migrations paused because their owners had failed.
    pub(super) paused: BTreeSet<u16>,
    /// How many shards servers have, while shards of failed servers go to others in one turn.
    shares: Option<Shares>,
}

impl Controller {
    /// Makes the control of this backend's servers, in this host, with this clock.
    pub fn new(host: Arc<dyn ControlHost>, backend: Box<dyn Backend>, clock: Clock) -> Controller {
        Controller {
            host,
            backend,
            clock,
            tasks: Vec::new(),
            homes: BTreeMap::new(),
            unsure_homes: BTreeSet::new(),
            restarting: BTreeMap::new(),
            draining: None,
            drained: BTreeSet::new(),
            kept_empty: BTreeSet::new(),
            made: 0,
            loads: BTreeMap::new(),
            peers: None,
            is_lost: false,
            has_fallen: false,
            unnoted: BTreeSet::new(),
            paused: BTreeSet::new(),
            shares: None,
        }
    }

    /// Goes on at the point at which the process before this one was: its servers are up again, migrations and drains
    /// go on, and shards come home. If `assigns` is set, each vacant shard gets an owner, in turn. A shard that doesn't
    /// fit there goes to the server that the proved plan chooses.
    ///
    /// # Errors
    ///
    /// If the store doesn't let it go on.
    pub fn begin(&mut self, assigns: bool) -> Result<(), Refusal> {
        for server in 1..=self.backend.servers() {
            if !self.backend.state_of(server)?.takes_shards() {
                self.backend.command(ControlCommand::Back(server))?;
            }
            self.note_state(server)?;
        }
        self.resume_left()?;
        for shard in 0..self.backend.shards() {
            if self.backend.next_of_shard(shard)? != Next::Nothing {
                self.tasks.push(Task::going_on(shard));
            }
            if assigns {
                self.assign(shard, shard % self.backend.servers() + 1)?;
            }
        }
        if assigns {
            self.place()?;
            self.warn_of_vacant()?;
        }
        self.go_on_with_intents()
    }

    /// Warns of each shard without an owner.
    fn warn_of_vacant(&mut self) -> Result<(), Refusal> {
        for shard in 0..self.backend.shards() {
            if self.is_vacant(shard)? {
                tracing::warn!("shard {shard} fits no server, and nobody owns it");
            }
        }
        Ok(())
    }

    /// Returns whether the shard has no owner.
    pub(super) fn is_vacant(&mut self, shard: u16) -> Result<bool, Refusal> {
        let record = self.backend.record(shard)?;
        Ok(record.is_some_and(|it| it.owner().is_none()))
    }

    /// Gives the shard this owner if it is vacant and the server takes it.
    pub(super) fn assign(&mut self, shard: u16, server: u16) -> Result<(), Refusal> {
        if !self.is_vacant(shard)? {
            return Ok(());
        }
        let command = ControlCommand::Assign(shard, server);
        match self.backend.command(command) {
            Ok(()) => {
                self.host.note_change(command);
                Ok(())
            }
            Err(BackendFault::Refused(Refused::Judged(_))) => Ok(()),
            Err(fault) => Err(fault.into()),
        }
    }

    /// Notes the state of the server, and whether requests reach it.
    pub(super) fn note_state(&mut self, server: u16) -> Result<(), Refusal> {
        let state = self.backend.state_of(server)?;
        self.host.note_state(server, state);
        self.backend.show_state(server, state);
        Ok(())
    }

    /// Makes a command, and notes the change for others.
    pub(super) fn make(&mut self, command: ControlCommand) -> Result<(), Refusal> {
        let made = self.backend.command(command);
        self.made += u64::from(made.is_ok());
        let is_elsewhere =
            |it: &BackendFault| matches!(it, BackendFault::Refused(Refused::NotLeader));
        self.is_lost |= made.as_ref().is_err_and(is_elsewhere);
        match command.subject() {
            Subject::Server(server) => {
                let made = made.map_err(|fault| Refusal::of_command(&fault, command, None));
                // It may have been made, whatever the store says.
                let is_doubtful = made.as_ref().is_err_and(Refusal::is_of_store);
                if is_doubtful {
                    self.unnoted.insert(server);
                }
                let is_fall = matches!(command, ControlCommand::Fail(_));
                self.has_fallen |= is_fall && (made.is_ok() || is_doubtful);
                made?;
                self.note_state(server)
            }
            Subject::Shard(shard) => {
                let line = || self.host.shard_line(shard);
                made.map_err(|fault| Refusal::of_command(&fault, command, line()))?;
                self.host.note_change(command);
                // It is made, whether its record can be read now or not.
                log_change(command, || self.backend.record(shard).ok().flatten());
                Ok(())
            }
        }
    }

    /// Returns this moment.
    pub(super) fn now(&self) -> Instant {
        self.clock.now()
    }

    /// Returns when a task gives up a shard that another task has, whose migration pauses between its steps.
    pub(super) fn patience(&self) -> Instant {
        self.now() + PATIENCE + MOST_PAUSES * self.host.pace()
    }

    /// Notes the states of servers for which a step may have been made, as far as the store can be read.
    fn note_steps(&mut self) {
        while let Some(server) = self.unnoted.first().copied() {
            if self.note_state(server).is_err() {
                return;
            }
            self.unnoted.remove(&server);
        }
    }

    /// Makes the next command of work under way. If a new process must first read something that the command assumes,
    /// or if the process of its server isn't seen now, it is made later.
    pub(super) fn step(&mut self, command: ControlCommand) -> Result<Advance, Refusal> {
        match self.make(command) {
            Err(refusal) if refusal.is_for_now() || refusal.is_of_process() => Ok(Advance::Later),
            made => made.map(|()| Advance::Again),
        }
    }

    /// Moves a paused shard, whose owner has failed, to the server with the fewest shards of those that have some, if
    /// that server takes it, and neither is nor was drained. Otherwise the shard goes to the server that the proved
    /// control names, the first one that takes it.
    pub(super) fn reassign(&mut self, shard: u16, named: u16) -> Result<Advance, Refusal> {
        let mut shares = match self.shares.take() {
            Some(shares) => shares,
            None => Shares::of(self)?,
        };
        let mut to = shares.least_of_some().unwrap_or(named);
        let mut stepped = self.step(ControlCommand::Reassign(shard, to));
        if to != named && stepped.as_ref().is_err_and(|it| !it.is_of_store()) {
            shares.remove(to);
            to = named;
            stepped = self.step(ControlCommand::Reassign(shard, to));
        }
        if matches!(stepped, Ok(Advance::Again)) {
            shares.add(to);
        }
        self.shares = Some(shares);
        stepped
    }

    /// Notes the work under way at the server.
    pub(super) fn tell(&self, server: u16, doing: Doing) {
        self.host.note_progress(server, Some(doing));
    }

    /// Returns the first server except this one that is away for a restart, or may go for one, and its state. If there
    /// is none, returns the first one that has failed.
    pub(super) fn away(&mut self, but: u16) -> Result<Option<(u16, ServerState)>, Refusal> {
        let states = self.states()?;
        Ok(progress::away(&states, but))
    }

    /// Returns the servers that have failed.
    pub(super) fn failed(&mut self) -> Result<Vec<u16>, Refusal> {
        let states = self.states()?.into_iter();
        let failed = states.filter(|it| it.1 == ServerState::Failed);
        Ok(failed.map(|it| it.0).collect())
    }

    fn states(&mut self) -> Result<Vec<(u16, ServerState)>, Refusal> {
        let servers = 1..=self.backend.servers();
        servers
            .map(|it| Ok((it, self.backend.state_of(it)?)))
            .collect()
    }

    /// Returns whether the server's process is there, if servers have one each.
    pub(super) fn is_there(&self, server: u16) -> bool {
        let peers = self.peers.as_ref();
        peers.is_none_or(|it| it.member().members().contains_key(&server))
    }

    /// Returns whether the server gets no shard unless somebody asks for that, because it is or was drained.
    pub(super) fn is_kept_empty(&self, server: u16) -> bool {
        self.drained.contains(&server) || self.kept_empty.contains(&server)
    }

    /// Reads the loads of shards that their owners have told. A shard that has moved keeps its load until its new owner
    /// has measured it.
    pub(super) fn read_loads(&mut self) -> Result<(), Refusal> {
        for (server, shard, load) in self.backend.loads()? {
            if self.is_at(shard, server)? {
                self.loads.insert(shard, load);
            }
        }
        Ok(())
    }

    /// Returns the mode of the control, on which the available words depend.
    pub(super) fn mode(&self) -> ControlMode {
        ControlMode {
            lasts: self.backend.lasts(),
            has_peers: self.peers.is_some(),
            serves_texts: self.host.serves_texts(),
        }
    }

    /// Returns whether the shard is at the server.
    pub(super) fn is_at(&mut self, shard: u16, server: u16) -> Result<bool, Refusal> {
        let record = self.backend.record(shard)?;
        Ok(record.is_some_and(|it| it.owner() == Some(server)))
    }

    /// Resumes shards that were paused because their owners were to stop or had failed, if the owners are back.
    pub(super) fn resume_left(&mut self) -> Result<(), Refusal> {
        for shard in self.backend.left_paused()? {
            self.make(ControlCommand::Resume(shard))?;
        }
        Ok(())
    }

    /// Resumes shards that a migration paused, once their owners are back.
    fn resume_paused(&mut self) {
        for shard in std::mem::take(&mut self.paused) {
            match self.is_still_paused(shard) {
                Ok(false) => {}
                Ok(true) => drop(self.paused.insert(shard)),
                Err(refusal) if refusal.may_pass() => drop(self.paused.insert(shard)),
                Err(refusal) => tracing::warn!(%refusal, "a shard stays paused"),
            }
        }
    }

    /// Returns whether the shard, which a migration paused, must stay paused for now. If its owner is back, it is
    /// resumed.
    fn is_still_paused(&mut self, shard: u16) -> Result<bool, Refusal> {
        let stand = self.backend.record(shard)?.map(|it| it.stand);
        let Some(Stand::Paused(owner)) = stand else {
            return Ok(false);
        };
        if self.backend.state_of(owner)? != ServerState::Up {
            return Ok(true);
        }
        self.make(ControlCommand::Resume(shard)).map(|()| false)
    }

    /// Switches to the present state if a file replaced the earlier one.
    pub(super) fn renew(&mut self) {
        if self.backend.renew() {
            self.homes.clear();
            self.unsure_homes.clear();
            self.paused.clear();
            self.host.note_load();
        }
    }

    /// Takes the command, if there is one, and does the work that is due.
    pub fn turn(&mut self, asked: Option<Asked>) {
        asked.into_iter().for_each(|it| self.take(it));
        self.run_tasks();
    }

    /// Returns how long it is until the next turn, if nobody asks sooner. Returns nothing if there is nothing to do
    /// until then.
    pub fn wait(&self) -> Option<Duration> {
        let is_idle = self.tasks.is_empty() && self.paused.is_empty();
        (!is_idle).then(|| self.wait_for_tasks().unwrap_or(TICK))
    }

    /// Returns how long a leader waits for clients.
    pub(super) fn wait_as_leader(&self) -> Duration {
        self.wait_for_tasks().unwrap_or(2 * TICK)
    }

    /// Returns how long it is until the next task is due, or until the next check, if there is anything to wait for.
    fn wait_for_tasks(&self) -> Option<Duration> {
        let now = self.now();
        let left = |it: Instant| it.saturating_duration_since(now).min(TICK);
        let waits = self
            .tasks
            .iter()
            .map(|it| it.due.map_or(Duration::ZERO, left));
        waits.min()
    }

    /// Answers all tasks that another process goes on with the work.
    pub(super) fn leave(&mut self) {
        for task in std::mem::take(&mut self.tasks) {
            let is_elsewhere = task.reply_to.as_ref().is_some_and(|it| it.asks_elsewhere());
            let refusal = match self.host.is_stopping() && !is_elsewhere {
                true => Refusal::stopping(),
                false => Refusal::led_elsewhere(),
            };
            answer(task.reply_to, Err(refusal));
        }
    }

    /// Answers the command, or begins its work, if its client is still there.
    pub(super) fn take(&mut self, asked: Asked) {
        if !asked.reply_to.is_awaited() {
            return;
        }
        let Some(asked) = word_table::answered_here(&*self.host, self.mode(), asked) else {
            return;
        };
        let Asked { words, reply_to } = asked;
        match word_table::begun(self, &words) {
            Ok(Begun::Answer(answer)) => reply_to.send(Ok(answer)),
            Ok(Begun::Work(work)) => self.tasks.push(Task {
                reply_to: Some(reply_to),
                ..Task::of(*work)
            }),
            Err(refusal) => reply_to.send(Err(refusal)),
        }
    }

    /// Begins a command that somebody asked for. Mostly that also ends it.
    pub(super) fn make_asked(&mut self, command: ControlCommand) -> Result<Begun, Refusal> {
        let mut work = AskedCommand::new(command);
        match work.advance(self)? {
            Advance::Done(answer) | Advance::Told(answer) => Ok(answer.into()),
            Advance::After(_) | Advance::Again | Advance::Later => {
                Ok(TaskWork::Command(work).into())
            }
        }
    }

    /// Gives each vacant shard the owner in the proved plan.
    pub(super) fn place(&mut self) -> Result<ControlAnswer, Refusal> {
        let (mut planned, mut placed) = (PlannedMoves::of(0), Vec::new());
        while let Next::Command(command) = planned.next(self)? {
            // No thread has a vacant shard.
            match self.make(command) {
                Err(_) if planned.forget() => continue,
                made => made?,
            }
            if let ControlCommand::Assign(shard, server) = command {
                placed.push((shard, server));
            }
        }
        Ok(ControlAnswer::of_moves(placed))
    }

    /// Makes steps of due work, for a while. Tasks that had no turn come first the next time.
    pub(super) fn run_tasks(&mut self) {
        self.note_steps();
        self.resume_paused();
        let end = self.now() + TURN;
        self.shares = None;
        self.note_drained();
        let mut waiting = VecDeque::from(std::mem::take(&mut self.tasks));
        while let Some(task) = waiting.pop_front() {
            let now = self.now();
            if now >= end {
                waiting.push_front(task);
                break;
            }
            if !task.is_due(now) && !self.host.is_stopping() {
                self.tasks.push(task);
                continue;
            }
            match self.advanced(task, now) {
                // One shard is served again before the next one has its turn.
                Some(task) if task.is_due(now) && task.shard_going_on().is_some() => {
                    waiting.push_front(task);
                }
                task => self.tasks.extend(task),
            }
        }
        waiting.extend(self.tasks.drain(..));
        self.tasks = waiting.into();
        // A spread that is asked for now counts a server whose drain has just ended.
        self.note_drained();
    }

    /// Notes the servers that are drained for good.
    fn note_drained(&mut self) {
        if !self.tasks.iter().any(Task::spreads) {
            self.drained.clear();
        }
        let drained = self.tasks.iter().filter_map(Task::drains);
        self.drained.extend(drained);
    }

    /// Makes a step of the task. If it isn't over, gives it back.
    fn advanced(&mut self, mut task: Task, now: Instant) -> Option<Task> {
        if self.host.is_stopping() {
            self.stop(task);
            return None;
        }
        match task.work.advance(self) {
            Ok(Advance::After(wait)) => task.due = Some(self.now() + wait.max(LEAST_WAIT)),
            Ok(Advance::Again) => task.due = Some(now + self.host.pace()),
            Ok(Advance::Later) => task.due = Some(now + TICK),
            Ok(Advance::Told(told)) => {
                answer(task.reply_to.take(), Ok(told));
                task.due = Some(now + TICK);
            }
            Err(refusal)
                if refusal.is_of_store()
                    && (task.reply_to.is_none() || task.work.is_intended()) =>
            {
                answer(task.reply_to.take(), Err(refusal));
                task.due = Some(now + STORE_PAUSE);
            }
            Ok(Advance::Done(done)) => {
                self.end(&task.work);
                answer(task.reply_to, Ok(done));
                return None;
            }
            Err(refusal) => {
                self.end(&task.work);
                if refusal.is_of_store() {
                    let due = Some(now + STORE_PAUSE);
                    let left = task.work.left().into_iter();
                    self.tasks.extend(left.map(|it| Task {
                        due,
                        ..Task::of(it)
                    }));
                }
                answer(task.reply_to, Err(refusal));
                return None;
            }
        }
        Some(task)
    }

    /// Ends the task because the process ends. Work that outlives the process goes on at the next start.
    fn stop(&mut self, task: Task) {
        if !self.backend.lasts() {
            if let Err(refusal) = task.work.give_up(self) {
                tracing::warn!(%refusal, "a migration isn't ended");
            }
        }
        answer(task.reply_to, Err(Refusal::stopping()));
    }

    /// Ends the notes about the work.
    fn end(&mut self, work: &TaskWork) {
        match (work, work.server()) {
            (_, None) => {}
            (TaskWork::Drain(_), Some(server)) => self.end_drain(server),
            (_, Some(server)) => self.end_restart(server),
        }
    }

    /// Returns whether the drain of the server is moving shards now. Only one drain at a time does: each plan may send
    /// shards to the other drain's server, so they would go back and forth.
    pub(super) fn is_drained_now(&mut self, server: u16) -> bool {
        *self.draining.get_or_insert(server) == server
    }

    /// Ends the drain of the server, and lets another one go on.
    fn end_drain(&mut self, server: u16) {
        self.draining = self.draining.filter(|it| *it != server);
        self.tell_end(server);
    }

    /// Notes that no work is under way at the server any more.
    pub(super) fn tell_end(&self, server: u16) {
        let is_drained = self.kept_empty.contains(&server);
        let doing = is_drained.then_some(Doing::Drained);
        self.host.note_progress(server, doing);
    }

    /// Ends the notes about the server's restart.
    pub(super) fn end_restart(&mut self, server: u16) {
        self.tell_end(server);
        let left = self.restarting.remove(&server).unwrap_or_default();
        if left > 1 {
            self.restarting.insert(server, left - 1);
        }
    }
}

impl fmt::Debug for Controller {
    fn fmt(&self, f: &mut fmt::Formatter<'_>) -> fmt::Result {
        f.debug_struct("Controller").finish_non_exhaustive()
    }
}

fn answer(reply_to: Option<Box<dyn ReplyTo>>, answer: Result<ControlAnswer, Refusal>) {
    match (reply_to, answer) {
        (Some(reply_to), answer) => reply_to.send(answer),
        (None, Err(refusal)) => tracing::warn!(%refusal, "what was under way isn't done"),
        (None, Ok(_)) => {}
    }
}

#[cfg(test)]
mod tests {
    use super::super::plain_backend::{asked, PlainBackend};
    use super::*;
    use durkenzo_driver::CommandFault;

    #[test]
    fn a_busy_command_holds_up_no_others() {
        let backend = PlainBackend::of(2, Stand::Vacant);
        backend.plain().busy = [(0, u32::MAX)].into();
        let mut control = backend.control();
        assert_eq!(control.wait(), None);
        let busy = asked(&mut control, "SM ASSIGN 0 1");
        assert!(control.wait().is_some_and(|it| it <= TICK));
        let other = asked(&mut control, "SM ASSIGN 1 1");
        assert_eq!(other.try_recv(), Ok(Ok(ControlAnswer::Done)));
        // A load isn't refused because something is under way: there are no dumps here.
        let load = asked(&mut control, "SM LOAD a");
        let wanted = Refusal::not_durable("LOAD");
        assert_eq!(load.try_recv(), Ok(Err(wanted)));
        assert!(busy.try_recv().is_err());
        backend.plain().busy.clear();
        backend.plain().passed += LEAST_WAIT;
        control.turn(None);
        assert_eq!(busy.try_recv(), Ok(Ok(ControlAnswer::Done)));
        assert_eq!(control.wait(), None);
        assert_eq!(backend.plain().stands, [Stand::Serving(1); 2]);
    }

    #[test]
    fn a_shard_that_moved_keeps_its_load_until_its_new_owner_has_told_one() {
        let backend = PlainBackend::of(1, Stand::Serving(1));
        let load = |requests| ShardLoad {
            requests,
            ..ShardLoad::default()
        };
        let mut control = backend.control();
        for (owner, told, known) in [
            (1, (1, 0, load(9)), 9),
            (2, (1, 0, load(4)), 9),
            (2, (2, 0, load(8)), 8),
        ] {
            backend.plain().stands[0] = Stand::Serving(owner);
            backend.plain().loads = vec![told];
            control.read_loads().unwrap();
            assert_eq!(control.loads, [(0, load(known))].into());
        }
    }

    #[test]
    fn a_step_waits_for_a_process_that_is_not_seen() {
        let backend = PlainBackend::of(1, Stand::Paused(1));
        let unseen = Refused::Judged(CommandFault::EarlierProcess);
        backend.plain().unmade = Some(unseen);
        let mut control = backend.control();
        let stopped = ControlCommand::Stopped(1);
        assert!(matches!(control.step(stopped), Ok(Advance::Later)));
        assert!(matches!(control.step(stopped), Ok(Advance::Again)));
    }

    /// Each would send all shards to the other one's server.
    #[test]
    fn a_drain_waits_for_another_one() {
        let backend = PlainBackend::of(4, Stand::Serving(1));
        let mut control = backend.control();
        let first = asked(&mut control, "SM DRAIN 1");
        let second = asked(&mut control, "SM DRAIN 2");
        for _ in 0..200 {
            backend.plain().passed += TICK;
            control.turn(None);
        }
        let moves = |to| ControlAnswer::of_moves((0..4).map(|it| (it, to)));
        assert_eq!(first.try_recv(), Ok(Ok(moves(2))));
        assert_eq!(second.try_recv(), Ok(Ok(moves(1))));
    }
}
