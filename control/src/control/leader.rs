//! The work of the leader among several processes, beside answering. It is the failure detector: a server whose key has
//! gone with its lease has failed, and its shards go to others.
use super::balancer::Balancer;
use super::compactor::Compactor;
use super::controller::{Controller, TURN};
use super::held_command::{HeldCommand, Waiting};
use super::task::Task;
use super::{OtherControls, Refusal};
use durkenzo_driver::{ControlCommand, Next, ServerState};
use durkenzo_store::Store;
use std::collections::{BTreeMap, BTreeSet};
use std::sync::atomic::{AtomicBool, Ordering};
use std::sync::Arc;
use std::time::{Duration, Instant};

/// How often it checks which servers are there.
const TICK: Duration = Duration::from_millis(50);
/// The pause after a failed check.
const PAUSE: Duration = Duration::from_millis(500);
/// How long vacant shards wait for all servers, before the servers that are there get them.
pub const FIRST_WAIT: Duration = Duration::from_secs(10);

/// The control of several processes, while this one leads.
pub(super) struct Leader {
    control: Controller,
    watch: LeaderWatch,
    balancer: Balancer,
    compactor: Compactor,
    peers: Arc<dyn OtherControls>,
}

impl Leader {
    /// Makes this control lead several processes over their store. If `assigns` is set, vacant shards get owners once
    /// all servers are there, or have been awaited long enough. If this process's server is back from a stop, it is
    /// brought up then.
    pub(super) fn new(
        mut control: Controller,
        (peers, store): (Arc<dyn OtherControls>, Arc<dyn Store>),
        assigns: bool,
        is_back: Arc<AtomicBool>,
    ) -> Leader {
        control.peers = Some(peers.clone());
        Leader {
            watch: LeaderWatch::new(assigns, is_back, control.now()),
            balancer: Balancer::new(control.now()),
            compactor: Compactor::new(store, control.now()),
            control,
            peers,
        }
    }

    /// Returns how long it is until the next turn, if somebody asks no sooner.
    pub(super) fn wait(&self) -> Duration {
        let now = self.control.now();
        let left = self.watch.due.saturating_duration_since(now);
        self.control.wait_as_leader().min(left)
    }

    /// Takes waiting commands, and does the work that is due. Returns whether this process goes on leading. If it
    /// doesn't, waiting commands go to the next leader.
    pub(super) fn turn(&mut self, waiting: &Waiting) -> bool {
        let control = &mut self.control;
        if control.host.is_stopping() {
            control.leave();
            return false;
        }
        control.take_waiting(waiting, self.watch.has_begun);
        control.run_tasks();
        self.watch.go_on(control);
        if self.watch.has_assigned() {
            self.balancer.go_on(control);
        }
        if control.is_lost || self.watch.is_led_elsewhere(&*self.peers) {
            control.leave();
            return false;
        }
        let is_busy = !(control.tasks.is_empty() && control.paused.is_empty());
        self.compactor.go_on(control.now(), is_busy);
        true
    }

    /// Answers all tasks: another process goes on with the work.
    pub(super) fn leave(mut self) {
        self.control.leave();
    }

    /// Returns whether nothing is under way.
    pub(super) fn is_idle(&self) -> bool {
        self.control.tasks.is_empty() && self.watch.has_begun
    }
}

impl Controller {
    /// Takes waiting commands, once all earlier work under way is known. Otherwise an intent that is read after a
    /// command would undo that command. Before that, it refuses commands that have waited in vain.
    fn take_waiting(&mut self, waiting: &Waiting, has_begun: bool) {
        let now = self.now();
        for HeldCommand { until, asked } in waiting.take() {
            match has_begun {
                true => self.take(asked),
                false if until <= now => asked.refuse(Refusal::no_leader()),
                false => waiting.hold_again(HeldCommand { until, asked }),
            }
        }
    }
}

/// The progress of a leader's periodic work.
struct LeaderWatch {
    /// When it checks next.
    due: Instant,
    /// Whether it has looked at all work that was under way when it began.
    has_begun: bool,
    /// Until when vacant shards wait for all servers; nothing once they have owners.
    assigns: Option<Instant>,
    /// Whether others know that this process leads.
    is_known: bool,
    /// Whether this process's server is back from a stop, and isn't up yet.
    is_back: Arc<AtomicBool>,
}

impl LeaderWatch {
    fn new(assigns: bool, is_back: Arc<AtomicBool>, now: Instant) -> LeaderWatch {
        LeaderWatch {
            due: now,
            has_begun: false,
            assigns: assigns.then_some(now + FIRST_WAIT),
            is_known: false,
            is_back,
        }
    }

    /// Returns whether it has looked at all work that was under way, and shards have their first owners.
    fn has_assigned(&self) -> bool {
        self.has_begun && self.assigns.is_none()
    }

    /// Returns whether another process leads, or this one's lease has ended.
    fn is_led_elsewhere(&mut self, peers: &dyn OtherControls) -> bool {
        let leads = peers.member().leader() == Some(peers.member().process());
        self.is_known |= leads;
        self.is_known && !leads
    }

    /// Makes a check, if it is due. Perhaps another process led before this one saw that it was elected itself.
    fn go_on(&mut self, control: &mut Controller) {
        if let Err(refusal) = self.look(control) {
            tracing::warn!(%refusal, "the control doesn't go on for now");
            control.is_lost |= refusal.is_of_leader();
            self.due = control.now() + PAUSE;
        }
    }

    fn look(&mut self, control: &mut Controller) -> Result<(), Refusal> {
        let now = control.now();
        if now < self.due {
            return Ok(());
        }
        self.due = now + TICK;
        if !self.has_begun {
            begin(control)?;
            self.has_begun = true;
        }
        self.have_own_back(control)?;
        have_back(control)?;
        control.begin_to_come_home()?;
        if self.assigns.is_some() {
            self.assign(control)?;
        }
        // While no shard has an owner, a server that isn't there may simply not have started yet.
        if self.assigns.is_none() || is_owned(control)? {
            self.have_fail(control)?;
        }
        control.resume_left()
    }

    /// Declares servers failed that aren't there any more. Goes on with their shards, and with those of servers that
    /// somebody declared failed. If the store doesn't allow it now, the next check does it.
    fn have_fail(&mut self, control: &mut Controller) -> Result<(), Refusal> {
        while let Some(server) = control.backend.fallen()? {
            match control.make(ControlCommand::Fail(server)) {
                // It is back under a new lease. The next check reads again which servers are there.
                Err(refusal) if refusal.is_still_there() => {
                    self.due = control.now() + PAUSE;
                    break;
                }
                made => made?,
            }
        }
        if control.has_fallen {
            control.have_fallen_come_home()?;
            go_on_with_shards(control)?;
            control.has_fallen = false;
        }
        Ok(())
    }

    /// Brings this process's server up, if it was stopped before the process began.
    fn have_own_back(&self, control: &mut Controller) -> Result<(), Refusal> {
        let own = control.peers.as_ref().map(|it| it.member().server());
        let own = own.filter(|it| *it <= control.backend.servers());
        if let Some(own) = own.filter(|_| self.is_back.load(Ordering::Acquire)) {
            if control.backend.state_of(own)? == ServerState::Stopped {
                control.make(ControlCommand::Back(own))?;
            }
            self.is_back.store(false, Ordering::Release);
        }
        Ok(())
    }

    /// Gives vacant shards owners for a while, if that is due.
    fn assign(&mut self, control: &mut Controller) -> Result<(), Refusal> {
        let live = live(control);
        let is_due = self.assigns.is_some_and(|it| it <= control.now());
        let are_all = live.len() == usize::from(control.backend.servers());
        if !has_vacant(control)? {
            self.assigns = None;
            return Ok(());
        }
        if live.is_empty() || !(is_due || are_all) {
            return Ok(());
        }
        let live: Vec<u16> = live.into_iter().collect();
        let end = control.now() + TURN;
        for shard in 0..control.backend.shards() {
            control.assign(shard, live[usize::from(shard) % live.len()])?;
            if control.now() >= end {
                self.due = control.now();
                return Ok(());
            }
        }
        control.place()?;
        self.assigns = None;
        Ok(())
    }
}

/// Returns whether a shard has no owner.
fn has_vacant(control: &mut Controller) -> Result<bool, Refusal> {
    for shard in 0..control.backend.shards() {
        if control.is_vacant(shard)? {
            return Ok(true);
        }
    }
    Ok(false)
}

/// Returns whether a shard has an owner.
fn is_owned(control: &mut Controller) -> Result<bool, Refusal> {
    for shard in 0..control.backend.shards() {
        if !control.is_vacant(shard)? {
            return Ok(true);
        }
    }
    Ok(false)
}

/// Returns the servers that are there, except for those that were removed.
fn live(control: &Controller) -> BTreeSet<u16> {
    processes(control).into_keys().collect()
}

/// Returns the numbers of the processes of these servers.
fn processes(control: &Controller) -> BTreeMap<u16, u64> {
    let (peers, servers) = (control.peers.as_ref(), control.backend.servers());
    let members = peers.map(|it| it.member().members());
    let live = members.iter().flat_map(|it| it.iter());
    let known = live.filter(|it| *it.0 <= servers);
    known.map(|it| (*it.0, it.1.process)).collect()
}

/// Goes on at the point at which the former leader was.
fn begin(control: &mut Controller) -> Result<(), Refusal> {
    let known: BTreeSet<u16> = control.tasks.iter().filter_map(Task::restarts).collect();
    for server in 1..=control.backend.servers() {
        control.note_state(server)?;
        let state = control.backend.state_of(server)?;
        let is_under_way = matches!(state, ServerState::Asked | ServerState::Approved);
        if is_under_way && !known.contains(&server) {
            control.tasks.push(Task::restart(server));
        }
    }
    // The former leader may have noted that a server failed, and nothing more.
    control.note_homes()?;
    control.have_fallen_come_home()?;
    go_on_with_shards(control)?;
    control.go_on_with_intents()
}

/// Goes on with shards for which work is under way, unless it does so already.
fn go_on_with_shards(control: &mut Controller) -> Result<(), Refusal> {
    let known: BTreeSet<u16> = control.tasks.iter().filter_map(Task::migrates).collect();
    for shard in 0..control.backend.shards() {
        if !known.contains(&shard) && control.backend.next_of_shard(shard)? != Next::Nothing {
            control.tasks.push(Task::going_on(shard));
        }
    }
    Ok(())
}

/// Brings servers up that are there: those that had failed, once all their shards have gone to others or can't; and
/// those whose restart is over, because a later process runs them. If a state doesn't say which process was stopped,
/// the server's process asks for it when it begins.
fn have_back(control: &mut Controller) -> Result<(), Refusal> {
    for (server, process) in processes(control) {
        if control.backend.state_of(server)? == ServerState::Failed {
            have_one_back(control, server)?;
        }
        if control.backend.is_restarted_by(server, process)? {
            control.make(ControlCommand::Back(server))?;
        }
    }
    Ok(())
}

/// Brings this server up, unless one of its shards still goes to another server. Shards that fit on no other server are
/// resumed then.
fn have_one_back(control: &mut Controller, server: u16) -> Result<(), Refusal> {
    for shard in 0..control.backend.shards() {
        let record = control.backend.record(shard)?;
        let is_owned = record.is_some_and(|it| it.owner() == Some(server));
        if is_owned && matches!(control.backend.next_of_shard(shard)?, Next::Command(_)) {
            return go_on_with_shards(control);
        }
    }
    control.make(ControlCommand::Back(server))
}

#[cfg(test)]
mod tests {
    use super::super::backend::{Backend, BackendFault};
    use super::super::plain_backend::{PlainBackend, QuietHost, Teller};
    use super::super::{Asked, ControlAnswer, Words};
    use super::*;
    use durkenzo::{Plan, PlanFault, Record, Stand};
    use durkenzo_driver::{Clock, Refused};
    use durkenzo_store::WriteError;

    /// Two servers without shards. The second one is always back when it is declared failed. If another process leads,
    /// it tells nothing.
    struct Returning {
        is_led_elsewhere: bool,
    }

    impl Backend for Returning {
        fn servers(&self) -> u16 {
            2
        }

        fn shards(&self) -> u16 {
            0
        }

        fn lasts(&self) -> bool {
            true
        }

        fn command(&mut self, command: ControlCommand) -> Result<(), BackendFault> {
            assert_eq!(command, ControlCommand::Fail(2));
            Err(Refused::StillThere(2).into())
        }

        fn next_of_shard(&mut self, _shard: u16) -> Result<Next, BackendFault> {
            Ok(Next::Nothing)
        }

        fn next_of_server(&mut self, _server: u16) -> Result<Next, BackendFault> {
            Ok(Next::Nothing)
        }

        fn next_of_drain(&mut self, _server: u16) -> Result<Next, BackendFault> {
            Ok(Next::Nothing)
        }

        fn plan(&mut self, _server: u16) -> Result<Plan, BackendFault> {
            Err(PlanFault::UnknownServer.into())
        }

        fn record(&mut self, _shard: u16) -> Result<Option<Record>, BackendFault> {
            Ok(None)
        }

        fn state_of(&mut self, _server: u16) -> Result<ServerState, BackendFault> {
            match self.is_led_elsewhere {
                true => Err(Refused::NotLeader.into()),
                false => Ok(ServerState::Up),
            }
        }

        fn show_state(&mut self, _server: u16, _state: ServerState) {}

        fn fallen(&mut self) -> Result<Option<u16>, BackendFault> {
            Ok(Some(2))
        }
    }

    /// Returns a control of these servers and its leader's part, at a moment that stands still.
    fn begun(backend: Returning) -> (Controller, LeaderWatch, Instant) {
        let began = Clock::default().now();
        let clock = Clock::new(move || began);
        let control = Controller::new(Arc::new(QuietHost::default()), Box::new(backend), clock);
        let watch = LeaderWatch::new(false, Arc::default(), began);
        (control, watch, began)
    }

    #[test]
    fn who_never_saw_that_it_led_leaves_once_another_process_leads() {
        for is_led_elsewhere in [false, true] {
            let (mut control, mut watch, _) = begun(Returning { is_led_elsewhere });
            watch.go_on(&mut control);
            assert_eq!(control.is_lost, is_led_elsewhere);
        }
    }

    #[test]
    fn shards_go_on_once_somebody_had_their_server_have_failed() {
        let backend = PlainBackend::of(2, Stand::Serving(1));
        backend.plain().stands[1] = Stand::Prepared { owner: 1, next: 2 };
        let mut control = backend.control();
        let mut watch = LeaderWatch::new(false, Arc::default(), control.now());
        watch.have_fail(&mut control).unwrap();
        assert!(control.tasks.is_empty());
        control.make(ControlCommand::Fail(2)).unwrap();
        watch.have_fail(&mut control).unwrap();
        let going_on: Vec<_> = control.tasks.iter().map(Task::shard_going_on).collect();
        assert_eq!(going_on, [Some(1)]);
    }

    #[test]
    fn what_somebody_steps_by_hand_stays_where_no_server_failed() {
        let backend = PlainBackend::of(1, Stand::Prepared { owner: 1, next: 2 });
        let mut control = backend.control();
        let mut watch = LeaderWatch::new(false, Arc::default(), control.now());
        for (refused, is_finished) in [
            (Refused::StillThere(2), false),
            (WriteError::Full("a test".to_owned()).into(), true),
        ] {
            backend.plain().unmade = Some(refused);
            control.make(ControlCommand::Fail(2)).unwrap_err();
            watch.have_fail(&mut control).unwrap();
            assert_eq!(!control.tasks.is_empty(), is_finished);
        }
    }

    #[test]
    fn a_migration_that_was_asked_for_gets_no_second_task() {
        let backend = PlainBackend::of(1, Stand::Serving(1));
        let mut control = backend.control();
        let mut watch = LeaderWatch::new(false, Arc::default(), control.now());
        let (reply_to, told) = Teller::pair();
        control.take(Asked {
            words: Words::of(["SM", "MIGRATE", "0", "2"]),
            reply_to,
        });
        control.run_tasks();
        assert_ne!(backend.plain().stands[0], Stand::Serving(1));
        control.make(ControlCommand::Fail(2)).unwrap();
        watch.have_fail(&mut control).unwrap();
        assert!(control.tasks.len() <= 1 && !control.has_fallen);
        while !control.tasks.is_empty() {
            control.run_tasks();
        }
        assert_eq!(told.try_recv(), Ok(Ok(ControlAnswer::Done)));
    }

    #[test]
    fn a_server_that_is_back_holds_up_nothing() {
        let is_led_elsewhere = false;
        let (mut control, mut watch, began) = begun(Returning { is_led_elsewhere });
        watch.have_fail(&mut control).unwrap();
        // The next check reads again which servers are there. It comes no sooner.
        assert_eq!(watch.due, began + PAUSE);
        assert!(!control.has_fallen && !control.is_lost);
    }
}
