use super::controller::Controller;
use super::held_command::{HeldCommand, Waiting};
use super::leader::Leader;
use super::store_backend::StoreBackend;
use super::word_table::{self, ControlMode};
use super::{Asked, ControlHost, OtherControls, Refusal};
use durkenzo_driver::{Clock, Durable, DurableControl};
use std::fmt;
use std::sync::atomic::{AtomicBool, Ordering};
use std::sync::Arc;
use std::time::{Duration, Instant};

/// How often a process that doesn't lead checks which process does.
const TICK: Duration = Duration::from_millis(20);
/// How long after a failed attempt it tries to lead again.
const PAUSE: Duration = Duration::from_millis(200);

/// The control in one of several processes. It leads if no other process does. Otherwise it lets the leader answer.
pub struct Campaigner {
    host: Arc<dyn ControlHost>,
    durable: Arc<Durable>,
    peers: Arc<dyn OtherControls>,
    line: String,
    clock: Clock,
    /// The leader's part, while this process leads.
    leading: Option<Leader>,
    /// Whether vacant shards get owners.
    assigns: bool,
    /// When it tries to lead, or looks for the leader, again.
    again: Instant,
    /// Commands that wait for a leader.
    waiting: Waiting,
    /// Whether this server was stopped before its process began, and must still ask to be up.
    is_back: Arc<AtomicBool>,
}

impl Campaigner {
    /// Makes the campaigner of a process that shares the store with this line of settings. If `assigns` is set, the
    /// leader gives vacant shards owners.
    pub fn new(
        host: Arc<dyn ControlHost>,
        durable: Arc<Durable>,
        peers: Arc<dyn OtherControls>,
        line: String,
        assigns: bool,
    ) -> Campaigner {
        let clock = durable.clock().clone();
        Campaigner {
            is_back: Arc::new(AtomicBool::new(peers.member().was_away())),
            host,
            durable,
            peers,
            line,
            leading: None,
            assigns,
            again: clock.now(),
            waiting: Waiting::by(clock.clone()),
            clock,
        }
    }

    /// Takes the command, if there is one, and does the work that is due: it leads, or lets the leader answer.
    pub fn turn(&mut self, asked: Option<Asked>) {
        if self.leading.is_none() {
            self.leading = self.campaign();
        }
        match self.leading.take() {
            Some(leader) => self.lead(leader, asked),
            None => self.follow(asked),
        }
    }

    /// Returns how long it is until the next turn, if somebody asks no sooner.
    pub fn wait(&self) -> Duration {
        self.leading.as_ref().map_or(TICK, Leader::wait)
    }

    /// Returns whether nothing is under way here, and nobody waits.
    pub fn is_idle(&self) -> bool {
        self.waiting.is_empty() && self.leading.as_ref().is_none_or(Leader::is_idle)
    }

    /// Ends, because nobody can ask any more. Commands of other processes wait elsewhere.
    pub fn end(mut self) {
        self.leading.take().into_iter().for_each(Leader::leave);
        let waiting = self.waiting.close().into_iter();
        waiting.for_each(|it| self.pass_on(it, None));
    }

    /// Returns the leader's part, if this process leads from now on.
    fn campaign(&mut self) -> Option<Leader> {
        // If its own key is there, it may have been elected without having seen that.
        let member = self.peers.member();
        let is_led = member.leader().is_some_and(|it| it != member.process());
        if is_led || self.host.is_stopping() || self.clock.now() < self.again {
            return None;
        }
        self.again = self.clock.now() + PAUSE;
        let begun = DurableControl::campaign(self.durable.clone(), &self.line);
        let control = match begun {
            Ok(control) => control?,
            Err(error) => {
                tracing::warn!(%error, "this process can't lead");
                return None;
            }
        };
        tracing::info!("this process leads");
        let backend = Box::new(StoreBackend::shared(control));
        let control = Controller::new(self.host.clone(), backend, self.clock.clone());
        let around = (self.peers.clone(), self.durable.store().clone());
        let is_back = self.is_back.clone();
        Some(Leader::new(control, around, self.assigns, is_back))
    }

    /// Takes the command, and goes on leading, unless another process leads.
    fn lead(&mut self, mut leader: Leader, asked: Option<Asked>) {
        asked.into_iter().for_each(|it| self.waiting.hold(it));
        match leader.turn(&self.waiting) {
            true => self.leading = Some(leader),
            false => tracing::info!("this process doesn't lead any more"),
        }
    }

    /// Lets the leader's process answer.
    fn follow(&mut self, asked: Option<Asked>) {
        match asked {
            Some(asked) if self.waiting.is_full() => asked.refuse(Refusal::crowded()),
            Some(asked) => self.waiting.hold(asked),
            None => {}
        }
        let leader = self.peers.leader();
        self.ask_to_be_back(leader);
        for held in self.waiting.take() {
            self.pass_on(held, leader);
        }
    }

    /// Asks the leader that this server be up, if it was stopped when its process began. It asks until a leader has
    /// decided.
    fn ask_to_be_back(&mut self, leader: Option<u16>) {
        let own = self.peers.member().server();
        let is_due = self.is_back.load(Ordering::Acquire) && self.clock.now() >= self.again;
        let Some(leader) = leader.filter(|it| is_due && *it != own) else {
            return;
        };
        self.again = self.clock.now() + PAUSE;
        self.is_back.store(false, Ordering::Release);
        let is_back = self.is_back.clone();
        let tell = move |is_decided: bool| is_back.store(!is_decided, Ordering::Release);
        self.peers.ask_to_be_back(leader, Box::new(tell));
    }

    /// Gives the command to the leader. If there is no leader, or the leader didn't do it, the command waits. A command
    /// from another process goes no further: if this one can't lead, it is given back.
    fn pass_on(&self, held: HeldCommand, leader: Option<u16>) {
        let own = self.peers.member().server();
        let HeldCommand { until, asked } = held;
        if !asked.reply_to.is_awaited() {
            return;
        }
        let mode = ControlMode {
            lasts: true,
            has_peers: true,
            serves_texts: self.host.serves_texts(),
        };
        let Some(asked) = word_table::answered_here(&*self.host, mode, asked) else {
            return;
        };
        let refusal = match leader.filter(|it| *it != own) {
            Some(leader) if !asked.reply_to.asks_elsewhere() => {
                let again = self.waiting.again(until);
                return self.peers.ask(leader, asked, Some(again));
            }
            None if !self.host.is_stopping() && self.clock.now() < until => {
                return self.waiting.hold_again(HeldCommand { until, asked });
            }
            None if self.host.is_stopping() => Refusal::stopping(),
            _ => Refusal::no_leader(),
        };
        match asked.reply_to.asks_elsewhere() {
            true => asked.reply_to.give_back(),
            false => asked.refuse(refusal),
        }
    }
}

impl Drop for Campaigner {
    fn drop(&mut self) {
        // Links may still have commands that would come back here, and wait for ever.
        drop(self.waiting.close());
    }
}

impl fmt::Debug for Campaigner {
    fn fmt(&self, f: &mut fmt::Formatter<'_>) -> fmt::Result {
        f.debug_struct("Campaigner").finish_non_exhaustive()
    }
}
