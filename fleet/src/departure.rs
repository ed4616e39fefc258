//! How a process leaves. If it is stopped, its shards go to other servers first.
use crate::environment::before;
use crate::fleet_inner::FleetInner;
use crate::place::Place;
use crate::Service;
use durkenzo_driver::takes_part;
use std::sync::atomic::Ordering;
use std::sync::PoisonError;
use std::time::{Duration, Instant};

/// How often the process looks whether the control has stopped this server.
const LOOK: Duration = Duration::from_millis(20);
/// The time after which a server asks again to be stopped.
const ASK_AGAIN: Duration = Duration::from_millis(250);
/// How often a process that must leave tells the operator why it is still here.
const TELL: Duration = Duration::from_secs(5);
/// The time for which a stopped server forwards the calls that still come.
const LINGER: Duration = Duration::from_millis(500);
/// The longest time that a process that leaves waits for calls that are under way.
const UNDER_WAY: Duration = Duration::from_secs(5);

impl<S: Service> FleetInner<S> {
    /// Asks the control to stop this server, and waits until that is done, or at most this long. After that, the
    /// process takes no more calls.
    pub(crate) async fn give_way(&self, grace: Duration) {
        let end = self.environment.end_of(grace);
        loop {
            self.give_shards_away(end).await;
            // If the map of a client is old, this process must forward its calls a little longer. A client that still
            // comes after that is told to ask elsewhere, so that no call is under way when connections end.
            self.environment.wait(LINGER, end).await;
            self.closing.store(true, Ordering::Release);
            // An earlier stop may have ended in the meantime, so that shards have come home.
            if !self.is_named() || self.is_to_leave(end) {
                break;
            }
            self.closing.store(false, Ordering::Release);
        }
        self.environment.wait(LINGER, end).await;
    }

    /// Asks the control to stop this server, and asks again a little after each answer. Ends when the server is
    /// stopped, or when the process waits no longer.
    async fn give_shards_away(&self, end: Instant) {
        let server = self.server().to_string();
        let words = ["RESTART", &server];
        let ask = || Box::pin(self.command(&words));
        let is_stopped = || self.durable.is_away(self.server()) && !self.is_named();
        let (mut asked, mut again) = (Some(ask()), None);
        let (mut told, mut refused) = (self.environment.end_of(TELL), None);
        while !is_stopped() && !self.is_to_leave(end) {
            if self.environment.is_past(told) {
                self.tell_what_it_waits_for(refused.as_deref(), end);
                told = self.environment.end_of(TELL);
            }
            if again.is_some_and(|it| self.environment.is_past(it)) {
                (asked, again) = (Some(ask()), None);
            }
            let looks = self.environment.wait(LOOK, end);
            let answered = match &mut asked {
                Some(asked) => before(asked, looks).await,
                None => {
                    looks.await;
                    None
                }
            };
            if let Some(answered) = answered {
                asked = None;
                refused = answered.err();
                if let Some(refusal) = &refused {
                    tracing::info!(refusal, "the control doesn't stop this server yet");
                }
                // The answer may be about the restart of the previous process of this server. After that restart,
                // shards come home to this process.
                again = Some(self.environment.end_of(ASK_AGAIN));
            }
        }
    }

    /// Returns whether this process no longer waits for others to take its shards.
    fn is_to_leave(&self, end: Instant) -> bool {
        self.leaves_at_once.load(Ordering::Acquire) || self.environment.is_past(end)
    }

    /// Tells the operator who stops this process why it is still here.
    fn tell_what_it_waits_for(&self, refused: Option<&str>, end: Instant) {
        let own = self.server();
        let shards = self.places.iter();
        let shards = shards.filter(|it| takes_part(it.known().record().stand, own));
        let (count, left) = (shards.count(), self.environment.left(end).as_secs());
        let others = self
            .member
            .members()
            .iter()
            .filter(|it| *it.0 != own)
            .count();
        let why = refused.unwrap_or("the control hasn't answered RESTART yet");
        self.environment.tell(&format!(
            "server {own} leaves once others have its {count} shards, or in {left} s, or by SIGTERM again; other \
             servers there: {others}; {why}"
        ));
    }

    /// Leaves as soon as no call is under way, or after 5 seconds.
    pub(crate) async fn leave(&self) {
        self.stopping.store(true, Ordering::Release);
        self.end_views();
        *self.control.lock().unwrap_or_else(PoisonError::into_inner) = None;
        let end = self.environment.end_of(UNDER_WAY);
        let is_any_in_use = || self.places.iter().any(Place::is_in_use);
        while is_any_in_use() && !self.environment.is_past(end) {
            self.environment.wait(LOOK, end).await;
        }
        self.member.leave();
    }
}
