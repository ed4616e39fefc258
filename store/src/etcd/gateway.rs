use super::call_error::CallError;
use super::environment::{Environment, MemberAnswer, MemberCall, NoAnswer};
use super::etcd_protocol::EtcdProtocol;
use super::member_stream::MemberStream;
use super::method::Method;
use super::pulse::Pulse;
use super::race::{before, Calls};
use super::wire::{Asked, Authenticated, Credentials, Nothing, RangeRequest, Told};
use std::future::Future;
use std::sync::atomic::{AtomicUsize, Ordering};
use std::sync::{Arc, Mutex, MutexGuard, PoisonError};
use std::time::{Duration, Instant};

/// How long a member may take to do something to all of its data.
const LONG: Duration = Duration::from_secs(30);
/// How long a member may take to begin a watch, and to answer whether it is well. Members without a leader mostly elect
/// one in less time.
const SHORT: Duration = Duration::from_secs(2);
/// How long a member may take to keep a lease before another one is also asked.
const BRIEF: Duration = Duration::from_secs(1);
/// The most calls of a member at the same time, and how often it is asked without a pause if all fail.
const BESIDE: usize = 2;

/// The way to the members. A call goes to the member that answered last, and to the next one if that can't be reached.
pub(super) struct Gateway {
    environment: Arc<dyn Environment>,
    protocol: EtcdProtocol,
    members: usize,
    /// How long to wait for an answer.
    patience: Duration,
    /// The user's name and password, if etcd asks for them.
    user: Option<(String, String)>,
    current: AtomicUsize,
    token: Mutex<Option<String>>,
    /// One for each member.
    pulses: Vec<Pulse>,
}

impl Gateway {
    /// Makes the way to so many members, at least one.
    pub(super) fn new(
        environment: Arc<dyn Environment>,
        members: usize,
        patience: Duration,
        user: Option<(String, String)>,
    ) -> Gateway {
        Gateway {
            protocol: environment.protocol(),
            environment,
            members,
            patience,
            user,
            current: AtomicUsize::new(0),
            token: Mutex::new(None),
            pulses: (0..members).map(|_| Pulse::default()).collect(),
        }
    }

    /// Returns this moment.
    fn now(&self) -> Instant {
        self.environment.now()
    }

    /// Waits for so long.
    pub(super) async fn wait(&self, time: Duration) {
        self.environment.wait_until(self.now() + time).await;
    }

    /// Returns the result of the call, if it comes within that time.
    async fn within<T>(
        &self,
        patience: Duration,
        call: impl Future<Output = Result<T, CallError>>,
    ) -> Result<T, CallError> {
        self.until(self.now() + patience, call).await
    }

    /// Returns the result of the call, if it comes by then.
    async fn until<T>(
        &self,
        end: Instant,
        call: impl Future<Output = Result<T, CallError>>,
    ) -> Result<T, CallError> {
        let found = before(call, self.environment.wait_until(end)).await;
        found.unwrap_or_else(|| Err(CallError::late()))
    }

    /// Calls a member. If the first one may have got the call, no other is called.
    pub(super) async fn once<T: Told>(
        &self,
        method: Method,
        asked: &impl Asked,
    ) -> Result<T, CallError> {
        let call = |member| self.ask(member, method, asked);
        self.reach(self.patience, &call).await
    }

    /// Calls a member. If it doesn't answer, or refuses for its own reasons, calls the others in turn. So the call must
    /// be one that may be done twice.
    pub(super) async fn again<T: Told>(
        &self,
        method: Method,
        asked: &impl Asked,
    ) -> Result<T, CallError> {
        let call = |member| self.ask(member, method, asked);
        self.in_turn(self.patience, &call).await
    }

    /// Calls each member that can be reached, one after another. Each may take minutes. After a failure, none is
    /// called.
    pub(super) async fn each<T: Told>(
        &self,
        method: Method,
        asked: &impl Asked,
    ) -> Result<(), CallError> {
        for member in 0..self.members {
            match self
                .within(LONG, self.ask::<T>(member, method, asked))
                .await
            {
                Ok(_) | Err(CallError::Unreachable(_)) => {}
                Err(error) => return Err(error),
            }
        }
        Ok(())
    }

    /// Calls a member that answers with a stream, and returns the stream's first element. If none comes soon, also asks
    /// other members. So the call must be one that may be done twice.
    pub(super) async fn first<T: Told>(
        &self,
        method: Method,
        asked: &impl Asked,
    ) -> Result<T, CallError> {
        let call = |member| self.first_of(member, method, asked);
        self.within(self.patience, self.beside(call)).await
    }

    /// Makes this member, and no other, tell changes as a stream. The stream begins soon or not at all.
    pub(super) async fn watch(
        &self,
        member: usize,
        asked: &impl Asked,
    ) -> Result<MemberStream, CallError> {
        let asked = self.protocol.written(asked)?;
        let begun = self.as_user(member, || self.post(member, Method::Watch, asked.clone()));
        let found = self.within(SHORT, begun).await?;
        Ok(self.protocol.stream(found))
    }

    /// Returns whether this member itself, and no other for it, can read the revision of a key. For that it must ask a
    /// majority of members, so a member is also found out that reaches no leader, or whose disk hangs.
    pub(super) async fn is_well(&self, member: usize, key: &[u8]) -> bool {
        let question = async {
            let asked = RangeRequest::counting(key);
            let found = self.ask::<Nothing>(member, Method::Range, &asked);
            match self.within(SHORT, found).await {
                Ok(_) => true,
                // If the user may not see the key, the refusal comes after the others were asked.
                Err(CallError::Refused(it)) => it.is_of_user(),
                Err(_) => false,
            }
        };
        self.pulses[member]
            .is_felt(&*self.environment, question)
            .await
    }

    /// Makes a member do this. If it doesn't answer, or refuses for its own reasons, the others do it in turn, each
    /// with this patience.
    async fn in_turn<T, F: Future<Output = Result<T, CallError>>>(
        &self,
        patience: Duration,
        call: &impl Fn(usize) -> F,
    ) -> Result<T, CallError> {
        let mut left = self.members;
        loop {
            left -= 1;
            match self.reach(patience, call).await {
                Err(error) if left > 0 && error.is_of_member() => {}
                found => return found,
            }
        }
    }

    /// Makes a member do this. If it fails, another one does it at once. If it is slow, one more is also asked each
    /// `BRIEF`, until one has done it.
    ///
    /// A slow call goes on, because all may be slow. Its member is asked once more, because the call may wait for a
    /// leader that hangs although the member knows another leader by now.
    async fn beside<T, F>(&self, call: impl Fn(usize) -> F) -> Result<T, CallError>
    where
        F: Future<Output = Result<T, CallError>>,
    {
        let (mut calls, mut under_way) = (Calls::new(), vec![0; self.members]);
        let (mut next, mut begun, mut last) = (self.current(), 0, CallError::late());
        let mut begins = true;
        loop {
            if let Some(member) = with_room(&under_way, next).filter(|_| begins) {
                calls.add(member, call(member));
                self.pass_over(member);
                under_way[member] += 1;
                (next, begun) = (member + 1, begun + 1);
            }
            let brief = self.environment.wait_until(self.now() + BRIEF);
            begins = match before(calls.next(), brief).await {
                None => true,
                Some(None) => return Err(last),
                Some(Some((member, Ok(found)))) => {
                    self.current.store(member, Ordering::Relaxed);
                    return Ok(found);
                }
                Some(Some((member, Err(error)))) if error.is_passed_over() => {
                    under_way[member] -= 1;
                    last = error;
                    begun < BESIDE * self.members
                }
                Some(Some((_, Err(error)))) => return Err(error),
            };
        }
    }

    /// Makes the first member that can be reached do this, with this patience also for the search. If that member
    /// doesn't answer, or refuses for its own reasons, the next call goes to another one.
    async fn reach<T, F: Future<Output = Result<T, CallError>>>(
        &self,
        patience: Duration,
        call: &impl Fn(usize) -> F,
    ) -> Result<T, CallError> {
        let end = self.now() + patience;
        let mut last = String::new();
        for _ in 0..self.members {
            let member = self.current();
            match self.until(end, call(member)).await {
                Err(CallError::Unreachable(why)) => last = why,
                Err(error) if error.is_of_member() => {
                    self.pass_over(member);
                    return Err(error);
                }
                found => return found,
            }
            self.pass_over(member);
        }
        Err(CallError::Unreachable(last))
    }

    /// Returns the first element of this member's stream.
    async fn first_of<T: Told>(
        &self,
        member: usize,
        method: Method,
        asked: &impl Asked,
    ) -> Result<T, CallError> {
        let asked = self.protocol.written(asked)?;
        let first = || async {
            let found = self.post(member, method, asked.clone()).await?;
            self.protocol.stream(found).next().await
        };
        self.as_user(member, first).await
    }

    /// Asks only this member.
    async fn ask<T: Told>(
        &self,
        member: usize,
        method: Method,
        asked: &impl Asked,
    ) -> Result<T, CallError> {
        let asked = self.protocol.written(asked)?;
        self.as_user(member, || self.answered(member, method, asked.clone()))
            .await
    }

    /// Makes a call of this member with the user's token. If the token has ended, gets a new one.
    async fn as_user<T, F: Future<Output = Result<T, CallError>>>(
        &self,
        member: usize,
        call: impl Fn() -> F,
    ) -> Result<T, CallError> {
        match call().await {
            Err(CallError::Refused(it)) if it.is_of_token() && self.user.is_some() => {
                self.authenticate(member).await?;
                call().await
            }
            found => found,
        }
    }

    async fn authenticate(&self, member: usize) -> Result<(), CallError> {
        let Some((name, password)) = self.user.clone() else {
            return Ok(());
        };
        let asked = self.protocol.written(&Credentials { name, password })?;
        let found = self.answered::<Authenticated>(member, Method::Authenticate, asked);
        *self.token() = Some(found.await?.token);
        Ok(())
    }

    fn token(&self) -> MutexGuard<'_, Option<String>> {
        self.token.lock().unwrap_or_else(PoisonError::into_inner)
    }

    /// Returns the member to which the next call goes.
    pub(super) fn current(&self) -> usize {
        self.current.load(Ordering::Relaxed)
    }

    /// Makes the next call go to another member than this one.
    pub(super) fn pass_over(&self, member: usize) {
        let next = (member + 1) % self.members;
        // If another call has already done that, there is nothing to do.
        let _ = self
            .current
            .compare_exchange(member, next, Ordering::Relaxed, Ordering::Relaxed);
    }

    /// Posts the call to this member, and returns its whole answer.
    async fn answered<T: Told>(
        &self,
        member: usize,
        method: Method,
        asked: Vec<u8>,
    ) -> Result<T, CallError> {
        let found = self.post(member, method, asked).await?;
        self.protocol.read(found).await
    }

    /// Posts the call to this member.
    async fn post(
        &self,
        member: usize,
        method: Method,
        asked: Vec<u8>,
    ) -> Result<MemberAnswer, CallError> {
        let call = MemberCall {
            member,
            path: method.path(self.protocol),
            token: self.token().clone(),
            needs_leader: method == Method::Watch,
            asked,
        };
        self.protocol
            .accepted(self.environment.call(call).await?)
            .await
    }
}

impl From<NoAnswer> for CallError {
    fn from(error: NoAnswer) -> CallError {
        match error {
            NoAnswer::Unreachable(why) => CallError::Unreachable(why),
            NoAnswer::Broken(why) => CallError::Unknown(why),
        }
    }
}

/// Returns the first member, from this one on, that may have another call beside those under way.
fn with_room(under_way: &[usize], from: usize) -> Option<usize> {
    let members = (from..).map(|it| it % under_way.len());
    let mut members = members.take(under_way.len());
    members.find(|it| under_way[*it] < BESIDE)
}
