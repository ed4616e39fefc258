//! Permits for servers that run as tasks: a task waits if a thread would be blocked.
use crate::fleet_inner::FleetInner;
use crate::queue::{Turn, LOOK};
use crate::{Enter, Fleet, Mode, Service};
use std::sync::atomic::Ordering;
use std::time::{Duration, Instant};

const BEFORE: &str = "calls that came before wait for the shard";

impl<S: Service> Fleet<S> {
    /// Returns whether this process may execute a call, as [`Fleet::enter`] does, without blocking a thread. If the
    /// result would be [`Enter::Wait`], or if another call uses the body, this waits for up to `within`, behind the
    /// calls that came before. If as many calls wait already as `--waiting` allows, it returns [`Enter::Wait`] at once.
    ///
    /// The caller must run it in a runtime whose driver of time is enabled, for example by
    /// [`enable_all`](tokio::runtime::Builder::enable_all). If it isn't, tokio panics.
    ///
    /// The permit moves with its task from thread to thread. Other calls of the shard wait until the permit is dropped.
    /// If the future is dropped, it gives back its place in the queue, or its permit.
    ///
    /// ```no_run
    /// use durkenzo_fleet::{Enter, Fleet, Mode, Service};
    /// use std::time::Duration;
    ///
    /// // What a handler of any server on tokio does: it forwards by frames of its own.
    /// async fn handle<S: Service>(fleet: &Fleet<S>, key: &[u8], request: &[u8]) -> Result<Vec<u8>, String> {
    ///     let shard = fleet.sharding().shard_of(key);
    ///     match fleet.enter_async(shard, Mode::Direct, Duration::from_secs(1)).await {
    ///         Enter::Here(mut permit) => {
    ///             let answer = permit.answer(request);
    ///             // Another process may have the shard by now.
    ///             permit.holds().then_some(answer).ok_or("it isn't known whether it was made".to_owned())
    ///         }
    ///         Enter::Forward(to) | Enter::Elsewhere(to) => Err(format!("ask server {}", to.server)),
    ///         Enter::Wait(why) => Err(why.to_owned()),
    ///         Enter::Refused(why) => Err(why.to_string()),
    ///     }
    /// }
    /// ```
    pub async fn enter_async(&self, shard: u16, mode: Mode, within: Duration) -> Enter<'_, S> {
        let end = self.inner.environment.end_of(within);
        self.inner.enter_async(shard, mode, end).await
    }
}

impl<S: Service> FleetInner<S> {
    async fn enter_async(&self, shard: u16, mode: Mode, end: Instant) -> Enter<'_, S> {
        let queue = self.places.get(usize::from(shard)).map(|it| &it.queue);
        let most = self.options.waiting;
        // A call that comes later waits behind the calls that wait already.
        let mut is_behind = queue.is_some_and(|it| !it.is_empty());
        let (mut turn, mut why) = (None, BEFORE);
        loop {
            if let Some(queue) = queue.filter(|_| is_behind && turn.is_none()) {
                turn = queue.enter(most);
                if turn.is_none() {
                    return Enter::Wait("as many calls wait for the shard as may");
                }
            }
            is_behind = true;
            if turn.as_ref().is_none_or(Turn::is_first) {
                match self.enter_within(shard, mode, end).await {
                    Enter::Wait(reason) => why = reason,
                    decided => return decided,
                }
            }
            let is_over = self.is_stopping() || self.closing.load(Ordering::Acquire);
            if Instant::now() >= end || is_over {
                return Enter::Wait(why);
            }
            if let Some(turn) = &turn {
                let soon = end.min(Instant::now() + LOOK);
                turn.woken(tokio::time::sleep_until(soon.into())).await;
            }
        }
    }

    /// Looks once whether this process may execute the call, and waits for the body until this time.
    async fn enter_within(&self, shard: u16, mode: Mode, end: Instant) -> Enter<'_, S> {
        let (place, from) = match self.entered_at_once(shard, mode) {
            Ok(decided) => return decided,
            Err(waits) => waits,
        };
        match tokio::time::timeout_at(end.into(), place.body()).await {
            Ok(body) => self.entered((shard, from), place, body),
            Err(_) => Enter::Wait("another call of the shard is executed still"),
        }
    }
}
