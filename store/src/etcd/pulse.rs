use super::environment::Environment;
use std::future::Future;
use std::time::{Duration, Instant};
use tokio::sync::Mutex;

/// How long a stream is silent before its member is asked whether it is well, and the pause before it is asked again.
pub(super) const QUIET: Duration = Duration::from_secs(1);

/// Whether a member answered the last question, and when. All watches of the member share it, so that many cost it no
/// more than one.
#[derive(Default)]
pub(super) struct Pulse(Mutex<Option<(Instant, bool)>>);

impl Pulse {
    /// Returns whether the member answers this question. It is asked some time after the last one. If the member just
    /// didn't answer that, this one isn't asked.
    pub(super) async fn is_felt(
        &self,
        environment: &dyn Environment,
        question: impl Future<Output = bool>,
    ) -> bool {
        let mut last = self.0.lock().await;
        let now = environment.now();
        match *last {
            Some((asked, false)) if now.saturating_duration_since(asked) < QUIET => return false,
            Some((asked, true)) => environment.wait_until(asked + QUIET).await,
            _ => {}
        }
        let is_felt = question.await;
        *last = Some((environment.now(), is_felt));
        is_felt
    }
}
