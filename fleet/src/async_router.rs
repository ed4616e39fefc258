use crate::call_routes::CallRoutes;
use crate::tasks::Tasks;
use crate::{Answer, CallError, JoinError, Retry, Router, Safety, Sharding};
use std::fmt;
use std::io;

/// A client of a fleet for tasks of tokio: a [`Router`] that blocks no thread while it calls.
///
/// Its calls must run in a runtime whose drivers of IO and of time are enabled: see
/// [`enable_all`](tokio::runtime::Builder::enable_all). If they aren't, tokio panics.
///
/// If the future of a call is dropped, its connection ends. The call may have been made, as one that is
/// [`CallError::Unsure`].
///
/// ```no_run
/// use durkenzo_fleet::{AsyncRouter, Retry, Safety};
/// use std::time::Duration;
///
/// # async fn example() -> Result<(), Box<dyn std::error::Error>> {
/// let router = AsyncRouter::of("127.0.0.1:7381", Safety::default()).await?;
/// let retry = Retry::Until(Duration::from_secs(10));
/// let answer = router.call(b"customer-17", b"hit", retry).await?;
/// println!("{} bytes by server {}", answer.bytes.len(), answer.server);
/// # Ok(())
/// # }
/// ```
pub struct AsyncRouter {
    routes: CallRoutes,
    tasks: Tasks,
}

impl AsyncRouter {
    /// Asks any server of the fleet for the map, as [`Router::of_with`] does. Runs that on a blocking thread of the
    /// runtime.
    ///
    /// # Errors
    ///
    /// The same as for [`Router::of_with`].
    pub async fn of(url: &str, safety: Safety) -> Result<AsyncRouter, JoinError> {
        let url = url.to_owned();
        let asked = tokio::task::spawn_blocking(move || Router::of_with(&url, safety));
        let gone = |error| JoinError::Address("the runtime".to_owned(), io::Error::other(error));
        asked.await.map_err(gone)?.map(AsyncRouter::from)
    }

    /// Returns the sharding: it tells the shard of each key.
    pub fn sharding(&self) -> &Sharding {
        self.routes.sharding()
    }

    /// Sends the request to the shard of the key, and returns the answer of the service, as [`Router::call`] does.
    ///
    /// # Errors
    ///
    /// The same as for [`Router::call`]. A call that is [`CallError::Unsure`] is never sent again.
    pub async fn call(
        &self,
        key: &[u8],
        request: &[u8],
        retry: Retry,
    ) -> Result<Answer, CallError> {
        self.routes.call(&self.tasks, (key, request), retry).await
    }

    /// Sends the request to the shard with this number, and returns the answer of the service, as
    /// [`Router::call_shard`] does.
    ///
    /// # Errors
    ///
    /// The same as for [`Router::call_shard`]. A call that is [`CallError::Unsure`] is never sent again.
    pub async fn call_shard(
        &self,
        shard: u16,
        request: &[u8],
        retry: Retry,
    ) -> Result<Answer, CallError> {
        let call = (shard, request);
        self.routes.call_shard(&self.tasks, call, retry).await
    }
}

impl From<Router> for AsyncRouter {
    /// Makes a client that calls by the map of this router, for example of a router that watches the store.
    fn from(router: Router) -> AsyncRouter {
        let (routes, introduction) = router.into_parts();
        let tasks = Tasks::new(introduction);
        AsyncRouter { routes, tasks }
    }
}

impl fmt::Debug for AsyncRouter {
    fn fmt(&self, f: &mut fmt::Formatter<'_>) -> fmt::Result {
        f.debug_struct("AsyncRouter")
            .field("sharding", self.sharding())
            .finish_non_exhaustive()
    }
}
