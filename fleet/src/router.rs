use crate::call_routes::CallRoutes;
use crate::connections::Connections;
use crate::introduction::Introduction;
use crate::settings::identity;
use crate::threads::{block_on, Threads};
use crate::{CallError, EtcdOptions, JoinError, Retry, Safety, Sharding};
use durkenzo_control::links::UNKNOWN_SETTINGS;
use durkenzo_driver::{keys, RouteMap};
use durkenzo_store::Store;
use std::fmt;
use std::time::Duration;

/// A client of a fleet, which any threads may share. Its map never goes back. If the map is old, a call takes one hop
/// more.
pub struct Router {
    routes: CallRoutes,
    threads: Threads,
}

/// The answer of a service.
#[derive(Clone, Debug, PartialEq, Eq)]
pub struct Answer {
    /// The bytes that [`Service::answer`](crate::Service::answer) returned.
    pub bytes: Vec<u8>,
    /// The server that executed the call.
    pub server: u16,
    /// The fencing token under which the server executed the call.
    pub fence: u64,
    /// How often the call was forwarded.
    pub hops: u8,
}

impl Router {
    /// Watches the map of the fleet in this store. This is for a fleet whose servers ask for no proof. The store must
    /// stay open for as long as the router is used, because the map is no longer updated without it.
    ///
    /// # Errors
    ///
    /// If the store has no fleet, or can't be read.
    pub fn watch(store: &dyn Store) -> Result<Router, JoinError> {
        Router::watch_with(store, Safety::default())
    }

    /// Watches the map of the fleet in this store, and gives this proof to its servers. The router connects to a server
    /// only when it calls.
    ///
    /// # Errors
    ///
    /// If the store has no fleet, or can't be read.
    pub fn watch_with(store: &dyn Store, safety: Safety) -> Result<Router, JoinError> {
        let found = store.read(&[keys::SETTINGS])?;
        let settings = found.get(keys::SETTINGS).map_or(&[][..], |it| &it.value);
        let settings = String::from_utf8_lossy(settings);
        let routes = CallRoutes::of_store(&settings, RouteMap::watch(store)?)?;
        Ok(Router::new(routes, &settings, &safety))
    }

    /// Watches the map of the fleet in etcd for as long as the router exists, and gives this proof to the fleet's
    /// servers. A member of etcd is given as `http://127.0.0.1:2379`.
    ///
    /// # Errors
    ///
    /// If an address or a file can't be read, if etcd can't be read, or if it has no fleet.
    pub fn watch_etcd(
        members: &[impl AsRef<str>],
        access: &EtcdOptions,
        safety: Safety,
    ) -> Result<Router, JoinError> {
        let members: Vec<_> = members.iter().map(|it| it.as_ref().to_owned()).collect();
        let store = access.store(&members)?;
        let router = Router::watch_with(&*store, safety)?;
        let routes = router.routes.with_store(store);
        Ok(Router { routes, ..router })
    }

    /// Asks any server of the fleet for the map, at an address such as `127.0.0.1:7380` or `http://127.0.0.1:7380`.
    /// This is for a fleet whose servers ask for no proof. If several addresses are given, with commas between them,
    /// the first server that answers is used, because one of them may be away.
    ///
    /// # Errors
    ///
    /// [`JoinError::NotMet`] if the last server can't be reached, or refuses the connection. [`JoinError::Address`] if
    /// it is reached and doesn't tell its map.
    pub fn of(urls: &str) -> Result<Router, JoinError> {
        Router::of_with(urls, Safety::default())
    }

    /// Asks any server of the fleet for the map, as [`Router::of`] does, and gives this proof to its servers.
    ///
    /// # Errors
    ///
    /// The same as for [`Router::of`]. A server also refuses the connection if its secret is another one, or if a
    /// certificate isn't accepted.
    pub fn of_with(urls: &str, safety: Safety) -> Result<Router, JoinError> {
        let addresses: Vec<_> = urls.split(',').map(address_of).collect();
        let introduction = Introduction::of_client(&safety, UNKNOWN_SETTINGS);
        let threads = Threads::new(Connections::new(introduction));
        let (routes, settings) = block_on(CallRoutes::of_servers(&threads, &addresses))?;
        Ok(Router::new(routes, &settings, &safety))
    }

    fn new(routes: CallRoutes, settings: &str, safety: &Safety) -> Router {
        let introduction = Introduction::of_client(safety, identity(settings));
        Router {
            routes,
            threads: Threads::new(Connections::new(introduction)),
        }
    }

    /// Returns the sharding: it tells the shard of each key.
    pub fn sharding(&self) -> &Sharding {
        self.routes.sharding()
    }

    /// Sends the request to the shard of the key, and returns the answer of the service. A request has at most 1 MiB,
    /// and so has its answer.
    ///
    /// # Errors
    ///
    /// [`CallError::NotMade`] if nothing was done within the time that `retry` gives, or if the request is longer.
    /// [`CallError::Unsure`] if the call may have been made, or may still be made, or if its answer is longer. Such a
    /// call is never sent again.
    pub fn call(&self, key: &[u8], request: &[u8], retry: Retry) -> Result<Answer, CallError> {
        let call = (key, request);
        block_on(self.routes.call(&self.threads, call, retry))
    }

    /// Sends the request to the shard with this number, and returns the answer of the service, as [`Router::call`]
    /// does.
    ///
    /// # Errors
    ///
    /// The same as for [`Router::call`]. If there is no such shard, the call is [`CallError::NotMade`].
    pub fn call_shard(
        &self,
        shard: u16,
        request: &[u8],
        retry: Retry,
    ) -> Result<Answer, CallError> {
        let call = (shard, request);
        block_on(self.routes.call_shard(&self.threads, call, retry))
    }

    /// Gives the fleet's control a command, such as `["MIGRATE", "3", "2"]`, with or without `"SM"` before it. Sends it
    /// by way of the owner of the first shard that has one, waits at most this long, and returns the lines of the
    /// answer.
    ///
    /// # Errors
    ///
    /// If the control refuses the command, or can't be reached. The text says why.
    pub fn command(&self, words: &[&str], within: Duration) -> Result<Vec<String>, String> {
        block_on(self.routes.command(&self.threads, words, within))
    }

    /// Returns the routes that this router knows, and the way in which it introduces itself to servers.
    #[cfg(feature = "tokio")]
    pub(crate) fn into_parts(self) -> (CallRoutes, Introduction) {
        let introduction = self.threads.introduction().clone();
        (self.routes, introduction)
    }
}

/// Returns the address in this URL.
fn address_of(url: &str) -> &str {
    let url = url.trim();
    url.strip_prefix("http://")
        .unwrap_or(url)
        .trim_end_matches('/')
}

impl fmt::Debug for Router {
    fn fmt(&self, f: &mut fmt::Formatter<'_>) -> fmt::Result {
        f.debug_struct("Router")
            .field("sharding", self.sharding())
            .finish_non_exhaustive()
    }
}
