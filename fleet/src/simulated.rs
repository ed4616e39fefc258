//! A process of a fleet and a client without threads and sockets, for a simulation. The simulation must poll their
//! futures, and do the work for which these wait.
pub use crate::conversation::Talk;
pub use crate::environment::{Environment, Later, NotAnswered};
pub use crate::guests::EndOfRequests;

use crate::call_routes::CallRoutes;
use crate::conversation::Conversation;
use crate::fleet_inner::{own, FleetInner};
use crate::guests::{GuestConnection, Guests};
use crate::introduction::Guest;
use crate::plant::Plant;
use crate::{Answer, CallError, JoinError, Options, Retry, Service, Sharding};
use clap::{Parser, ValueEnum};
use durkenzo_control::control::Asked;
use durkenzo_driver::{Durable, Member, Own, RouteMap};
use std::future::Future;
use std::io;
use std::sync::mpsc::{channel, Receiver};
use std::sync::{Arc, PoisonError};
use std::time::{Duration, Instant};

/// Returns the options that these flags give. For each flag that is missing, its variable of the environment counts, as
/// in [`Options::parse`].
///
/// # Errors
///
/// If a flag is wrong. The text says why.
pub fn options(flags: &[&str]) -> Result<Options, String> {
    let flags = std::iter::once("fleet").chain(flags.iter().copied());
    Options::try_parse_from(flags).map_err(|it| it.to_string())
}

/// Plants the wrong rule with this name.
///
/// # Errors
///
/// If there is no such rule.
pub fn plant(options: &mut Options, rule: &str) -> Result<(), String> {
    options.plant = Some(Plant::from_str(rule, false)?);
    Ok(())
}

/// Returns the member in whose name a process follows records.
pub fn follows_as(member: &Arc<Member>) -> Own {
    own(member)
}

/// A process of a fleet.
pub struct FleetProcess<S: Service> {
    inner: Arc<FleetInner<S>>,
    guests: Arc<Guests>,
    began: Instant,
}

/// The calls, bodies and connections that a process holds.
#[derive(Clone, Copy, Debug, Default, PartialEq, Eq)]
pub struct Held {
    /// The calls that wait for a shard.
    pub waiting: usize,
    /// The most calls that wait for the same shard.
    pub most_waiting: usize,
    /// The bodies that come here.
    pub coming: usize,
    /// The bodies that are in use, or for which somebody waits.
    pub used: usize,
    /// The connections that are served.
    pub guests: usize,
}

impl<S: Service> FleetProcess<S> {
    /// Returns the process that follows records as this member.
    ///
    /// # Errors
    ///
    /// If the options are out of bounds.
    pub fn new(
        (service, options): (S, Options),
        member: &Arc<Member>,
        durable: &Arc<Durable>,
        environment: Arc<dyn Environment>,
    ) -> Result<FleetProcess<S>, JoinError> {
        let settings = options.settings()?;
        let (written, sharding) = (settings.written(), settings.sharding);
        let began = environment.now();
        let inner = FleetInner::new(
            (service, options),
            (written, sharding),
            (member.clone(), durable.clone()),
            environment,
        )?;
        Ok(FleetProcess {
            inner: Arc::new(inner),
            guests: Arc::default(),
            began,
        })
    }

    /// Gives the process a control. Returns the receiver of the commands for it.
    pub fn have_control(&self) -> Receiver<Asked> {
        let (tell, asked) = channel();
        let mut control = self
            .inner
            .control
            .lock()
            .unwrap_or_else(PoisonError::into_inner);
        *control = Some(tell);
        asked
    }

    /// Tells the views of shards that the lease was kept, as the keeper does.
    pub fn keep(&self) {
        if !self.inner.is_stopping() {
            self.inner.keep();
        }
    }

    /// Reads the records that have changed, as the follower does. Calls `settle` with each shard for which a record
    /// asks for work.
    pub fn follow(&self, mut settle: impl FnMut(u16)) {
        if self.inner.is_stopping() {
            return;
        }
        self.inner.follow();
        self.inner.hand_out(|shard| {
            settle(shard);
            true
        });
    }

    /// Does the work that a record asks for, as a settler does.
    pub fn settle(&self, shard: u16) -> impl Future<Output = ()> + 'static {
        let inner = self.inner.clone();
        async move {
            if !inner.is_stopping() {
                inner.settle(shard).await;
            }
        }
    }

    /// Serves a connection of this server, or of a client, until it ends. Returns nothing if no place is free.
    pub fn serve<T: Talk + 'static>(
        &self,
        server: Option<u16>,
        end: Box<dyn EndOfRequests>,
        talk: T,
    ) -> Option<impl Future<Output = io::Result<()>> + 'static> {
        let (inner, connection) = (self.inner.clone(), Arc::new(GuestConnection::new(end)));
        let idle = inner
            .environment
            .now()
            .saturating_duration_since(self.began);
        let (most, now) = (inner.options.connections, idle.as_millis() as u64);
        let place = self.guests.admit(&connection, most, now)?;
        let conversation = Conversation {
            place,
            guest: server.map_or(Guest::Client, Guest::Server),
            talk,
            began: self.began,
        };
        Some(async move { conversation.answer_all(&inner).await })
    }

    /// Moves the shards of this process to others, as a stop does, in at most this time. After that, the process takes
    /// no calls.
    pub fn give_way(&self, grace: Duration) -> impl Future<Output = ()> + 'static {
        let inner = self.inner.clone();
        async move { inner.give_way(grace).await }
    }

    /// Leaves, and serves nobody any more.
    pub fn leave(&self) -> impl Future<Output = ()> + 'static {
        let (inner, guests) = (self.inner.clone(), self.guests.clone());
        async move {
            inner.leave().await;
            guests.end();
        }
    }

    /// Returns whether the process may execute a call of the shard from this server, or from a client if `from` is 0.
    pub fn holds(&self, shard: u16, from: u16) -> bool {
        let place = &self.inner.places[usize::from(shard)];
        let known = place.known();
        known.may_execute(from, self.inner.now())
    }

    /// Returns whether the process has a body of the shard with which it may execute.
    pub fn has_body(&self, shard: u16) -> bool {
        let place = &self.inner.places[usize::from(shard)];
        let known = place.known();
        known.body_is_of.is_some()
    }

    /// Returns the numbers of calls, bodies and connections that the process holds.
    pub fn held(&self) -> Held {
        let inner = &self.inner;
        let waiting = || inner.places.iter().map(|it| it.queue.count());
        let moves = usize::from(inner.options.moves);
        Held {
            waiting: waiting().sum(),
            most_waiting: waiting().max().unwrap_or(0),
            coming: moves - inner.moves.available_permits(),
            used: inner.places.iter().filter(|it| !it.is_free()).count(),
            guests: self.guests.count(),
        }
    }

    /// Returns the sharding: it tells the shard of each key.
    pub fn sharding(&self) -> &Sharding {
        &self.inner.sharding
    }
}

/// A client of a fleet.
pub struct FleetClient {
    routes: CallRoutes,
    environment: Arc<dyn Environment>,
}

impl FleetClient {
    /// Asks the server at this address for the map.
    ///
    /// # Errors
    ///
    /// If the server doesn't tell its map.
    pub async fn of_server(
        environment: Arc<dyn Environment>,
        address: &str,
    ) -> Result<FleetClient, JoinError> {
        let (routes, _) = CallRoutes::of_servers(&*environment, &[address]).await?;
        Ok(FleetClient {
            routes,
            environment,
        })
    }

    /// Uses this map of the store, for a fleet with these options.
    ///
    /// # Errors
    ///
    /// If the options are out of bounds.
    pub fn of_store(
        environment: Arc<dyn Environment>,
        options: &Options,
        map: RouteMap,
    ) -> Result<FleetClient, JoinError> {
        let settings = options.settings()?.written();
        let routes = CallRoutes::of_store(&settings, map)?;
        Ok(FleetClient {
            routes,
            environment,
        })
    }

    /// Returns the sharding: it tells the shard of each key.
    pub fn sharding(&self) -> &Sharding {
        self.routes.sharding()
    }

    /// Sends the request to the shard of the key, and returns the answer, as [`Router::call`](crate::Router::call)
    /// does.
    ///
    /// # Errors
    ///
    /// The same as for [`Router::call`](crate::Router::call).
    pub async fn call(
        &self,
        key: &[u8],
        request: &[u8],
        retry: Retry,
    ) -> Result<Answer, CallError> {
        let call = (key, request);
        self.routes.call(&*self.environment, call, retry).await
    }
}
