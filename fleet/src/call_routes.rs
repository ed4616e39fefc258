//! The routes of a client, which tell it the owner of each shard, and the calls that it makes by them.
use crate::environment::{Environment, NotAnswered};
use crate::frame::{spelled, CallFrame, Request, Response, MOST};
use crate::{commands, Answer, CallError, JoinError, Retry, Sharding};
use durkenzo_control::links::NO_SERVER;
use durkenzo_driver::RouteMap;
use durkenzo_store::Store;
use std::collections::BTreeMap;
use std::io;
use std::sync::{Arc, Mutex, MutexGuard, PoisonError};
use std::time::{Duration, Instant};

/// The time after which a call is sent again.
const PAUSE: Duration = Duration::from_millis(5);
/// The time for which servers aren't asked again for their map.
const AGAIN: Duration = Duration::from_millis(20);
/// The longest time that a server may take to tell its map.
const MAP: Duration = Duration::from_secs(5);
/// The most addresses of servers that are kept.
const ADDRESSES: usize = 256;

/// The routes of shards, as a client knows them. A route never goes back to an earlier record.
pub(crate) struct CallRoutes {
    sharding: Sharding,
    source: Source,
    /// The store that is watched, if it has no other owner.
    _store: Option<Arc<dyn Store>>,
}

/// The source of the map.
enum Source {
    /// A watch of the store.
    Store(RouteMap),
    /// Servers, which are asked again if a call isn't made.
    Servers(Mutex<Told>),
}

/// The map that servers have told.
struct Told {
    /// The addresses of the servers that can be asked.
    addresses: Vec<String>,
    /// The revision of each shard's record, and the address of its owner.
    routes: BTreeMap<u16, (u64, String)>,
    /// When the servers were asked last.
    asked: Option<Instant>,
}

/// A call that is ready to be sent.
struct Outgoing {
    /// The address of the server that is asked.
    address: String,
    bytes: Vec<u8>,
}

impl CallRoutes {
    /// Returns the routes of a fleet with these settings, by this map of the store.
    pub(crate) fn of_store(settings: &str, map: RouteMap) -> Result<CallRoutes, JoinError> {
        CallRoutes::new(settings, Source::Store(map))
    }

    /// Keeps the store for as long as these routes.
    pub(crate) fn with_store(self, store: Arc<dyn Store>) -> CallRoutes {
        CallRoutes {
            _store: Some(store),
            ..self
        }
    }

    /// Asks the servers at these addresses for the map, one after another, until one tells it. Returns the routes, and
    /// the settings of the fleet.
    pub(crate) async fn of_servers(
        environment: &dyn Environment,
        addresses: &[&str],
    ) -> Result<(CallRoutes, String), JoinError> {
        let mut text = Err(JoinError::Options("no server is named".to_owned()));
        for address in addresses {
            text = map_of(environment, address, MAP).await;
            if text.is_ok() {
                break;
            }
        }
        let text = text?;
        let mut told = Told {
            addresses: addresses.iter().map(|it| (*it).to_owned()).collect(),
            routes: BTreeMap::new(),
            asked: None,
        };
        told.note(&text);
        let end = text
            .match_indices('\n')
            .nth(1)
            .map_or(text.len(), |it| it.0);
        let settings = text[..end].to_owned();
        let routes = CallRoutes::new(&settings, Source::Servers(Mutex::new(told)))?;
        Ok((routes, settings))
    }

    fn new(settings: &str, source: Source) -> Result<CallRoutes, JoinError> {
        let sharding = Sharding::written(settings)
            .ok_or_else(|| JoinError::Options("there is no fleet".to_owned()))?;
        let sharding = sharding?;
        Ok(CallRoutes {
            sharding,
            source,
            _store: None,
        })
    }

    /// Returns the sharding: it tells the shard of each key.
    pub(crate) fn sharding(&self) -> &Sharding {
        &self.sharding
    }

    /// Sends the request to the shard of the key, and returns the answer, as [`Router::call`](crate::Router::call)
    /// does.
    pub(crate) async fn call(
        &self,
        environment: &dyn Environment,
        (key, request): (&[u8], &[u8]),
        retry: Retry,
    ) -> Result<Answer, CallError> {
        let call = (self.sharding.shard_of(key), request);
        self.call_shard(environment, call, retry).await
    }

    /// Sends the request to the shard, and returns the answer, as [`Router::call_shard`](crate::Router::call_shard)
    /// does.
    pub(crate) async fn call_shard(
        &self,
        environment: &dyn Environment,
        (shard, request): (u16, &[u8]),
        retry: Retry,
    ) -> Result<Answer, CallError> {
        let mut left = retry.budget();
        let end = environment.end_of(left);
        loop {
            let why = match self
                .call_once(environment, (shard, request), (left, end))
                .await
            {
                Ok(answer) => {
                    // If the call was forwarded, the map was old.
                    if answer.hops > 0 {
                        self.refresh(environment, end).await;
                    }
                    return Ok(answer);
                }
                Err(unsure @ CallError::Unsure(_)) => return Err(unsure),
                Err(CallError::NotMade(why)) => why,
            };
            if environment.is_past(end) || matches!(retry, Retry::Once(_)) {
                return Err(CallError::NotMade(why));
            }
            environment.wait(PAUSE, end).await;
            self.refresh(environment, end).await;
            left = environment.left(end);
            if left.is_zero() {
                return Err(CallError::NotMade(why));
            }
        }
    }

    /// Sends the call once. This much time is left until that moment.
    async fn call_once(
        &self,
        environment: &dyn Environment,
        (shard, request): (u16, &[u8]),
        (left, end): (Duration, Instant),
    ) -> Result<Answer, CallError> {
        let Outgoing { address, bytes } = self.outgoing(shard, request, left)?;
        answered(environment.ask(&address, bytes, end).await)
    }

    /// Returns the call as it must be sent now, with this much time left.
    fn outgoing(&self, shard: u16, request: &[u8], left: Duration) -> Result<Outgoing, CallError> {
        let not_made = |why: &str| CallError::NotMade(why.to_owned());
        if request.len() > MOST {
            let why = format!("a request has at most {MOST} bytes");
            return Err(CallError::NotMade(why));
        }
        let Some((address, revision)) = self.route(shard) else {
            return Err(not_made("the shard has no owner that is there"));
        };
        let budget = u32::try_from(left.as_millis()).unwrap_or(u32::MAX);
        if budget == 0 {
            return Err(not_made("its time is over"));
        }
        let call = CallFrame {
            shard,
            from: NO_SERVER,
            hops: 0,
            revision,
            budget,
            request,
        };
        let bytes = Request::Call(call).written();
        Ok(Outgoing { address, bytes })
    }

    /// Gives the control a command, as [`Router::command`](crate::Router::command) does.
    pub(crate) async fn command(
        &self,
        environment: &dyn Environment,
        words: &[&str],
        within: Duration,
    ) -> Result<Vec<String>, String> {
        let routes = (0..self.sharding.shards()).filter_map(|it| self.route(it));
        let (address, _) = routes.take(1).next().ok_or("no server is there")?;
        let spelled = spelled(commands::with_sm(words).map(str::as_bytes));
        let request = Request::Command {
            is_passed_on: false,
            words: &spelled,
        };
        let bytes = environment
            .ask(&address, request.written(), environment.end_of(within))
            .await;
        let bytes = bytes.map_err(|it| it.to_string())?;
        match Response::read(&bytes) {
            Ok(Response::Text(answer)) => commands::lines(words, answer),
            Ok(Response::Again(why) | Response::Unsure(why)) => Err(why.to_owned()),
            Ok(_) => Err("the server answers something else".to_owned()),
            Err(error) => Err(error.to_string()),
        }
    }

    /// Returns the address of the shard's owner, and the revision of the record that names the owner.
    fn route(&self, shard: u16) -> Option<(String, u64)> {
        match &self.source {
            Source::Store(map) => {
                let route = map.route(shard)?;
                Some((route.address, route.revision.0))
            }
            Source::Servers(told) => {
                let told = locked(told);
                let (revision, address) = told.routes.get(&shard)?;
                Some((address.clone(), *revision))
            }
        }
    }

    /// Asks servers for the map again, until this time, unless the store tells its changes.
    async fn refresh(&self, environment: &dyn Environment, end: Instant) {
        for address in self.due(environment.now()) {
            let left = environment.left(end);
            if left.is_zero() {
                return;
            }
            if let Ok(text) = map_of(environment, &address, left.min(MAP)).await {
                return self.note(&text);
            }
        }
    }

    /// Returns the addresses of the servers that must be asked for the map now. Each time another one comes first,
    /// because a server that is cut from the store has an old map.
    fn due(&self, now: Instant) -> Vec<String> {
        let Source::Servers(told) = &self.source else {
            return Vec::new();
        };
        let mut told = locked(told);
        let is_soon = |it| now.saturating_duration_since(it) < AGAIN;
        if told.asked.is_some_and(is_soon) {
            return Vec::new();
        }
        told.asked = Some(now);
        told.addresses.rotate_left(1);
        told.addresses.clone()
    }

    /// Takes over the map that a server has told.
    fn note(&self, text: &str) {
        if let Source::Servers(told) = &self.source {
            locked(told).note(text);
        }
    }
}

/// Returns the result of a call that was sent.
fn answered(response: Result<Vec<u8>, NotAnswered>) -> Result<Answer, CallError> {
    match response {
        Ok(bytes) => answer_of(bytes),
        Err(error @ NotAnswered::Unreached(..)) => Err(CallError::NotMade(error.to_string())),
        Err(error @ NotAnswered::Lost(..)) => Err(CallError::Unsure(error.to_string())),
    }
}

/// Returns the answer in a server's response to a call.
fn answer_of(mut bytes: Vec<u8>) -> Result<Answer, CallError> {
    match Response::read(&bytes) {
        Ok(Response::Answered {
            server,
            hops,
            fence,
            answer,
        }) => {
            let begin = bytes.len() - answer.len();
            bytes.drain(..begin);
            Ok(Answer {
                bytes,
                server,
                fence,
                hops,
            })
        }
        Ok(Response::Again(why)) => Err(CallError::NotMade(why.to_owned())),
        Ok(Response::Unsure(why)) => Err(CallError::Unsure(why.to_owned())),
        Ok(Response::Piece { .. } | Response::Taken | Response::Text(_) | Response::NoCopy(_)) => {
            let why = "the server answers something else";
            Err(CallError::Unsure(why.to_owned()))
        }
        Err(error) => Err(CallError::Unsure(error.to_string())),
    }
}

/// Returns the map of the server at this address, if the server tells it within this time.
async fn map_of(
    environment: &dyn Environment,
    address: &str,
    within: Duration,
) -> Result<String, JoinError> {
    let not_told = |error| JoinError::Address(address.to_owned(), error);
    let bytes = environment.ask(
        address,
        Request::Routes.written(),
        environment.end_of(within),
    );
    let bytes = bytes.await.map_err(|error| match error {
        NotAnswered::Unreached(address, why) => JoinError::NotMet(address, why),
        NotAnswered::Lost(_, error) => not_told(error),
    })?;
    match Response::read(&bytes) {
        Ok(Response::Text(text)) => Ok(String::from_utf8_lossy(text).into_owned()),
        Ok(Response::Again(why)) => Err(not_told(io::Error::other(why.to_owned()))),
        _ => Err(not_told(io::Error::other(
            "the server answers something else",
        ))),
    }
}

impl Told {
    /// Takes over the routes that are later. A route never goes back to an earlier record.
    fn note(&mut self, text: &str) {
        for line in text.lines().skip(2) {
            let parts: Vec<&str> = line.split(' ').collect();
            let [shard, revision, _, address] = parts[..] else {
                continue;
            };
            let (Ok(shard), Ok(revision)) = (shard.parse(), revision.parse()) else {
                continue;
            };
            if self.routes.get(&shard).is_none_or(|it| it.0 <= revision) {
                self.routes.insert(shard, (revision, address.to_owned()));
            }
            if !self.addresses.iter().any(|it| it == address) {
                // The address that was asked last is the first to go.
                self.addresses.truncate(ADDRESSES - 1);
                self.addresses.insert(0, address.to_owned());
            }
        }
    }
}

fn locked(told: &Mutex<Told>) -> MutexGuard<'_, Told> {
    told.lock().unwrap_or_else(PoisonError::into_inner)
}
