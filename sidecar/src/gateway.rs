use crate::bounded_body::{bounded, BodyFault};
use crate::call_head::CallHead;
use crate::envelope::{opened, sealed};
use crate::error_name::ErrorName;
use crate::metrics::Metrics;
use crate::outcome::Outcome;
use crate::refusal::{Refusal, ERROR};
use crate::route_list::RouteList;
use crate::sidecar_service::SidecarService;
use crate::target::{key_of, Target};
use crate::{SidecarOptions, MOST};
use durkenzo_fleet::{Answer, AsyncRouter, CallError, Fleet, Retry};
use hyper::header::{HeaderMap, HeaderValue, CONNECTION, CONTENT_TYPE, LOCATION};
use hyper::{Body, Request, Response, StatusCode};
use std::net::SocketAddr;
use std::sync::atomic::{AtomicBool, Ordering};
use std::sync::Arc;
use std::time::{Duration, Instant};
use tokio::sync::{watch, Semaphore};
use tokio::task::spawn_blocking;
use tokio::time::{sleep, timeout};

/// The header with the milliseconds that a client gives a call.
const BUDGET: &str = "durkenzo-budget";
/// The header by which a client asks to be sent to the owner instead of being forwarded.
const REDIRECT: &str = "durkenzo-redirect";
/// The longest time in which the body of a request must come.
const BODY: Duration = Duration::from_secs(10);
/// The most bytes of a command.
const COMMAND: usize = 64 << 10;
/// The time after which a call is sent again that the application hasn't got.
const PAUSE: Duration = Duration::from_millis(50);
/// How often this process looks whether the map has changed.
const LOOK: Duration = Duration::from_millis(200);
const TEXT: &str = "text/plain; charset=utf-8";
const JSON: &str = "application/json";

/// Answers the clients of a sidecar. It gives each call to the fleet, which decides who executes it.
pub(crate) struct Gateway {
    fleet: Arc<Fleet<SidecarService>>,
    router: AsyncRouter,
    metrics: Arc<Metrics>,
    longest_call: Duration,
    grace: Duration,
    /// Room for calls of clients.
    calls: Semaphore,
    most_calls: usize,
    /// The latest revision of a record that this process has read.
    revision: watch::Sender<u64>,
    /// Whether this process is leaving, so that clients should connect elsewhere.
    is_leaving: AtomicBool,
}

impl Gateway {
    pub(crate) fn new(
        (fleet, router): (Arc<Fleet<SidecarService>>, AsyncRouter),
        metrics: Arc<Metrics>,
        options: &SidecarOptions,
    ) -> Gateway {
        let most_calls = usize::from(options.calls);
        Gateway {
            fleet,
            router,
            metrics,
            longest_call: options.longest_call(),
            grace: Duration::from_secs(options.fleet.grace),
            calls: Semaphore::new(most_calls),
            most_calls,
            revision: watch::channel(0).0,
            is_leaving: AtomicBool::new(false),
        }
    }

    /// Tells clients, from now on, to connect elsewhere.
    pub(crate) fn leave(&self) {
        self.is_leaving.store(true, Ordering::Release);
    }

    /// Notes changes of the map, for as long as this is polled.
    pub(crate) async fn follow(&self) {
        loop {
            let latest = RouteList::of(&self.fleet).revision;
            self.revision.send_if_modified(|it| {
                let is_later = latest > *it;
                *it = latest.max(*it);
                is_later
            });
            sleep(LOOK).await;
        }
    }

    /// Answers a request of the client at this address.
    pub(crate) async fn answer(&self, request: Request<Body>, from: SocketAddr) -> Response<Body> {
        let answered = match Target::of(request.method(), request.uri()) {
            Ok(target) => self.answered(target, request, from).await,
            Err(refusal) => Err(refusal),
        };
        let mut response = answered.unwrap_or_else(|refusal| {
            self.metrics.note_error(refusal.name);
            refusal.response()
        });
        if self.is_leaving.load(Ordering::Acquire) {
            let headers = response.headers_mut();
            headers.insert(CONNECTION, HeaderValue::from_static("close"));
        }
        response
    }

    async fn answered(
        &self,
        target: Target,
        request: Request<Body>,
        from: SocketAddr,
    ) -> Result<Response<Body>, Refusal> {
        match target {
            Target::Shard(shard) => self.call(shard, None, request).await,
            Target::Key(key) => {
                let shard = self.fleet.sharding().shard_of(&key_of(&key)?);
                self.call(shard, Some(key), request).await
            }
            Target::Map { since, wait } => Ok(self.map(since, wait).await),
            Target::Command => {
                must_be_near(from)?;
                self.command(request).await
            }
            Target::Drain => {
                must_be_near(from)?;
                self.drain().await
            }
            Target::Live => Ok(told(StatusCode::OK, TEXT, "ok\n")),
            Target::Ready => Ok(self.ready().await),
            Target::Metrics => self.numbers(),
        }
    }

    /// Gives the call to the fleet.
    async fn call(
        &self,
        shard: u16,
        key: Option<String>,
        request: Request<Body>,
    ) -> Result<Response<Body>, Refusal> {
        let shards = self.fleet.sharding().shards();
        if shard >= shards {
            let why = format!("the fleet has the shards 0 to {}", shards - 1);
            return Err(Refusal::new(ErrorName::UnknownShard, why));
        }
        let Ok(_room) = self.calls.try_acquire() else {
            let why = format!("{} calls are under way already", self.most_calls);
            return Err(Refusal::new(ErrorName::Busy, why));
        };
        if let Some(elsewhere) = self.redirected(shard, &request) {
            return Ok(elsewhere);
        }
        let budget = budget_of(request.headers())?;
        let budget = budget.map_or(self.longest_call, |it| it.min(self.longest_call));
        let content_type = text_of(request.headers(), CONTENT_TYPE.as_str());
        let began = Instant::now();
        let bytes = body_of(request.into_body(), MOST, budget.min(BODY)).await?;
        let head = CallHead {
            key,
            content_type,
            within: 0,
        };
        self.called(shard, head, &bytes, (began, budget)).await
    }

    /// Calls until the application has answered, or the time of the call is over. A call is sent again only if it
    /// wasn't made, and not in the last quarter of its time, because it would be unsure if its answer came too late.
    async fn called(
        &self,
        shard: u16,
        mut head: CallHead,
        bytes: &[u8],
        (began, budget): (Instant, Duration),
    ) -> Result<Response<Body>, Refusal> {
        let (end, last) = (began + budget, began + budget - budget / 4);
        loop {
            let left = end.saturating_duration_since(Instant::now());
            // What became of the call must come back in time.
            head.within = u64::try_from((left - left / 8).as_millis()).unwrap_or(u64::MAX);
            let call = sealed(&head, bytes);
            let answer = self
                .router
                .call_shard(shard, &call, Retry::Until(left))
                .await
                .map_err(|error| refused(error, end))?;
            let refusal = match opened::<Outcome>(&answer.bytes) {
                Ok((
                    Outcome::Answered {
                        status,
                        content_type,
                    },
                    bytes,
                )) => {
                    self.metrics
                        .note_answered(answer.server != self.fleet.server());
                    return Ok(passed_on(&answer, (status, content_type), bytes));
                }
                Ok((Outcome::Failed(refusal), _)) => refusal,
                Err(fault) => Refusal::new(ErrorName::Unsure, fault.to_string()),
            };
            if !refusal.name.is_transient() || Instant::now() + PAUSE >= last {
                return Err(refusal);
            }
            sleep(PAUSE).await;
        }
    }

    /// Returns the response that sends the client to the owner, if it asks for that and another server is the owner.
    fn redirected(&self, shard: u16, request: &Request<Body>) -> Option<Response<Body>> {
        request.headers().get(REDIRECT)?;
        let owner = self.fleet.owner(shard)?;
        let at = owner
            .clients
            .filter(|_| owner.server != self.fleet.server())?;
        let url = format!("http://{at}{}", request.uri().path());
        let mut response = told(StatusCode::TEMPORARY_REDIRECT, TEXT, "");
        let headers = response.headers_mut();
        headers.insert(LOCATION, HeaderValue::from_str(&url).ok()?);
        headers.insert("durkenzo-revision", owner.revision.into());
        Some(response)
    }

    /// Returns the map, once it has a later revision than this, or this time is over.
    async fn map(&self, since: u64, wait: Duration) -> Response<Body> {
        let mut changes = self.revision.subscribe();
        let later = async {
            while *changes.borrow_and_update() <= since && changes.changed().await.is_ok() {}
        };
        // If there is no later revision in time, the client gets the map as it is.
        let _ = timeout(wait, later).await;
        let map = RouteList::of(&self.fleet);
        let text = serde_json::to_vec(&map).expect("a map has only texts and numbers");
        told(StatusCode::OK, JSON, text)
    }

    /// Gives the control a command: the words of the body, or a list of them in JSON.
    async fn command(&self, request: Request<Body>) -> Result<Response<Body>, Refusal> {
        let bytes = body_of(request.into_body(), COMMAND, BODY).await?;
        let words = words_of(&bytes)?;
        let fleet = self.fleet.clone();
        let given = spawn_blocking(move || {
            let words: Vec<_> = words.iter().map(String::as_str).collect();
            fleet.command(&words)
        });
        let answer = given.await.map_err(|it| it.to_string());
        let lines = answer
            .and_then(|it| it)
            .map_err(|it| Refusal::new(ErrorName::Refused, it))?;
        let text: String = lines.iter().map(|it| format!("{it}\n")).collect();
        Ok(told(StatusCode::OK, TEXT, text))
    }

    /// Makes this process leave, and answers once it has left.
    async fn drain(&self) -> Result<Response<Body>, Refusal> {
        self.leave();
        let (fleet, grace) = (self.fleet.clone(), self.grace);
        let left = spawn_blocking(move || fleet.stop(grace)).await;
        left.map_err(|it| Refusal::new(ErrorName::Refused, it.to_string()))?;
        Ok(told(StatusCode::OK, TEXT, "left\n"))
    }

    /// Answers whether clients should come here, or why they shouldn't.
    async fn ready(&self) -> Response<Body> {
        let mut reasons = String::new();
        if self.is_leaving.load(Ordering::Acquire) {
            reasons += "the process leaves\n";
        } else if !self.fleet.is_leased() {
            reasons += "the lease isn't kept: does etcd answer?\n";
        }
        if !self.fleet.service().application.is_reached().await {
            reasons += "the application isn't reached\n";
        }
        match reasons.is_empty() {
            true => told(StatusCode::OK, TEXT, "ok\n"),
            false => told(StatusCode::SERVICE_UNAVAILABLE, TEXT, reasons),
        }
    }

    fn numbers(&self) -> Result<Response<Body>, Refusal> {
        let under_way = self.most_calls - self.calls.available_permits();
        let owned = RouteList::of(&self.fleet).owned_by(self.fleet.server());
        let text = self.metrics.text(under_way, owned, self.fleet.is_leased());
        let text = text.map_err(|it| Refusal::new(ErrorName::NotMade, it.to_string()))?;
        Ok(told(StatusCode::OK, "text/plain; version=0.0.4", text))
    }
}

/// Returns the body of a request, or why it isn't taken.
async fn body_of(body: Body, most: usize, within: Duration) -> Result<Vec<u8>, Refusal> {
    bounded(body, most, within).await.map_err(|fault| {
        let name = match fault {
            BodyFault::TooLong(_) => ErrorName::TooLong,
            BodyFault::Late(_) => ErrorName::Slow,
            BodyFault::Ended(_) => ErrorName::BadRequest,
        };
        Refusal::new(name, fault.to_string())
    })
}

/// Returns what the client of a call is told that has no answer. Its time is over at the end.
fn refused(error: CallError, end: Instant) -> Refusal {
    match error {
        CallError::NotMade(why) => Refusal::new(ErrorName::NotMade, why),
        CallError::Unsure(why) if Instant::now() >= end => Refusal::new(ErrorName::UnsureLate, why),
        CallError::Unsure(why) => Refusal::new(ErrorName::Unsure, why),
    }
}

/// Returns the text of a header, if there is one.
fn text_of(headers: &HeaderMap, name: &str) -> Option<String> {
    let value = headers.get(name)?.to_str().ok()?;
    Some(value.to_owned())
}

/// Returns the time that the client gives its call, if it does.
fn budget_of(headers: &HeaderMap) -> Result<Option<Duration>, Refusal> {
    let Some(value) = headers.get(BUDGET) else {
        return Ok(None);
    };
    let read = value.to_str().ok().and_then(|it| it.parse().ok());
    let bad = || {
        Refusal::new(
            ErrorName::BadRequest,
            "Durkenzo-Budget is a number of milliseconds",
        )
    };
    read.map(|it| Some(Duration::from_millis(it)))
        .ok_or_else(bad)
}

/// Returns the words of a command.
fn words_of(bytes: &[u8]) -> Result<Vec<String>, Refusal> {
    let bad = |why: String| Refusal::new(ErrorName::BadRequest, why);
    let text = std::str::from_utf8(bytes).map_err(|it| bad(it.to_string()))?;
    match text.trim_start().starts_with('[') {
        true => serde_json::from_str(text).map_err(|it| bad(it.to_string())),
        false => Ok(text.split_whitespace().map(str::to_owned).collect()),
    }
}

/// Refuses what only an operator on this machine may ask.
fn must_be_near(from: SocketAddr) -> Result<(), Refusal> {
    match from.ip().to_canonical().is_loopback() {
        true => Ok(()),
        false => {
            let why = "ask this on the machine of the sidecar, at a loopback address";
            Err(Refusal::new(ErrorName::Forbidden, why))
        }
    }
}

/// Returns the application's answer, with the server that made the call.
fn passed_on(
    answer: &Answer,
    (status, content_type): (u16, Option<String>),
    bytes: &[u8],
) -> Response<Body> {
    let mut response = Response::new(Body::from(bytes.to_vec()));
    *response.status_mut() = StatusCode::from_u16(status).unwrap_or(StatusCode::BAD_GATEWAY);
    let is_unsure = response.status().is_server_error();
    let headers = response.headers_mut();
    headers.insert("durkenzo-server", answer.server.into());
    headers.insert("durkenzo-fence", answer.fence.into());
    headers.insert("durkenzo-hops", u16::from(answer.hops).into());
    if let Some(kind) = content_type.and_then(|it| HeaderValue::from_str(&it).ok()) {
        headers.insert(CONTENT_TYPE, kind);
    }
    if is_unsure {
        let name = HeaderValue::from_static(ErrorName::Unsure.text());
        headers.insert(ERROR, name);
    }
    response
}

fn told(status: StatusCode, kind: &'static str, body: impl Into<Body>) -> Response<Body> {
    let mut response = Response::new(body.into());
    *response.status_mut() = status;
    let headers = response.headers_mut();
    headers.insert(CONTENT_TYPE, HeaderValue::from_static(kind));
    response
}
