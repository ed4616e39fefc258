use super::connector::{Connector, Unreached};
use super::environment::{MemberAnswer, MemberCall, NoAnswer};
use super::grpc_body::GrpcBody;
use super::silence::Silence;
use hyper::client::conn::{Builder, ResponseFuture, SendRequest};
use hyper::http::Result as HttpResult;
use hyper::service::Service;
use hyper::{header, Body, Request, Uri};
use std::future::poll_fn;
use std::sync::Arc;
use std::time::{Duration, Instant};
use tokio::sync::Mutex;

/// The metadata that makes a member end a stream once it reaches no leader.
const HAS_LEADER: (&str, &str) = ("hasleader", "true");
/// The metadata with a user's token.
const TOKEN: &str = "token";
/// How many bytes of one answer, and of all, a member may send before they are read. Only bytes that came take memory.
const OF_ANSWER: u32 = 4 << 20;
const OF_ALL: u32 = 256 << 20;
/// How long a connection with open calls is silent before it is tried, and how long that may take. If it is tried more
/// often than each 5 seconds, or without an open call, its member takes that for an attack.
const QUIET: Duration = Duration::from_secs(10);
const TRIED: Duration = Duration::from_secs(5);
/// How long a connection may be silent after a question before the next one is asked on another connection.
const SILENT: Duration = Duration::from_millis(500);

/// The way to a member by gRPC: one connection for all calls. If it falls silent, calls go on by a new one, and those
/// before may still be answered.
pub(super) struct GrpcChannel {
    member: Uri,
    connector: Connector,
    connection: Mutex<Kept>,
}

/// The present connection, and the last failure to get one.
#[derive(Default)]
struct Kept {
    open: Option<Open>,
    failed: Option<(Instant, String)>,
}

/// A connection.
struct Open {
    requests: SendRequest<Body>,
    silence: Arc<Silence>,
}

impl Open {
    /// Waits until it takes a call. Returns false if it doesn't take any more.
    async fn is_ready(&mut self) -> bool {
        let ready = poll_fn(|context| self.requests.poll_ready(context));
        !self.silence.is_of(SILENT) && ready.await.is_ok()
    }

    fn send(&mut self, request: Request<Body>) -> (ResponseFuture, Arc<Silence>) {
        self.silence.begin();
        (self.requests.send_request(request), self.silence.clone())
    }
}

impl GrpcChannel {
    pub(super) fn new(member: Uri, connector: Connector) -> GrpcChannel {
        GrpcChannel {
            member,
            connector,
            connection: Mutex::default(),
        }
    }

    /// Calls the member.
    pub(super) async fn call(&self, call: MemberCall) -> Result<MemberAnswer, NoAnswer> {
        let request = self.request(call);
        let request = request.map_err(|error| NoAnswer::Unreachable(error.to_string()))?;
        let (answer, silence) = self.send(request).await.map_err(NoAnswer::Unreachable)?;
        let broken = |error| NoAnswer::Broken(format!("{}: {error}", self.member));
        let found = answer.await.map_err(broken)?;
        silence.end();
        Ok(MemberAnswer {
            status: found.status().as_u16(),
            body: Box::new(GrpcBody::of(found, silence)),
        })
    }

    fn request(&self, call: MemberCall) -> HttpResult<Request<Body>> {
        let mut parts = self.member.clone().into_parts();
        parts.path_and_query = Some(call.path.parse()?);
        let mut request = Request::post(Uri::from_parts(parts)?)
            .header(header::CONTENT_TYPE, "application/grpc")
            .header(header::TE, "trailers");
        if call.needs_leader {
            request = request.header(HAS_LEADER.0, HAS_LEADER.1);
        }
        if let Some(token) = call.token {
            request = request.header(TOKEN, token);
        }
        request.body(Body::from(call.asked))
    }

    /// Sends a request on the present connection, or on a new one. If that fails, says why: then the member didn't get
    /// the request. Those who wait for the same new connection fail with it.
    async fn send(&self, request: Request<Body>) -> Result<(ResponseFuture, Arc<Silence>), String> {
        let began = Instant::now();
        let mut kept = self.connection.lock().await;
        if let Some(open) = &mut kept.open {
            if open.is_ready().await {
                return Ok(open.send(request));
            }
        }
        kept.open = None;
        if let Some((_, why)) = kept.failed.as_ref().filter(|it| it.0 >= began) {
            return Err(why.clone());
        }
        match self.connected().await {
            Ok(open) => Ok(kept.open.insert(open).send(request)),
            Err(error) => {
                let why = format!("{}: {error}", self.member);
                kept.failed = Some((Instant::now(), why.clone()));
                Err(why)
            }
        }
    }

    /// Returns a new connection that takes calls.
    async fn connected(&self) -> Result<Open, Unreached> {
        let mut connector = self.connector.clone();
        poll_fn(|context| connector.poll_ready(context)).await?;
        let stream = connector.call(self.member.clone()).await?;
        let (mut requests, connection) = Builder::new()
            .http2_only(true)
            .http2_initial_stream_window_size(OF_ANSWER)
            .http2_initial_connection_window_size(OF_ALL)
            .http2_keep_alive_interval(QUIET)
            .http2_keep_alive_timeout(TRIED)
            .handshake::<_, Body>(stream)
            .await?;
        // Each call is told why the connection ends.
        tokio::spawn(async move { drop(connection.await) });
        poll_fn(|context| requests.poll_ready(context)).await?;
        Ok(Open {
            requests,
            silence: Arc::default(),
        })
    }
}
