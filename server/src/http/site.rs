use super::{metrics, probes, undated};
use crate::cluster::Cluster;
use crate::memory;
use crate::observer::Observer;
use crate::run::BoxError;
use crate::snapshot::Snapshot;
use durkenzo::PassFault;
use durkenzo_control::tls::ClientsTls;
use hyper::header::{CACHE_CONTROL, CONTENT_TYPE};
use hyper::server::conn::Http;
use hyper::service::service_fn;
use hyper::{Body, Method, Request, Response, StatusCode};
use std::collections::VecDeque;
use std::convert::Infallible;
use std::error::Error;
use std::io;
use std::pin::Pin;
use std::sync::Arc;
use std::time::Duration;
use tokio::io::{AsyncRead, AsyncWrite};
use tokio::net::{TcpListener, TcpStream};
use tokio::task::JoinHandle;
use tokio::time::{sleep, timeout};
use tokio_openssl::SslStream;

const PAGE: &str = include_str!("page.html");
const TEXT: &str = "text/plain; charset=utf-8";

const NO_MEMORY: &str = "memory was refused: try again\n";
/// How much memory must be free to tell of all shards: this much, and more for each shard.
const LEAST_ROOM: usize = 256 << 10;
const ROOM_OF_SHARD: usize = 4 << 10;

/// The longest time that a connection lasts.
const LASTS: Duration = Duration::from_secs(60);
/// How long no connection is accepted after the system had no room for one.
const PAUSE: Duration = Duration::from_millis(20);

/// The source of all answers.
struct Site {
    cluster: Arc<Cluster>,
}

/// Serves at this address for as long as it is polled.
pub async fn serve(cluster: Arc<Cluster>, listener: TcpListener) -> Result<(), BoxError> {
    let site = Arc::new(Site { cluster });
    tracing::info!(address = %listener.local_addr()?, "page, /metrics, /live and /ready");
    let configuration = &site.cluster.configuration;
    let (most, tls) = (configuration.most_of_page, configuration.safety.tls.clone());
    let mut open = VecDeque::new();
    loop {
        match listener.accept().await {
            Ok((socket, _)) => {
                make_room(&mut open, most);
                let meeting = site.clone().meet(socket, tls.clone());
                // A connection that takes longer is cut off.
                open.push_back(tokio::spawn(timeout(LASTS, meeting)));
            }
            Err(error) => {
                tracing::warn!(%error, "a connection to the page isn't accepted");
                sleep(PAUSE).await;
            }
        }
    }
}

/// Cuts off the oldest connections until there is room for one more. So nobody can keep others out with many
/// connections that send little or nothing: a client that asks at once is answered before so many others have come.
fn make_room<T>(open: &mut VecDeque<JoinHandle<T>>, most: usize) {
    open.retain(|it| !it.is_finished());
    while open.len() >= most {
        let oldest = open.pop_front();
        oldest.iter().for_each(JoinHandle::abort);
    }
}

/// Does the TLS handshake with a client.
async fn met(tls: &ClientsTls, socket: TcpStream) -> io::Result<SslStream<TcpStream>> {
    let session = tls.page().map_err(io::Error::other)?;
    let mut stream = SslStream::new(session, socket).map_err(io::Error::other)?;
    let accepted = Pin::new(&mut stream).accept().await;
    accepted.map_err(io::Error::other).map(|()| stream)
}

impl Site {
    /// Answers the requests on a connection, with TLS if it is configured.
    async fn meet(self: Arc<Site>, socket: TcpStream, tls: Option<ClientsTls>) {
        let Some(tls) = tls else {
            return self.converse(socket).await;
        };
        let login_time = self.cluster.configuration.safety.login_time;
        match timeout(login_time, met(&tls, socket)).await {
            Ok(Ok(stream)) => self.converse(stream).await,
            Ok(Err(error)) => tracing::debug!(%error, "a connection to the page has no TLS"),
            Err(_) => {}
        }
    }

    async fn converse(
        self: Arc<Site>,
        stream: impl AsyncRead + AsyncWrite + Unpin + Send + 'static,
    ) {
        if undated::is_now() {
            // The connection ends, whether the answer was taken or not.
            let _ = undated::answer(stream).await;
            return;
        }
        let answer = move |request: Request<Body>| {
            let site = self.clone();
            async move { Ok::<_, Infallible>(site.answer(&request).await) }
        };
        let service = service_fn(answer);
        // Otherwise it would speak HTTP/2, too, which only the store needs.
        let served = Http::new()
            .http1_only(true)
            .serve_connection(stream, service);
        if let Err(error) = served.await {
            tracing::debug!(%error, "a connection to the page has ended");
        }
    }

    async fn answer(&self, request: &Request<Body>) -> Response<Body> {
        if !matches!(*request.method(), Method::GET | Method::HEAD) {
            return told(StatusCode::METHOD_NOT_ALLOWED, TEXT, "only GET\n");
        }
        match request.uri().path() {
            "/" => told(StatusCode::OK, "text/html; charset=utf-8", PAGE),
            "/state.json" | "/metrics" if self.has_no_room() => {
                told(StatusCode::SERVICE_UNAVAILABLE, TEXT, NO_MEMORY)
            }
            "/state.json" => self.state().unwrap_or_else(|it| failed(&*it)),
            "/metrics" => self.metrics().unwrap_or_else(|it| failed(&*it)),
            "/live" | "/healthz" => judged(probes::live(&self.cluster).await),
            "/ready" => judged(probes::ready(&self.cluster)),
            _ => told(
                StatusCode::NOT_FOUND,
                TEXT,
                "/, /metrics, /live, /ready, /state.json\n",
            ),
        }
    }

    /// Returns whether there isn't enough memory to tell of all shards.
    fn has_no_room(&self) -> bool {
        let shards = usize::from(self.cluster.shards());
        memory::has_room(LEAST_ROOM + ROOM_OF_SHARD * shards).is_err()
    }

    /// Returns the state of all servers and shards. The observer is dropped then, because otherwise it would keep an
    /// earlier board alive.
    fn snapshot(&self) -> Result<Snapshot, PassFault> {
        Observer::new(self.cluster.clone()).map(|mut it| it.snapshot())
    }

    fn state(&self) -> Result<Response<Body>, Box<dyn Error>> {
        let state = serde_json::to_vec(&self.snapshot()?)?;
        Ok(told(StatusCode::OK, "application/json", state))
    }

    fn metrics(&self) -> Result<Response<Body>, Box<dyn Error>> {
        let text = metrics::text(&self.cluster, &self.snapshot()?)?;
        Ok(told(StatusCode::OK, "text/plain; version=0.0.4", text))
    }
}

/// Answers that all is well, or what isn't.
fn judged(probe: Result<(), String>) -> Response<Body> {
    match probe {
        Ok(()) => told(StatusCode::OK, TEXT, "ok\n"),
        Err(faults) => told(StatusCode::SERVICE_UNAVAILABLE, TEXT, faults),
    }
}

fn failed(error: &dyn Error) -> Response<Body> {
    told(
        StatusCode::INTERNAL_SERVER_ERROR,
        TEXT,
        format!("{error}\n"),
    )
}

fn told(status: StatusCode, kind: &'static str, body: impl Into<Body>) -> Response<Body> {
    let mut response = Response::new(body.into());
    *response.status_mut() = status;
    let headers = response.headers_mut();
    headers.insert(CONTENT_TYPE, hyper::header::HeaderValue::from_static(kind));
    headers.insert(
        CACHE_CONTROL,
        hyper::header::HeaderValue::from_static("no-store"),
    );
    response
}

#[cfg(test)]
mod tests {
    use super::*;
    use crate::body::new_shard;
    use crate::configuration::Configuration;
    use crate::keyspace::Rule;
    use crate::storage::{InMemory, Storage};

    #[test]
    fn no_earlier_board_is_kept_for_the_page() {
        let configuration = Configuration::new(Rule::Hash(1));
        let memory = Arc::new(InMemory::new(&configuration).unwrap());
        let storage = Storage::Memory(memory.clone());
        let cluster = Arc::new(Cluster::new(configuration, storage));
        let site = Site { cluster };
        assert_eq!(site.snapshot().unwrap().shards.len(), 1);
        let bodies = vec![new_shard().unwrap()];
        let (before, opened) = (memory.board(), memory.open(&[], bodies).unwrap());
        memory.take(opened, &[0]);
        assert!(before.into_bodies().is_ok());
    }
}
