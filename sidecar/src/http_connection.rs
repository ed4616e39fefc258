use crate::gateway::Gateway;
use hyper::server::conn::Http;
use hyper::service::service_fn;
use hyper::{Body, Request};
use std::convert::Infallible;
use std::future::Future;
use std::net::SocketAddr;
use std::pin::pin;
use std::sync::{Arc, Mutex, PoisonError};
use std::time::{Duration, Instant};
use tokio::net::TcpStream;
use tokio::sync::watch;
use tokio::time::sleep;

/// How long a connection may be without a request, or take to send a request's head or to read an answer.
const IDLE: Duration = Duration::from_secs(60);
/// How often this is looked at.
const LOOK: Duration = Duration::from_secs(5);
/// The most bytes of a request's head.
const HEAD: usize = 64 << 10;

/// The requests of a connection that are under way.
struct Activity {
    /// How many there are, and when the last one began or ended.
    state: Mutex<(usize, Instant)>,
}

impl Activity {
    fn new() -> Activity {
        Activity {
            state: Mutex::new((0, Instant::now())),
        }
    }

    /// Does the work of a request, which is under way meanwhile.
    async fn noting<T>(&self, work: impl Future<Output = T>) -> T {
        self.note(1);
        let done = work.await;
        self.note(-1);
        done
    }

    fn note(&self, change: isize) {
        let mut state = self.state.lock().unwrap_or_else(PoisonError::into_inner);
        *state = (state.0.saturating_add_signed(change), Instant::now());
    }

    /// Waits until there was no request for too long.
    async fn is_idle(&self) {
        loop {
            sleep(LOOK).await;
            let state = *self.state.lock().unwrap_or_else(PoisonError::into_inner);
            if state.0 == 0 && state.1.elapsed() > IDLE {
                return;
            }
        }
    }
}

/// Answers the requests on a connection, until it ends, has no request for too long, or this process ends. Requests
/// that are under way then are still answered.
pub(crate) async fn converse(
    gateway: Arc<Gateway>,
    (stream, from): (TcpStream, SocketAddr),
    mut ending: watch::Receiver<bool>,
) {
    let activity = Arc::new(Activity::new());
    let noted = activity.clone();
    let service = service_fn(move |request: Request<Body>| {
        let (gateway, activity) = (gateway.clone(), noted.clone());
        async move {
            let answer = gateway.answer(request, from);
            Ok::<_, Infallible>(activity.noting(answer).await)
        }
    });
    let mut http = Http::new();
    http.http1_only(true).max_buf_size(HEAD);
    let mut connection = pin!(http.serve_connection(stream, service));
    let mut idle = pin!(activity.is_idle());
    let mut is_ending = *ending.borrow();
    if is_ending {
        connection.as_mut().graceful_shutdown();
    }
    loop {
        tokio::select! {
            ended = connection.as_mut() => {
                if let Err(error) = ended {
                    tracing::debug!(%error, "a connection of a client has ended");
                }
                return;
            }
            () = idle.as_mut() => return,
            _ = ending.changed(), if !is_ending => {
                is_ending = true;
                connection.as_mut().graceful_shutdown();
            }
        }
    }
}
