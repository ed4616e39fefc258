use hyper::{Body, Client, Method, Request};
use std::io;
use std::time::Duration;
use thiserror::Error;
use tokio::runtime::Builder;
use tokio::time::timeout;

/// Why a sidecar hasn't left.
#[derive(Debug, Error)]
pub enum DrainError {
    /// Nothing was asked, because the address can't be read or the sidecar can't be reached.
    #[error("the sidecar at {0} isn't asked: {1}")]
    Unreached(String, String),
    /// The sidecar hasn't left within this time. It goes on leaving.
    #[error("the sidecar at {0} hasn't left within {} s", .1.as_secs())]
    Late(String, Duration),
    /// The sidecar refuses it.
    #[error("the sidecar at {0} answers {1}")]
    Refused(String, u16),
    /// The system gives no thread or no socket.
    #[error("the system refuses it: {0}")]
    System(#[from] io::Error),
}

/// Makes the sidecar that serves clients at this address on this machine move its shards to others and leave. Waits
/// for that, at most this long.
///
/// # Errors
///
/// If the sidecar can't be reached, refuses it, or hasn't left in time.
pub fn drain(clients: &str, within: Duration) -> Result<(), DrainError> {
    let unreached = |why: String| DrainError::Unreached(clients.to_owned(), why);
    let uri = format!("http://{clients}/v1/drain");
    let request = Request::builder().method(Method::POST).uri(uri);
    let request = request
        .body(Body::empty())
        .map_err(|it| unreached(it.to_string()))?;
    let runtime = Builder::new_current_thread().enable_all().build()?;
    let answered =
        runtime.block_on(async { timeout(within, Client::new().request(request)).await });
    let late = |_| DrainError::Late(clients.to_owned(), within);
    match answered
        .map_err(late)?
        .map_err(|it| unreached(it.to_string()))?
        .status()
    {
        status if status.is_success() => Ok(()),
        status => Err(DrainError::Refused(clients.to_owned(), status.as_u16())),
    }
}
