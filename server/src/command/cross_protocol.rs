//! HTTP requests that a web page makes a browser send. By these a page could reach a server that asks for no password.
use crate::resp::Command;
use std::sync::{Mutex, PoisonError};
use std::time::{Duration, Instant};

/// The least time between two warnings.
const PAUSE: Duration = Duration::from_secs(60);

/// When the last warning was written.
static SAID: Mutex<Option<Instant>> = Mutex::new(None);

/// Returns whether the command is one of the two HTTP lines that Redis looks for. Each HTTP request has the second of
/// them, and a request whose body may be commands begins with the first.
pub(super) fn is_of_web(command: Command<'_>) -> bool {
    command.is(0, "POST") || command.is(0, "HOST:")
}

/// Warns that the connection with this number sent such a line, unless a warning was written lately.
pub(super) fn warn(connection: u64) {
    let mut said = SAID.lock().unwrap_or_else(PoisonError::into_inner);
    if said.is_some_and(|it| it.elapsed() < PAUSE) {
        return;
    }
    *said = Some(Instant::now());
    tracing::warn!(
        connection,
        "a line of HTTP came, as of a web page that attacks the server: its connection is ended"
    );
}
