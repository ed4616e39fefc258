//! The page while the clock is before 1970. HTTP's dates have no such time, and hyper panics at it.
use std::io;
use std::sync::atomic::{AtomicBool, Ordering};
use std::time::SystemTime;
use tokio::io::{AsyncRead, AsyncReadExt, AsyncWrite, AsyncWriteExt};

/// The most bytes of a request that are read.
const ROOM: usize = 4 << 10;
const HEALTHY: &str = "200 OK";
const UNHEALTHY: &str = "503 Service Unavailable";

/// Whether it was logged.
static IS_SAID: AtomicBool = AtomicBool::new(false);

/// Returns whether the clock is before 1970. The first time, logs it.
pub(super) fn is_now() -> bool {
    let is_before = SystemTime::now() < SystemTime::UNIX_EPOCH;
    if is_before && !IS_SAID.swap(true, Ordering::Relaxed) {
        tracing::warn!(
            "this machine's clock is before 1970: only /live is answered until it is set"
        );
    }
    is_before
}

/// Answers one request, without a date.
pub(super) async fn answer(mut stream: impl AsyncRead + AsyncWrite + Unpin) -> io::Result<()> {
    let mut request = Vec::new();
    let mut room = [0; 512];
    while request.len() < ROOM && !request.windows(4).any(|it| it == b"\r\n\r\n") {
        match stream.read(&mut room).await? {
            0 => break,
            count => request.extend_from_slice(&room[..count]),
        }
    }
    let is_live = |it: &[u8]| request.starts_with(it);
    let (status, told) = match is_live(b"GET /live ") || is_live(b"GET /healthz ") {
        true => (HEALTHY, "ok\n"),
        false => (UNHEALTHY, "this machine's clock is before 1970\n"),
    };
    let length = told.len();
    let head =
        format!("HTTP/1.1 {status}\r\ncontent-length: {length}\r\nconnection: close\r\n\r\n");
    stream.write_all(head.as_bytes()).await?;
    stream.write_all(told.as_bytes()).await?;
    stream.shutdown().await
}
