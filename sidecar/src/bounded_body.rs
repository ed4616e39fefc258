use hyper::body::HttpBody;
use hyper::Body;
use std::time::Duration;
use thiserror::Error;
use tokio::time::timeout;

/// Why a body isn't read to its end.
#[derive(Debug, Error)]
pub(crate) enum BodyFault {
    #[error("the body is longer than {0} bytes")]
    TooLong(usize),
    #[error("the body didn't come within {} ms", .0.as_millis())]
    Late(Duration),
    #[error("the body ended early: {0}")]
    Ended(#[from] hyper::Error),
}

/// Returns the bytes of a body, if there are at most so many and they come within this time. Of a longer body no more
/// is read than tells that it is longer.
pub(crate) async fn bounded(
    body: Body,
    most: usize,
    within: Duration,
) -> Result<Vec<u8>, BodyFault> {
    // The length may be told before the bytes are sent.
    if body.size_hint().lower() > most as u64 {
        return Err(BodyFault::TooLong(most));
    }
    let read = timeout(within, read(body, most)).await;
    read.unwrap_or(Err(BodyFault::Late(within)))
}

async fn read(mut body: Body, most: usize) -> Result<Vec<u8>, BodyFault> {
    let mut bytes = Vec::new();
    while let Some(piece) = body.data().await {
        let piece = piece?;
        if bytes.len() + piece.len() > most {
            return Err(BodyFault::TooLong(most));
        }
        bytes.extend_from_slice(&piece);
    }
    Ok(bytes)
}
