use super::call_error::GrpcStatus;
use super::environment::{AnswerBody, Later, NoAnswer};
use super::silence::Silence;
use hyper::body::HttpBody;
use hyper::{Body, HeaderMap, Response};
use std::sync::Arc;

/// The bytes of an answer by gRPC, and its status.
pub(super) struct GrpcBody {
    body: Body,
    status: Option<GrpcStatus>,
    /// The connection's.
    silence: Arc<Silence>,
}

impl GrpcBody {
    /// Takes the body of an answer, and the status that its headers may have in place of a body.
    pub(super) fn of(found: Response<Body>, silence: Arc<Silence>) -> GrpcBody {
        GrpcBody {
            status: status(found.headers()),
            body: found.into_body(),
            silence,
        }
    }

    /// Waits for bytes. Returns none at the end, where the status is.
    async fn append(&mut self, held: &mut Vec<u8>) -> hyper::Result<bool> {
        let next = self.body.data().await.transpose()?;
        if let Some(bytes) = &next {
            self.silence.end();
            held.extend_from_slice(bytes);
        } else if self.status.is_none() {
            let trailers = self.body.trailers().await?;
            self.status = trailers.as_ref().and_then(status);
        }
        Ok(next.is_some())
    }
}

impl AnswerBody for GrpcBody {
    fn append_next<'a>(&'a mut self, held: &'a mut Vec<u8>) -> Later<'a, Result<bool, NoAnswer>> {
        Box::pin(async move {
            let found = self.append(held).await;
            found.map_err(|error| NoAnswer::Broken(error.to_string()))
        })
    }

    fn status(&self) -> Option<GrpcStatus> {
        self.status.clone()
    }
}

/// Returns the status that these headers or trailers have, if they have one.
fn status(headers: &HeaderMap) -> Option<GrpcStatus> {
    let code = headers.get("grpc-status")?.to_str().ok()?.parse().ok()?;
    let message = headers
        .get("grpc-message")
        .map_or(&b""[..], |it| it.as_bytes());
    Some(GrpcStatus {
        code,
        message: decoded(message),
    })
}

/// Returns a text with percent signs, in which bytes may be two hexadecimal digits after such a sign.
fn decoded(text: &[u8]) -> String {
    let digits = |two: &[u8]| u8::from_str_radix(std::str::from_utf8(two).ok()?, 16).ok();
    let (mut bytes, mut rest) = (Vec::with_capacity(text.len()), text);
    while let Some((first, behind)) = rest.split_first() {
        let byte = behind.get(..2).filter(|_| *first == b'%').and_then(digits);
        bytes.push(byte.unwrap_or(*first));
        rest = byte.map_or(behind, |_| &behind[2..]);
    }
    String::from_utf8_lossy(&bytes).into_owned()
}

#[cfg(test)]
mod tests {
    use super::{decoded, status};
    use hyper::HeaderMap;

    #[test]
    fn a_message_may_have_any_bytes() {
        assert_eq!(decoded(b"no%20space: 100%25%c3%a9"), "no space: 100%\u{e9}");
        assert_eq!(decoded(b"%, %2 and %zz stay%"), "%, %2 and %zz stay%");
    }

    #[test]
    fn a_status_is_a_number() {
        let of = |code: &'static str| {
            let mut headers = HeaderMap::new();
            headers.insert("grpc-status", code.parse().unwrap());
            status(&headers).map(|it| it.code)
        };
        assert_eq!((of("0"), of("14"), of("no")), (Some(0), Some(14), None));
        assert_eq!(status(&HeaderMap::new()), None);
    }
}
