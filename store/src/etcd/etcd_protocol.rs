use super::call_error::{CallError, GrpcStatus};
use super::environment::MemberAnswer;
use super::grpc_frame;
use super::member_stream::{whole, MemberStream};
use super::wire::{Asked, Told};
use std::fmt;
use std::str::FromStr;
use thiserror::Error;

/// The protocol of calls to members of etcd.
#[derive(Clone, Copy, Debug, Default, PartialEq, Eq)]
pub enum EtcdProtocol {
    /// JSON over HTTP/1.1, by members' gateways.
    #[default]
    Json,
    /// gRPC over HTTP/2, which costs members less processor time.
    Grpc,
}

/// A text is the name of no protocol.
#[derive(Clone, Debug, Error, PartialEq, Eq)]
#[error("{0:?} is no protocol of etcd: take json or grpc")]
pub struct UnknownProtocol(String);

impl EtcdProtocol {
    /// All protocols.
    const ALL: [EtcdProtocol; 2] = [EtcdProtocol::Json, EtcdProtocol::Grpc];

    /// Returns the bytes of a request.
    pub(super) fn written(self, asked: &impl Asked) -> Result<Vec<u8>, CallError> {
        match self {
            EtcdProtocol::Json => {
                serde_json::to_vec(asked).map_err(|error| CallError::Unreachable(error.to_string()))
            }
            EtcdProtocol::Grpc => grpc_frame::framed(asked),
        }
    }

    /// Returns the answer of a member that hasn't refused the call so far.
    pub(super) async fn accepted(self, found: MemberAnswer) -> Result<MemberAnswer, CallError> {
        let refusal = found.body.status().filter(|it| !it.is_success());
        match self {
            EtcdProtocol::Json if !found.is_success() => Err(refused(found).await),
            EtcdProtocol::Grpc if !found.is_success() => Err(CallError::of_http(found.status)),
            EtcdProtocol::Json | EtcdProtocol::Grpc => {
                refusal.map_or(Ok(found), |it| Err(CallError::Refused(it)))
            }
        }
    }

    /// Reads the whole answer of a member.
    pub(super) async fn read<T: Told>(self, found: MemberAnswer) -> Result<T, CallError> {
        let (bytes, status) = whole(found.body).await?;
        match (self, status) {
            (EtcdProtocol::Json, _) => serde_json::from_slice(&bytes).map_err(CallError::unread),
            (EtcdProtocol::Grpc, None) => Err(CallError::without_status()),
            (EtcdProtocol::Grpc, Some(it)) if !it.is_success() => Err(CallError::Refused(it)),
            (EtcdProtocol::Grpc, Some(_)) => grpc_frame::read(&bytes),
        }
    }

    /// Returns the stream that an answer is.
    pub(super) fn stream(self, found: MemberAnswer) -> MemberStream {
        MemberStream::new(self, found.body)
    }
}

/// Returns the answer in JSON of a member that refuses a call.
async fn refused(found: MemberAnswer) -> CallError {
    let status = found.status;
    match whole(found.body)
        .await
        .ok()
        .and_then(|(it, _)| serde_json::from_slice::<GrpcStatus>(&it).ok())
        .filter(GrpcStatus::is_told)
    {
        Some(refusal) => CallError::Refused(refusal),
        None => CallError::of_http(status),
    }
}

impl fmt::Display for EtcdProtocol {
    fn fmt(&self, f: &mut fmt::Formatter<'_>) -> fmt::Result {
        f.write_str(match self {
            EtcdProtocol::Json => "json",
            EtcdProtocol::Grpc => "grpc",
        })
    }
}

impl FromStr for EtcdProtocol {
    type Err = UnknownProtocol;

    fn from_str(text: &str) -> Result<EtcdProtocol, UnknownProtocol> {
        let mut all = EtcdProtocol::ALL.into_iter();
        all.find(|it| it.to_string() == text)
            .ok_or_else(|| UnknownProtocol(text.to_owned()))
    }
}

#[cfg(test)]
mod tests {
    use super::EtcdProtocol;

    #[test]
    fn a_protocol_has_one_name() {
        assert_eq!("json".parse(), Ok(EtcdProtocol::Json));
        assert_eq!("grpc".parse(), Ok(EtcdProtocol::Grpc));
        let told = "gRPC".parse::<EtcdProtocol>().unwrap_err().to_string();
        assert_eq!(told, r#""gRPC" is no protocol of etcd: take json or grpc"#);
    }
}
