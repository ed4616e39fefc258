//! The environment of the etcd client: members that answer calls, and time.
use super::call_error::GrpcStatus;
use super::etcd_protocol::EtcdProtocol;
use std::fmt;
use std::future::Future;
use std::pin::Pin;
use std::time::Instant;
use thiserror::Error;

/// A result that comes later.
pub type Later<'a, T> = Pin<Box<dyn Future<Output = T> + Send + 'a>>;

/// Calls members of etcd, and tells the time. A program does that with sockets, and a simulation without.
pub trait Environment: Send + Sync + 'static {
    /// Returns the protocol in which members are called. It stays the same.
    fn protocol(&self) -> EtcdProtocol {
        EtcdProtocol::Json
    }

    /// Sends a call to a member. The call may be dropped before it is answered. The member may still have done it.
    fn call(&self, call: MemberCall) -> Later<'static, Result<MemberAnswer, NoAnswer>>;

    /// Returns this moment.
    fn now(&self) -> Instant;

    /// Waits until this moment.
    fn wait_until(&self, moment: Instant) -> Later<'static, ()>;
}

/// A call of a member.
#[derive(Clone)]
pub struct MemberCall {
    /// The number of the member that is called, from 0 on.
    pub member: usize,
    /// The path of the call, in JSON for instance `/v3/kv/txn`, and in gRPC `/etcdserverpb.KV/Txn`.
    pub path: &'static str,
    /// The token of a user, if one is needed.
    pub token: Option<String>,
    /// Whether the member must end its answer, a stream, once it reaches no leader.
    pub needs_leader: bool,
    /// The request, as the protocol has it: in JSON, or a frame of gRPC.
    pub asked: Vec<u8>,
}

impl fmt::Debug for MemberCall {
    /// Shows neither the token nor the request, which may contain a password.
    fn fmt(&self, f: &mut fmt::Formatter<'_>) -> fmt::Result {
        f.debug_struct("MemberCall")
            .field("member", &self.member)
            .field("path", &self.path)
            .field("needs_leader", &self.needs_leader)
            .finish_non_exhaustive()
    }
}

/// The answer of a member.
pub struct MemberAnswer {
    /// The HTTP status.
    pub status: u16,
    /// The bytes of the answer, which may be a stream.
    pub body: Box<dyn AnswerBody>,
}

impl MemberAnswer {
    /// Returns whether HTTP has a success.
    pub(super) fn is_success(&self) -> bool {
        (200..300).contains(&self.status)
    }
}

/// The bytes of an answer, as they come.
pub trait AnswerBody: Send {
    /// Waits for bytes, and appends them. Returns false at the end.
    fn append_next<'a>(&'a mut self, held: &'a mut Vec<u8>) -> Later<'a, Result<bool, NoAnswer>>;

    /// Returns the status of gRPC, once it has come: in place of bytes, or after their end. In JSON there is none.
    fn status(&self) -> Option<GrpcStatus> {
        None
    }
}

/// Why a member doesn't answer.
#[derive(Clone, Debug, Error)]
pub enum NoAnswer {
    /// It didn't get the call.
    #[error("{0}")]
    Unreachable(String),
    /// It may have done it.
    #[error("{0}")]
    Broken(String),
}

#[cfg(test)]
mod tests {
    use super::MemberCall;

    #[test]
    fn a_call_is_shown_without_secrets() {
        let call = MemberCall {
            member: 1,
            path: "/v3/auth/authenticate",
            token: Some("a secret token".to_owned()),
            needs_leader: false,
            asked: b"7-8-9".to_vec(),
        };
        let wanted =
            r#"MemberCall { member: 1, path: "/v3/auth/authenticate", needs_leader: false, .. }"#;
        assert_eq!(format!("{call:?}"), wanted);
    }
}
