//! The proved servers and the proved control, with the types of this crate.
mod director;
mod log_server;
mod proved_server;
mod text_server;

pub(crate) use director::{AckRead, CommandTransaction, Director};
pub(crate) use durkenzo_store_sys::ServerRequest;
pub(crate) use log_server::LogServer;
pub(crate) use proved_server::{Core, ProvedServer};
pub(crate) use text_server::TextServer;

use crate::decision::{Decision, ServerTransaction};
use crate::size::Size;
use crate::{Numbered, ServerFault};
use durkenzo_store::Revision;
use durkenzo_store_sys::{self as sys, Code, Limits};

/// The limits of a server. A batch has at most as many requests as a round. More requests may wait, so that requests
/// that are given together are sent together. The last request is kept of so many clients: those of 16 processes, each
/// of which has as many as a round has requests, and all possible clients that number their requests. A process that
/// goes on takes another number before so many others have begun.
const LIMITS: Limits = Limits {
    batch_bytes: Size::MOST.bytes as u64,
    batch_requests: Size::MOST.requests,
    waiting: 8_192,
    clients: 16 * Size::MOST.requests + Numbered::MOST_KEPT,
};

/// Returns the transaction with the types of this crate.
fn transaction_of(sent: sys::ServerTransaction) -> ServerTransaction {
    ServerTransaction {
        stood: Revision(sent.stood),
        logged: Revision(sent.logged),
        number: sent.number,
        head: sent.head,
        batch: sent.batch,
    }
}

/// Returns why a request isn't taken here and now.
fn refusal(code: Code) -> Result<Decision, ServerFault> {
    match code {
        Code::TOO_FAR => Ok(Decision::TooFar),
        Code::TOO_MANY_CLIENTS => Ok(Decision::TooManyClients),
        Code::NOT_READ => Ok(Decision::NotRead),
        Code::REFUSED | Code::CROWDED => Ok(Decision::Refused),
        code => Err(code.into()),
    }
}
