use crate::{CompactError, LeaseError, LeaseId, ReadError, WriteError};
use serde::Deserialize;

/// Why a call of etcd failed.
#[derive(Clone, Debug)]
pub(super) enum CallError {
    /// No member got it.
    Unreachable(String),
    /// A member may have done it.
    Unknown(String),
    /// A member refused it.
    Refused(GrpcStatus),
}

/// The status of a call. With another code than 0 a member refuses the call.
#[derive(Clone, Debug, Default, Deserialize, PartialEq, Eq)]
#[serde(default)]
pub struct GrpcStatus {
    /// A code of gRPC.
    pub code: u32,
    /// Why, in the member's words.
    pub message: String,
}

impl GrpcStatus {
    const SUCCESS: u32 = 0;
    const INVALID: u32 = 3;
    const NOT_FOUND: u32 = 5;
    const EXISTS: u32 = 6;
    const DENIED: u32 = 7;
    const EXHAUSTED: u32 = 8;
    const OUT_OF_RANGE: u32 = 11;
    const UNAUTHENTICATED: u32 = 16;
    /// With these codes any member would refuse the call.
    const OF_CALL: [u32; 7] = [
        GrpcStatus::INVALID,
        GrpcStatus::NOT_FOUND,
        GrpcStatus::EXISTS,
        GrpcStatus::DENIED,
        GrpcStatus::EXHAUSTED,
        GrpcStatus::OUT_OF_RANGE,
        GrpcStatus::UNAUTHENTICATED,
    ];

    /// Returns whether the member did the call.
    pub(super) fn is_success(&self) -> bool {
        self.code == GrpcStatus::SUCCESS
    }

    /// Returns whether it says why. An answer in place of a stream doesn't, in its own words.
    pub(super) fn is_told(&self) -> bool {
        self.code > 0 || !self.message.is_empty()
    }

    /// Returns whether another member may do the call: this one reaches no leader, is a learner, or can't be reached by
    /// its gateway. The refusal is neither about the call nor about the user.
    fn is_of_member(&self) -> bool {
        !GrpcStatus::OF_CALL.contains(&self.code) && !self.is_of_user()
    }

    /// Returns whether the user's token is missing, or has ended.
    pub(super) fn is_of_token(&self) -> bool {
        self.code == GrpcStatus::UNAUTHENTICATED || self.message.contains("user name is empty")
    }

    /// Returns whether the revision was compacted already.
    pub(super) fn is_of_compacted(&self) -> bool {
        self.message.contains("has been compacted")
    }

    fn is_of_size(&self) -> bool {
        self.message.contains("too large")
            || self.message.contains("too many operations")
            || self.message.contains("larger than max")
    }

    /// Returns whether it is refused because of the user, or because no user is given.
    pub(super) fn is_of_user(&self) -> bool {
        matches!(self.code, GrpcStatus::DENIED | GrpcStatus::UNAUTHENTICATED)
            || self.message.contains("authentication")
            || self.message.contains("user name is empty")
    }
}

impl CallError {
    /// Returns the error that a member's answer is longer than allowed.
    pub(super) fn too_long() -> CallError {
        CallError::Unknown("etcd's answer is too long".to_owned())
    }

    /// Returns the error that a member's answer, or an element of its stream, can't be read.
    pub(super) fn unread(why: impl ToString) -> CallError {
        CallError::Unknown(format!("etcd's answer can't be read: {}", why.to_string()))
    }

    /// Returns the error that a member's answer by gRPC has no status, so that nobody knows whether it is whole.
    pub(super) fn without_status() -> CallError {
        CallError::Unknown("etcd's answer has no status of gRPC".to_owned())
    }

    /// Returns the error that a member answers with this status of HTTP, and with nothing that says more.
    pub(super) fn of_http(status: u16) -> CallError {
        CallError::Unknown(format!("etcd answered {status}"))
    }

    /// Returns the error that an answer doesn't reach its end.
    pub(super) fn broken(error: impl ToString) -> CallError {
        CallError::Unknown(error.to_string())
    }

    /// Returns the error that no member answers in time.
    pub(super) fn late() -> CallError {
        CallError::Unknown("no member answered in time".to_owned())
    }

    /// Returns whether another member may do it, because this one got it and doesn't answer, or refused it for its own
    /// reasons.
    pub(super) fn is_of_member(&self) -> bool {
        match self {
            CallError::Unreachable(_) => false,
            CallError::Unknown(_) => true,
            CallError::Refused(it) => it.is_of_member(),
        }
    }

    /// Returns whether another member may be asked, for a call that may be done twice: this one can't be reached, or
    /// the reason is its own.
    pub(super) fn is_passed_over(&self) -> bool {
        matches!(self, CallError::Unreachable(_)) || self.is_of_member()
    }

    /// Returns its meaning for a transaction. A transaction surely isn't made only if a member refuses it before it
    /// proposes it.
    pub(super) fn of_write(self) -> WriteError {
        match self {
            CallError::Unreachable(reason) => WriteError::Unavailable(reason),
            CallError::Unknown(reason) => WriteError::Unknown(reason),
            CallError::Refused(it) if it.is_of_user() => WriteError::Denied(it.message),
            CallError::Refused(it) if it.is_of_size() => WriteError::TooLarge(it.message),
            CallError::Refused(it) => match it.code {
                GrpcStatus::EXHAUSTED if it.message.contains("space exceeded") => {
                    WriteError::Full(it.message)
                }
                GrpcStatus::EXHAUSTED | GrpcStatus::INVALID => WriteError::Unavailable(it.message),
                GrpcStatus::NOT_FOUND => WriteError::LeaseEnded,
                _ => WriteError::Unknown(it.message),
            },
        }
    }

    /// Returns its meaning for a reading.
    pub(super) fn of_read(self) -> ReadError {
        match self {
            CallError::Unreachable(reason) | CallError::Unknown(reason) => {
                ReadError::Unavailable(reason)
            }
            CallError::Refused(it) if it.is_of_user() => ReadError::Denied(it.message),
            CallError::Refused(it) => ReadError::Unavailable(it.message),
        }
    }

    /// Returns its meaning for a compaction.
    pub(super) fn of_compaction(self) -> CompactError {
        match self {
            CallError::Unreachable(reason) | CallError::Unknown(reason) => {
                CompactError::Unavailable(reason)
            }
            CallError::Refused(it) if it.is_of_user() => CompactError::Denied(it.message),
            CallError::Refused(it) => CompactError::Unavailable(it.message),
        }
    }

    /// Returns its meaning for a lease.
    pub(super) fn of_lease(self, lease: LeaseId) -> LeaseError {
        match self {
            CallError::Unreachable(reason) | CallError::Unknown(reason) => {
                LeaseError::Unavailable(reason)
            }
            CallError::Refused(it) if it.code == GrpcStatus::NOT_FOUND => LeaseError::Ended(lease),
            CallError::Refused(it) => LeaseError::Unavailable(it.message),
        }
    }
}
