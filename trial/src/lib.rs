//! Decides whether one map on one thread could have given the answers of a server.
//!
//! Clients record when each of their calls began and ended, and its answer ([`Call`]). [`is_linearizable`] looks for an
//! order of these calls that one thread could have made ([`Model`]), in which each lies between its beginning and its
//! end. It is the search of Wing and Gong. With Lowe's cut, the search never meets the same set of calls with the same
//! state twice.
#![forbid(unsafe_code)]
#![warn(missing_docs)]

mod call;
mod call_set;
mod chance;
mod client;
mod command_outcome;
mod events;
mod garbled;
mod hand;
mod history;
mod key_routes;
mod linearizable;
mod model;
mod mover;
mod plan;
mod register;
mod report;
mod search;

pub use call::Call;
pub use client::{Failure, RespClient, RespReply};
pub use command_outcome::CommandOutcome;
pub use garbled::Garbled;
pub use hand::{Hand, Way};
pub use history::History;
pub(crate) use key_routes::KeyRoutes;
pub use linearizable::{is_linearizable, judge, judge_until, Verdict};
pub use model::Model;
pub use mover::Mover;
pub use plan::TrialPlan;
pub use register::{KeyAnswer, KeyCommand, Register};
pub use report::{Report, Unexplained};
