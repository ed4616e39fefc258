//! Runs a service of your own on several machines. The service is divided into shards, and for each shard one process
//! at a time executes. Shards move between processes while calls go on.
//!
//! You write a [`Service`]. It says which state it keeps for a shard (the body), how it answers a call, and which bytes
//! it hands over when a shard moves. Each process joins a [`Fleet`] and serves. Clients call with a [`Router`].
//!
//! ```no_run
//! use durkenzo_fleet::{Call, Came, Fault, Fleet, Options, Service, Shard};
//!
//! /// Counts calls by shard.
//! struct Counter;
//!
//! impl Service for Counter {
//!     type Body = u64;
//!
//!     fn add(&self, _: Shard, came: Came<'_>) -> Result<u64, Fault> {
//!         match came {
//!             Came::New | Came::Lost => Ok(0),
//!             Came::Handed(bytes) => Ok(u64::from_be_bytes(bytes.try_into()?)),
//!         }
//!     }
//!
//!     fn answer(&self, count: &mut u64, _: Call<'_>) -> Vec<u8> {
//!         *count += 1;
//!         count.to_be_bytes().to_vec()
//!     }
//!
//!     fn hand_over(&self, count: &mut u64) -> Vec<u8> {
//!         count.to_be_bytes().to_vec()
//!     }
//! }
//!
//! let fleet = Fleet::join(Counter, Options::parse())?;
//! fleet.serve()?;
//! # Ok::<(), Box<dyn std::error::Error>>(())
//! ```
//!
//! This crate never decides by itself which process may execute. Each such decision is a call of proved code. It asks a
//! view of the shard, or the word of the shard's record, or the control. The view ([`durkenzo_store_sys::ShardView`])
//! knows the lease and the records that were read.
#![forbid(unsafe_code)]
#![deny(missing_docs)]

// The modules that decide are marked with `deny` here. They must get the time from an environment and wait only for
// that environment, so that a simulation can run them. clippy.toml names the functions that they must not call.
#[deny(clippy::disallowed_methods)]
mod adoption;
#[cfg(feature = "tokio")]
mod async_enter;
#[cfg(feature = "tokio")]
mod async_router;
#[cfg(feature = "tokio")]
mod async_stream;
#[cfg(all(test, feature = "tokio"))]
mod async_trial;
#[deny(clippy::disallowed_methods)]
mod body_lock;
mod call_error;
#[deny(clippy::disallowed_methods)]
mod call_routes;
#[deny(clippy::disallowed_methods)]
mod calls;
mod changes;
#[deny(clippy::disallowed_methods)]
mod commands;
mod connections;
#[deny(clippy::disallowed_methods)]
mod conversation;
mod copy_name;
mod copy_progress;
#[deny(clippy::disallowed_methods)]
mod departure;
mod enter;
#[deny(clippy::disallowed_methods)]
mod environment;
mod fleet;
#[deny(clippy::disallowed_methods)]
mod fleet_inner;
#[deny(clippy::disallowed_methods)]
mod follower;
mod follower_threads;
mod frame;
#[deny(clippy::disallowed_methods)]
mod guests;
#[deny(clippy::disallowed_methods)]
mod hand_over;
mod host;
mod idle_connections;
mod incoming_body;
mod introduction;
mod join_error;
mod listener;
mod meet_error;
mod options;
mod outgoing_copy;
mod permit;
#[deny(clippy::disallowed_methods)]
mod place;
#[cfg(any(test, feature = "plants", feature = "simulated"))]
mod plant;
#[deny(clippy::disallowed_methods)]
mod queue;
mod retry;
mod router;
mod safety;
#[cfg(test)]
mod safety_trial;
mod service;
mod settings;
#[cfg(test)]
mod settings_trial;
#[deny(clippy::disallowed_methods)]
mod settler;
mod shard;
#[cfg(feature = "simulated")]
#[doc(hidden)]
pub mod simulated;
mod stream;
#[cfg(feature = "tokio")]
mod tasks;
mod threads;
#[cfg(test)]
mod trial;

#[cfg(feature = "tokio")]
pub use async_router::AsyncRouter;
pub use call_error::CallError;
pub use changes::{Changes, Piece};
pub use durkenzo::{Mode, ServerId};
pub use durkenzo_control::control::Balance;
pub use durkenzo_store::{EtcdProtocol, KeyPrefix};
pub use enter::{Destination, Enter, Refused};
pub use fleet::Fleet;
#[doc(hidden)]
pub use frame::respelled;
pub use join_error::JoinError;
pub use meet_error::MeetError;
pub use options::{EtcdOptions, Options};
pub use permit::Permit;
pub use retry::Retry;
pub use router::{Answer, Router};
pub use safety::{Safety, SafetyOptions};
pub use service::{Call, Came, Fault, Service};
pub use settings::{SettingsError, Sharding};
pub use shard::Shard;
