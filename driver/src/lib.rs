//! The parts that the proved servers of a shared store need around them. The servers decide who executes a request,
//! which transactions are sent and which answers are given. This crate reads the store for them, sends their
//! transactions, and tells them the outcomes.
//!
//! Callers give [`WorkStep`]s to a shard with [`Durable::submit`]. All steps that wait there go into one transaction
//! together (a group commit), and are answered once it is made.
#![warn(missing_docs)]
#![forbid(unsafe_code)]

mod acks;
mod addresses;
mod base_parts;
mod batch_item;
mod chores;
mod clock;
mod command;
mod command_fault;
mod compact_fault;
mod control;
mod core_fault;
mod decision;
// Shards are told the time, so that they can be simulated: clippy.toml lists the functions that they must not call.
#[deny(clippy::disallowed_methods)]
mod durable;
mod elsewhere;
mod intent;
mod join_fault;
mod kept_lease;
mod key_list;
pub mod keys;
mod lease_clock;
mod load_meter;
mod load_report;
mod lowest;
mod machine;
mod machine_check;
mod machine_state;
#[deny(clippy::disallowed_methods)]
mod member;
mod members;
mod opaque_request;
mod open_fault;
mod ownership;
mod plan;
mod planner;
mod process;
mod proved;
mod recovery;
pub mod refusals;
mod refused;
mod request;
mod round;
mod round_step;
mod route_map;
mod run;
mod server_fault;
mod server_run;
mod server_state;
#[deny(clippy::disallowed_methods)]
mod shard;
mod shard_load;
mod shard_service;
mod shard_snapshot;
mod size;
mod snapshot_name;
mod stored_record;
mod stored_settings;
mod work;

pub use acks::Acks;
pub use addresses::Addresses;
pub use chores::Chores;
pub use clock::Clock;
pub use command::{ControlCommand, Given, Next, Subject};
pub use command_fault::CommandFault;
pub use compact_fault::CompactFault;
pub use control::DurableControl;
pub(crate) use core_fault::CoreFault;
pub use durable::{Durable, Reads, ShardOptions};
pub use elsewhere::{Came, Elsewhere, HandOver, Own};
pub use intent::Intent;
pub use join_fault::JoinFault;
pub use kept_lease::KeptLease;
pub use machine::Machine;
pub use machine_check::{check_machine, MachineFault};
pub use member::{JoinStep, JoiningMember, Member};
pub use members::{Live, Members};
pub use opaque_request::OpaqueRequest;
pub use open_fault::OpenFault;
pub use ownership::Ownership;
pub use planner::Planner;
pub use refused::Refused;
pub use request::{Key, MapReply, MapRequest, Range};
pub use route_map::{RouteMap, SeenRoute};
pub(crate) use server_fault::ServerFault;
pub use server_run::ServerRun;
pub use server_state::ServerState;
pub use shard_load::ShardLoad;
pub use shard_snapshot::ShardSnapshot;
pub use stored_record::{takes_part, StoredRecord};
pub use stored_settings::split_settings;
pub use work::{Begin, NotDone, Numbered, Work, WorkOutcome, WorkStep};
