//! A server for Redis clients. It owns sockets, threads and queues, but it doesn't decide who executes a request: each
//! such decision is a call of proved code. For data in memory that is a board of crate `durkenzo`, and over a store a
//! proved server that crate `durkenzo_driver` runs.
//!
//! A request to data in memory takes this way: a thread of [`io`] reads it with [`resp`], [`command`] finds the shard
//! of its keys, [`admission`] gets access to that shard's body as the server that the board admits, and [`body`] does
//! the request. Over a store [`command`] gives the request to the driver, which answers later. Meanwhile [`control`]
//! moves shards and restarts servers, on its own thread, and [`http`] shows them.
#![deny(unsafe_code)]
#![warn(missing_docs)]
pub mod admission;
pub mod board_fault;
pub mod body;
#[cfg(test)]
mod chance;
pub mod cluster;
pub mod command;
pub mod configuration;
pub mod control;
mod departure;
pub mod descriptors;
pub mod domains;
pub mod dump;
mod error_names;
pub mod guesses;
pub mod http;
pub mod io;
pub mod join;
pub mod keep_alive;
pub mod keyspace;
mod lease_log;
pub mod log;
pub mod main_thread;
pub mod membership;
pub mod memory;
pub mod metric;
pub mod observer;
pub mod options;
mod packed;
mod passes;
pub mod presence;
pub mod resp;
pub mod run;
pub mod safety;
pub mod settings;
pub mod snapshot;
pub mod stats;
pub mod storage;
pub mod unready;
pub mod wait;
pub mod works;

/// The name of the program.
pub const NAME: &str = "durkenzo-server";

/// The version, which says so if the library wasn't proved.
pub const VERSION: &str = if durkenzo::IS_PROVED {
    env!("CARGO_PKG_VERSION")
} else {
    concat!(env!("CARGO_PKG_VERSION"), "+unproved")
};
