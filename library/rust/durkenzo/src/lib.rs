//! Shards that move between servers, each with at most one writer at a time. Proved code decides who the writer is.
//!
//! A [`Board`] keeps a body of any type for each shard. A thread makes a [`Pass`], which acts as one of the board's
//! servers. The pass is admitted to a shard if its server executes the shard's requests and nobody else is admitted.
//! The [`Permit`] then borrows the body, without a lock of its own. Meanwhile a [`Control`] moves shards between
//! servers.
//!
//! ```
//! use durkenzo::{Board, Mode, Permit, ServerId, ShardId};
//!
//! let board = Board::builder().servers(2).build(vec![0u64; 4])?;
//! let control = board.control();
//! let (shard, server) = (ShardId::new(3)?, ServerId::new(1)?);
//! control.assign(shard, server)?;
//! let mut pass = board.pass(server)?;
//! let mut permit = pass.admit(shard, Mode::Direct)?;
//! *permit += 1;
//! let front = Permit::finish(permit);
//! assert_eq!((front.shard, front.generation), (shard, 3));
//! # Ok::<(), Box<dyn std::error::Error>>(())
//! ```
//!
//! Proved code decides which server is admitted to a shard, and that no two permits of a shard live at once. The unsafe
//! code of this crate is not proved. It must call the proved code as its contracts ask, and it must reach a body only
//! through a permit.
//!
//! A pass has one permit at a time. No permit outlives its end or its pass:
//! ```compile_fail,E0499
//! # use durkenzo::{Board, Mode, Permit, ServerId, ShardId};
//! # let (shard, server) = (ShardId::new(0).unwrap(), ServerId::new(1).unwrap());
//! # let board = Board::builder().servers(1).build(vec![0u64; 2]).unwrap();
//! # let mut pass = board.pass(server).unwrap();
//! let first = pass.admit(shard, Mode::Direct).unwrap();
//! let second = pass.admit(ShardId::new(1).unwrap(), Mode::Direct).unwrap();
//! drop(first);
//! ```
//! ```compile_fail,E0382
//! # use durkenzo::{Board, Mode, Permit, ServerId, ShardId};
//! # let (shard, server) = (ShardId::new(0).unwrap(), ServerId::new(1).unwrap());
//! # let board = Board::builder().servers(1).build(vec![0u64; 2]).unwrap();
//! # let mut pass = board.pass(server).unwrap();
//! let mut permit = pass.admit(shard, Mode::Direct).unwrap();
//! Permit::finish(permit);
//! *permit += 1;
//! ```
//! ```compile_fail,E0505
//! # use durkenzo::{Board, Mode, Permit, ServerId, ShardId};
//! # let (shard, server) = (ShardId::new(0).unwrap(), ServerId::new(1).unwrap());
//! # let board = Board::builder().servers(1).build(vec![0u64; 2]).unwrap();
//! # let mut pass = board.pass(server).unwrap();
//! let permit = pass.admit(shard, Mode::Direct).unwrap();
//! drop(pass);
//! drop(permit);
//! ```
//! A body never outlives its permit. A permit of one board can't be ended on another, because no call takes a permit:
//! ```compile_fail,E0505
//! # use durkenzo::{Board, Mode, Permit, ServerId, ShardId};
//! # let (shard, server) = (ShardId::new(0).unwrap(), ServerId::new(1).unwrap());
//! # let board = Board::builder().servers(1).build(vec![String::new()]).unwrap();
//! # let mut pass = board.pass(server).unwrap();
//! let permit = pass.admit(shard, Mode::Direct).unwrap();
//! let body: &String = &permit;
//! Permit::finish(permit);
//! println!("{body}");
//! ```
//! ```compile_fail,E0599
//! # use durkenzo::{Board, Mode, Permit, ServerId, ShardId};
//! # let (shard, server) = (ShardId::new(0).unwrap(), ServerId::new(1).unwrap());
//! # let board = Board::builder().servers(1).build(vec![0u64]).unwrap();
//! # let other = Board::builder().servers(1).build(vec![0u64]).unwrap();
//! # let (mut pass, mut other) = (board.pass(server).unwrap(), other.pass(server).unwrap());
//! let permit = pass.admit(shard, Mode::Direct).unwrap();
//! other.finish(permit);
//! ```
//! If bodies can't be sent between threads, the board can't either:
//! ```compile_fail,E0277
//! # use durkenzo::Board;
//! let board = Board::builder().servers(1).build(vec![std::rc::Rc::new(0)]).unwrap();
//! std::thread::spawn(move || drop(board));
//! ```
#![warn(missing_docs, missing_debug_implementations, unreachable_pub)]
#![warn(clippy::missing_errors_doc)]
mod admission;
mod board;
mod change;
mod control;
mod entry;
mod envelope;
mod error;
mod fault;
mod id_fault;
mod layout;
mod limits;
mod map;
mod note;
mod parked;
mod pass;
mod permit;
mod plan;
mod raw;
mod record;
mod reply;
mod request;
mod restart_step;
mod restore_fault;
mod routes;
mod seat;
mod sent;
mod server_id;
mod service;
mod service_pass;
mod settings_fault;
mod shard_id;
mod waiters;
pub mod word;

pub use admission::Admission;
pub use board::{Board, Builder};
pub use change::Change;
pub use control::Control;
pub use envelope::{Answer, Envelope};
pub use error::Error;
pub use fault::{
    AdmitFault, BuildFault, ChangeFault, CheckpointFault, LayoutFault, MapFault, NoteFault,
    PassFault, PlanFault, PublishFault, RestartFault, RoutesFault, SendFault, ServeFault,
    UnknownShard,
};
pub use id_fault::IdFault;
pub use layout::Layout;
pub use limits::{MAX_GENERATION, MAX_KEY, MAX_SERVER, MAX_SHARD, MAX_TEXT, MOST_HOPS};
pub use map::Map;
pub use note::Note;
pub use pass::{Mode, Pass};
pub use permit::{Front, Permit};
pub use plan::{Move, Plan};
pub use record::{Record, Stand};
pub use reply::{Held, LentReply, LentText, Measure, Reply, Value};
pub use request::Request;
pub use restart_step::RestartStep;
pub use restore_fault::RestoreFault;
pub use routes::{Route, Router, Routes};
pub use sent::{Sent, SentFault};
pub use server_id::ServerId;
pub use service::{Service, ServiceBuilder, Texts};
pub use service_pass::{ServeRefused, Served, ServicePass};
pub use settings_fault::SettingsFault;
pub use shard_id::ShardId;

/// Whether the library under this crate was proved. A library built by `tools/unproved --library` wasn't.
pub const IS_PROVED: bool = option_env!("DURKENZO_UNPROVED").is_none();
