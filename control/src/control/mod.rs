//! The control: it moves shards and restarts servers, as proved code allows. It has its own thread.
//!
//! A [`Controller`] takes commands, [`Asked`], and answers each of them once. It stands on a [`Backend`]: a store, by
//! [`StoreBackend`], or anything else that makes commands and has proved code choose the next ones. If several
//! processes share a store, each has a [`Campaigner`]: it leads with its own controller, or lets the leader's process
//! answer.
//!
//! ```
//! use durkenzo_control::control::{Asked, ControlAnswer, Refusal, ReplyTo, Words};
//! use std::sync::mpsc::{channel, Sender};
//!
//! /// Answers go to whoever has the other end.
//! #[derive(Debug)]
//! struct Teller(Sender<Result<ControlAnswer, Refusal>>);
//!
//! impl ReplyTo for Teller {
//!     fn send(self: Box<Self>, answer: Result<ControlAnswer, Refusal>) {
//!         // Nobody may wait any more.
//!         let _ = self.0.send(answer);
//!     }
//!
//!     fn pass_on(self: Box<Self>, _answer: Vec<u8>) {
//!         unreachable!("there is one process");
//!     }
//! }
//!
//! let (tell, told) = channel();
//! let asked = Asked { words: Words::of(["SM", "LOOK", "0"]), reply_to: Box::new(Teller(tell)) };
//! asked.refuse(Refusal::crowded());
//! assert!(told.recv()?.unwrap_err().to_string().starts_with("REFUSED Crowded: "));
//! # Ok::<(), std::sync::mpsc::RecvError>(())
//! ```
mod advance;
mod answer;
mod asked;
mod asked_command;
mod backend;
mod balance;
mod balanced_shares;
mod balancer;
mod campaigner;
mod change_log;
mod compactor;
mod control_host;
#[allow(clippy::disallowed_methods)]
mod control_thread;
mod controller;
mod drain;
mod held_command;
mod homes;
mod leader;
mod migration;
mod moves;
mod other_controls;
mod patience;
#[cfg(test)]
mod plain_backend;
mod planned_moves;
mod progress;
mod refusal;
mod refusal_names;
mod reply_to;
mod resized_settings;
mod restart;
mod rolling_restart;
mod shares;
mod spread;
mod store_backend;
mod task;
mod word_table;
mod words;

pub use advance::Advance;
pub use answer::ControlAnswer;
pub use asked::{Asked, MOST_ASKED};
pub use backend::{Backend, BackendFault, FileWork, StateWait};
pub use balance::Balance;
pub use campaigner::Campaigner;
pub use control_host::ControlHost;
pub use controller::{Controller, TURN};
pub use held_command::{Again, Waiting};
pub use leader::FIRST_WAIT;
pub use other_controls::{is_decided, OtherControls};
pub use progress::{Doing, Progress, Share};
pub use refusal::Refusal;
pub use refusal_names::error_names;
pub use reply_to::ReplyTo;
pub use store_backend::StoreBackend;
pub use word_table::is_of_all;
pub use words::Words;
