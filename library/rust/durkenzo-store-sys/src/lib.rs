//! The proved servers and the proved control of a shared store, and permits. It has the calls that `durkenzo_store.h`,
//! `durkenzo_relay.h`, `durkenzo_control.h` and `durkenzo_permit.h` declare, and values that call them safely.
//!
//! ```
//! use durkenzo_store_sys::{Decision, Limits, Server};
//!
//! let mut server = Server::new(1, 0, 1, Limits::default())?;
//! // A record that server 1 owns, and the head of a log that was never written.
//! let record = [&[1][..], &(1u64 << 61 | 1 << 48 | 1).to_be_bytes(), &[0; 8]].concat();
//! let head = [&[1][..], &[0; 24]].concat();
//! server.read((&record, 1), (&head, 0))?;
//! let request = b"\x02\x01kvalue";
//! let asked = durkenzo_store_sys::ServerRequest { client: 7, number: 1, request, ..Default::default() };
//! assert_eq!(server.take(&asked)?, Decision::Waits);
//! assert!(server.flush()?);
//! let sent = server.sending()?;
//! assert_eq!((sent.number, sent.stood), (1, 1));
//! let (made, _) = server.made(2)?;
//! assert_eq!((made[0].client, made[0].reply.kind), (7, 1));
//! # Ok::<(), durkenzo_store_sys::Code>(())
//! ```
#![warn(missing_docs)]
#![deny(unsafe_code)]

#[allow(unsafe_code)]
pub mod calls;
mod code;
#[cfg(feature = "control")]
#[allow(unsafe_code)]
mod director;
mod limits;
#[cfg(feature = "permits")]
#[allow(unsafe_code)]
mod permit;
#[cfg(feature = "relay")]
#[allow(unsafe_code)]
mod relay;
#[allow(unsafe_code)]
mod server;
#[allow(unsafe_code)]
mod server_calls;

pub use calls::{Head, Reply};
pub use code::Code;
#[cfg(feature = "control")]
pub use director::{
    CommandTransaction, Director, DirectorStep, SettingsRefusal, SettingsTransaction,
};
#[cfg(feature = "permits")]
pub use permit::{HandOver, ShardReading, ShardView};
#[cfg(feature = "relay")]
pub use relay::{PlaceAnswer, Relay};
pub use server::{
    Base, Decision, Limits, Passing, Server, ServerRequest, ServerTransaction, ShardServer, Told,
};
#[cfg(feature = "relay")]
pub use server_calls::Places;
pub use server_calls::{ServerCalls, Texts};
