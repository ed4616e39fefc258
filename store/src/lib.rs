//! Keys with revisions, which transactions compare and write. The records and the data of shards lie in such a store.
//!
//! A [`Store`] offers what etcd offers its clients, and no more. Each [`Transaction`] is made as a whole or not at all,
//! all are made one after another, and each that writes gets a later [`Revision`]. There are three such stores:
//!
//! | store | its data | after a crash |
//! |---|---|---|
//! | [`Embedded::in_memory`] | in the process | nothing |
//! | [`Embedded::in_folder`] | in a folder, by SQLite | each transaction whose outcome was told, by [`Sync::Always`] |
//! | [`Etcd`] | in the members of an etcd cluster | every transaction whose outcome was told |
//!
//! Several fleets can share an etcd, each by a [`PrefixedStore`].
//!
//! No store decides anything: the proved cores decide which transactions may be sent, and the meaning of an answer. So
//! any store may take their place: implement [`Store`], whose parts are all public. The revision of each transaction
//! that writes must be greater than those before it. A watch must tell each change in its order. Make a [`Watch`] with
//! [`Watch::ended_by`].
//!
//! ```
//! use durkenzo_store::{Embedded, Outcome, Revision, Store, Transaction};
//!
//! # fn main() -> Result<(), Box<dyn std::error::Error>> {
//! let store = Embedded::in_memory();
//! let first = Transaction::new().compare("leader", Revision::NEVER).put("leader", "7");
//! let Outcome::Made(written) = store.make(first)? else { panic!("no one else writes it") };
//!
//! let second = Transaction::new().compare("leader", Revision::NEVER).put("leader", "8").or_read("leader");
//! let Outcome::Lost(reading) = store.make(second)? else { panic!("it was written") };
//! assert_eq!(reading.pairs[0].value, b"7");
//! assert_eq!(reading.pairs[0].revision, written);
//! # Ok(())
//! # }
//! ```
#![forbid(unsafe_code)]
#![warn(missing_docs)]

mod embedded;
mod error;
// It is told the time, so that it can be simulated: clippy.toml lists the functions that it must not call.
#[cfg(feature = "etcd-client")]
#[deny(clippy::disallowed_methods)]
mod etcd;
mod key_prefix;
mod lease;
// It measures real time.
#[allow(clippy::disallowed_methods)]
mod measured_store;
mod pair;
mod prefixed_store;
mod revision;
mod room;
mod store;
mod store_counts;
mod store_size;
mod transaction;
mod watch;

#[cfg(feature = "simulated")]
pub use embedded::{Disk, FileLength, RoomFile};
pub use embedded::{Embedded, OpenError, Sync};
pub use error::{CompactError, ReadError, WriteError};
#[cfg(feature = "etcd")]
pub use etcd::{Access, Etcd, StartError};
#[cfg(feature = "etcd-client")]
pub use etcd::{
    AnswerBody, Environment, EtcdClient, EtcdProtocol, GrpcStatus, Later, MemberAnswer, MemberCall,
    NoAnswer, UnknownProtocol,
};
pub use key_prefix::{KeyPrefix, PrefixFault};
pub use lease::{LeaseError, LeaseId};
pub use measured_store::MeasuredStore;
pub use pair::{Pair, Reading};
pub use prefixed_store::PrefixedStore;
pub use revision::Revision;
pub use room::Room;
pub use store::{Done, Store};
pub use store_counts::{StoreCounts, TRANSACTION_BOUNDS};
pub use store_size::StoreSize;
pub use transaction::{Compare, Outcome, Put, Transaction};
pub use watch::{KeyChange, Seen, Watch, Watcher};
