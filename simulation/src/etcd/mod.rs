//! A simulated etcd. It consists of the state on which its members agree, the members, and the route of a client to
//! them. `tests/etcd.rs` compares the answers of that state with those of a real etcd, one by one.
mod keyspace;
mod members;
mod operation;
mod route;

pub use keyspace::{Heard, Keyspace};
pub use members::{Members, Reached, Trouble, MEMBERS};
pub use operation::{
    EtcdRefusal, EtcdTransaction, Operation, RangeQuery, RangeReply, Response, TransactionReply,
};
pub use route::Route;
