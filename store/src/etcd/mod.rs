//! A store in the members of an etcd cluster, which are called by gRPC, or in JSON by their gateways.
//!
//! The client decides which member is asked, how long, and how often. It gets the time from an [`Environment`], through
//! which it also calls members. `sockets` has the connections, and `member_caller` the threads, of a store in etcd.
#[cfg(feature = "etcd")]
mod access;
mod call_error;
mod client;
#[cfg(feature = "etcd")]
#[allow(clippy::disallowed_methods)]
mod connector;
mod environment;
mod etcd_protocol;
#[cfg(feature = "etcd")]
mod etcd_store;
mod gateway;
#[cfg(feature = "etcd")]
mod grpc_body;
#[cfg(feature = "etcd")]
#[allow(clippy::disallowed_methods)]
mod grpc_channel;
mod grpc_frame;
#[cfg(feature = "etcd")]
#[allow(clippy::disallowed_methods)]
mod member_caller;
#[cfg(feature = "etcd")]
mod member_connection;
mod member_stream;
mod method;
mod pulse;
mod race;
#[cfg(feature = "etcd")]
#[allow(clippy::disallowed_methods)]
mod silence;
#[cfg(feature = "etcd")]
#[allow(clippy::disallowed_methods)]
mod sockets;
#[cfg(feature = "etcd")]
mod tls;
mod watch_loop;
mod wire;

#[cfg(feature = "etcd")]
pub use access::{Access, StartError};
pub use call_error::GrpcStatus;
pub use client::EtcdClient;
pub use environment::{AnswerBody, Environment, Later, MemberAnswer, MemberCall, NoAnswer};
pub use etcd_protocol::{EtcdProtocol, UnknownProtocol};
#[cfg(feature = "etcd")]
pub use etcd_store::Etcd;
