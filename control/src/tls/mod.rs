//! TLS: with clients, between the processes of a cluster, and in a fleet. Each side shows a certificate from files in
//! PEM.
mod caller;
mod clients;
mod connection;
mod context;
mod fault;
mod fleet;
mod handshake;
mod memory_stream;
mod peers;
mod pem;
mod read_half;
mod shared_connection;
#[cfg(test)]
mod trial;
mod write_half;

pub use caller::Caller;
pub use clients::ClientsTls;
pub use connection::TlsConnection;
pub use fault::TlsFault;
pub use fleet::FleetTls;
pub use peers::{PeersTls, PEER_NAME};
pub use read_half::ReadHalf;
pub use write_half::WriteHalf;
