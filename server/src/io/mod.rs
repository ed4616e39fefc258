//! The threads that own connections, and do their clients' commands: at the board for data in memory, and otherwise
//! through the driver.
mod acceptor;
mod arrived;
mod busy_poll;
mod caller;
#[cfg(feature = "simulated")]
mod client_stream;
mod clients;
mod connection;
mod door;
mod half_closed;
mod handshaker;
#[cfg(feature = "simulated")]
mod held_for_clients;
mod inlet;
mod patience;
mod put_off;
mod readiness;
mod reply_address;
mod sockets;
mod strangers;
mod stream;
mod tls_stream;
mod worker;

pub use acceptor::Acceptor;
pub use caller::Caller;
#[cfg(feature = "simulated")]
pub use client_stream::ClientStream;
pub use clients::Clients;
pub use handshaker::Handshaker;
#[cfg(feature = "simulated")]
pub use held_for_clients::HeldForClients;
pub use inlet::Inlet;
pub use patience::Patience;
pub use readiness::Readiness;
pub use reply_address::ReplyAddress;
pub use worker::Worker;
