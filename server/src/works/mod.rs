//! This server's side of the links between processes, of the crate `durkenzo-control`: how works and commands for the
//! control are sent, executed and answered.
mod forwarded_step;
mod host;
mod peer_command;
mod peers;
mod remote_work;
mod session;
mod step_destination;
mod unsure_work;
mod wire_reason;

#[cfg(feature = "simulated")]
pub use host::ServerHost;
pub use peers::Peers;
pub use wire_reason::WireReason;

use crate::resp::{MAX_COMMAND, MAX_REPLY};
use durkenzo_control::links::{MAX_FRAME, MAX_REQUEST};

// A frame has room for each reply and for the works that came together; and for a request of a transaction, including
// the lengths between its words.
const _: () = assert!(MAX_FRAME == MAX_REPLY + (4 << 20) && MAX_REQUEST == 4 * MAX_COMMAND);
