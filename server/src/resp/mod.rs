//! The protocol of Redis clients, versions 2 and 3: requests and replies.
mod arguments;
mod command;
mod fault;
mod line;
pub mod number;
mod oversized;
mod parser;
mod read_away;
mod replies;

pub use arguments::Arguments;
pub use command::{Command, OwnedCommand};
pub use fault::ProtocolFault;
pub use oversized::Oversized;
pub use parser::{
    parse, Unparsed, MAX_ARGUMENTS, MAX_COMMAND, MAX_LINE, MAX_READ, MAX_READ_ARGUMENTS,
};
pub use read_away::{ReadAway, Taken};
pub use replies::{Protocol, Replies, MAX_REPLY};
