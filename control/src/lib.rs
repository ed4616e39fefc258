//! The control of servers that share shards, and the links between their processes, for any service.
//!
//! Nothing here knows the meaning of a request, or decides who executes it: proved code does. The program that uses
//! this crate is its host. It shows the control's work ([`control::ControlHost`]), and executes the requests of other
//! processes ([`links::Host`]).
#![forbid(unsafe_code)]
#![warn(missing_docs)]
// Controls and links are told the time, so that they can be simulated: clippy.toml lists the functions that they must
// not call.
#[deny(clippy::disallowed_methods)]
pub mod control;
pub mod descriptors;
#[deny(clippy::disallowed_methods)]
pub mod links;
pub mod tls;
