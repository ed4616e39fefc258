//! A page, `/metrics`, `/live` and `/ready`, on a thread of their own.
mod metrics;
mod probes;
mod site;
mod undated;

pub use site::serve;
