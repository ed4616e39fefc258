//! Tests of what a server does with envelopes.
#![tactic(auto)]

#[cfg(test)]
mod calls;
#[cfg(test)]
mod counting;
#[cfg(test)]
mod memory;
#[cfg(test)]
mod migrating;
pub mod refusing;
#[cfg(test)]
mod running;
#[cfg(test)]
mod server;
#[cfg(test)]
mod serving;
#[cfg(test)]
mod threads;
