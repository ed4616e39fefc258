//! Tests of envelopes, the desk and the world.
#![tactic(auto)]

#[cfg(test)]
mod common;
#[cfg(test)]
mod desk;
#[cfg(test)]
mod envelope;
#[cfg(test)]
mod table;
