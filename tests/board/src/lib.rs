//! Tests of what a shard's body does, and of boards that threads share.
#![tactic(auto)]

#[cfg(test)]
mod adopting;
#[cfg(test)]
mod answer;
#[cfg(test)]
mod ask;
#[cfg(test)]
mod based;
#[cfg(test)]
mod calls;
#[cfg(test)]
mod checkpoints;
#[cfg(test)]
mod counter;
#[cfg(test)]
mod executing;
#[cfg(test)]
mod fixture;
#[cfg(test)]
mod logged;
#[cfg(test)]
mod memory;
#[cfg(test)]
mod notes;
#[cfg(test)]
mod queue;
#[cfg(test)]
mod rule;
#[cfg(test)]
mod service;
#[cfg(test)]
mod stale;
#[cfg(test)]
mod two_passes;
