//! The queue of jobs on a cluster.
#![tactic(auto)]

#[cfg(test)]
mod queue;
#[cfg(test)]
mod setup;
