//! Tests of scripts on a cluster.
#![tactic(auto)]

#[cfg(test)]
mod gate;
#[cfg(test)]
mod refused;
#[cfg(test)]
mod scripts;
