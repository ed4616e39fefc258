//! Tests of what proofs alone read, the arena, the key map over it, a box's parts, and the published maps.
#![tactic(auto)]

#[cfg(test)]
mod arena;
#[cfg(test)]
mod map;
#[cfg(test)]
mod parts;
#[cfg(test)]
mod publish;
#[cfg(test)]
mod trace;
#[cfg(test)]
mod words;
