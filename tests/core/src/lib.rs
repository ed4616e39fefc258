//! Tests of ranges, ownership and words, and of steps over a shared store.
#![tactic(auto)]

#[cfg(test)]
mod codec;
#[cfg(test)]
mod histories;
#[cfg(test)]
mod lead;
#[cfg(test)]
mod opaque;
#[cfg(test)]
mod ownership;
#[cfg(test)]
mod permit;
#[cfg(test)]
mod places;
#[cfg(test)]
mod ranges;
#[cfg(test)]
mod refused;
#[cfg(test)]
mod shard;
#[cfg(test)]
mod store;
#[cfg(test)]
mod sum;
#[cfg(test)]
mod texts;
#[cfg(test)]
mod whole;
#[cfg(test)]
mod word;
