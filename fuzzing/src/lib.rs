//! Random bytes for each parser that sees the network or the disk, and the rules that all of them must keep: a parser
//! must not panic, and must not take more time and memory than a bound; and if it accepts bytes, it must write them
//! again in a form that it accepts as the same.
#![deny(unsafe_code)]
#![warn(missing_docs)]

// The types of etcd's answers, for the modules of the store that are compiled here again.
use durkenzo_store::{
    CompactError, KeyChange, LeaseError, LeaseId, Outcome, Pair, ReadError, Reading, Revision,
    StoreSize, Transaction, WriteError,
};

mod chance;
mod coverage;
pub mod fuzzer;
mod mutator;
#[allow(unsafe_code)]
mod raw;
pub mod target;
mod targets;
