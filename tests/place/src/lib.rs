//! Tests of rows, books and approvals of restarts.
#![tactic(auto)]

#[cfg(test)]
mod common;
#[cfg(test)]
mod place;
#[cfg(test)]
mod rows;
#[cfg(test)]
mod tasks;
