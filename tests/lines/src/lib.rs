//! Tests of reading and answering lines, of settings, of running scripts, and of telling why lines are refused.
#![tactic(auto)]

#[cfg(test)]
mod explain;
pub mod fakes;
#[cfg(test)]
mod lines;
#[cfg(test)]
mod run;
#[cfg(test)]
mod settings;
pub mod stops;
