//! Tests of the lines of scripts, of sessions, and of whole scripts on the model.
#![tactic(auto)]

#[cfg(test)]
mod model;
#[cfg(test)]
mod refused;
#[cfg(test)]
mod script;
#[cfg(test)]
mod session;
