//! Tests of boards whose bodies another program owns, of the handles that it keeps, and of their states.
#![tactic(auto)]

#[cfg(test)]
mod foreign;
#[cfg(test)]
mod handles;
#[cfg(test)]
mod states;
