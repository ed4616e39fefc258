//! Tests of what each public type of a fault prints.
#![tactic(auto)]

#[cfg(test)]
mod boards;
#[cfg(test)]
mod clusters;
#[cfg(test)]
mod library;
#[cfg(test)]
mod scripts;
#[cfg(test)]
mod stands;
#[cfg(test)]
mod stores;
#[cfg(test)]
mod texts;
