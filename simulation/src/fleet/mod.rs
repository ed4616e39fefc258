//! Processes and clients of a fleet. The decisions of `durkenzo-fleet` run here as they ship, and everything for which
//! they wait is simulated.
mod book;
mod callers;
mod excuses;
mod fleet_environment;
mod frame_talk;
mod frames;
mod journal;
mod running_fleet;

pub use book::Book;
pub use callers::Callers;
pub use excuses::Excuses;
pub use fleet_environment::FleetEnvironment;
pub use frames::Frames;
pub use running_fleet::{FleetShape, RunningFleet};
