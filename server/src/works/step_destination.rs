use durkenzo_control::links::Destination;
use durkenzo_driver::{Came, Elsewhere};
use std::time::Instant;

/// The address of steps from the driver.
#[derive(Clone)]
pub struct StepDestination(pub(super) Elsewhere);

impl Destination for StepDestination {
    fn shard(&self) -> u16 {
        self.0.shard
    }

    fn server(&self) -> u16 {
        self.0.server
    }

    fn came(&self) -> Came {
        self.0.came
    }

    fn since(&self) -> Instant {
        self.0.since
    }
}
