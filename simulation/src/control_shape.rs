use crate::bug::Bug;
use crate::chance::Chance;
use crate::command::settings;
use std::sync::atomic::{AtomicBool, AtomicU64};
use std::sync::Arc;
use std::time::Duration;

/// The controls of a schedule.
pub struct ControlShape {
    pub settings: String,
    /// The shortest time that a step of a migration takes.
    pub pace: Duration,
    /// Whether they even out servers. At the end of a schedule they don't, so that it comes to its end.
    pub balances: Arc<AtomicBool>,
    /// How many shards they moved for that.
    pub balanced: Arc<AtomicU64>,
    pub bug: Option<Bug>,
    /// Whether each server has room for all shards.
    pub is_roomy: bool,
}

impl ControlShape {
    /// Draws the controls of a schedule with three servers. `shards` is the number of shards.
    pub fn new(chance: &mut Chance, shards: u16, bug: Option<Bug>) -> ControlShape {
        // Any two servers together must have room for all shards.
        let room = [shards.div_ceil(2), shards, 9][chance.below(3) as usize];
        ControlShape {
            settings: settings(shards, room),
            pace: Duration::from_millis([0, 0, 5][chance.below(3) as usize]),
            balances: Arc::new(AtomicBool::new(room >= shards)),
            balanced: Arc::default(),
            bug,
            is_roomy: room >= shards,
        }
    }
}
