use durkenzo_control::control::{Balance, ControlAnswer, ControlHost, Doing, ReplyTo};
use durkenzo_driver::{ControlCommand, ServerState};
use std::sync::atomic::{AtomicBool, AtomicU64, Ordering};
use std::sync::Arc;
use std::time::Duration;

/// How long a leader waits before it evens out servers: much less than one that ships, because schedules are short.
const CALM: Duration = Duration::from_millis(50);

/// A host of a control that shows nothing.
pub struct SimulatedHost {
    pub is_stopping: Arc<AtomicBool>,
    pub pace: Duration,
    pub balances: Arc<AtomicBool>,
    pub balanced: Arc<AtomicU64>,
}

impl ControlHost for SimulatedHost {
    fn is_stopping(&self) -> bool {
        self.is_stopping.load(Ordering::Relaxed)
    }

    fn pace(&self) -> Duration {
        self.pace
    }

    fn note_state(&self, _server: u16, _state: ServerState) {}

    fn note_progress(&self, _server: u16, _doing: Option<Doing>) {}

    fn note_change(&self, _command: ControlCommand) {}

    fn note_load(&self) {}

    fn balance(&self) -> Balance {
        match self.balances.load(Ordering::Relaxed) {
            true => Balance::Fast,
            false => Balance::Off,
        }
    }

    fn calm(&self) -> Duration {
        CALM
    }

    fn note_balanced(&self) {
        self.balanced.fetch_add(1, Ordering::Relaxed);
    }

    fn shard_line(&self, _shard: u16) -> Option<String> {
        None
    }

    fn shard_lines(&self) -> Vec<String> {
        Vec::new()
    }

    fn server_lines(&self) -> Vec<String> {
        Vec::new()
    }

    fn settings_lines(&self) -> Vec<String> {
        Vec::new()
    }

    fn route_lines(&self) -> Vec<String> {
        Vec::new()
    }

    fn compact(&self, reply_to: Box<dyn ReplyTo>) {
        reply_to.send(Ok(ControlAnswer::Done));
    }
}
