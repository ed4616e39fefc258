use crate::operator_command::OperatorCommand;
use std::collections::{BTreeMap, BTreeSet};
use std::sync::{Arc, Mutex};
use std::time::Duration;

/// Everything that operators asked.
pub type SharedLedger = Arc<Mutex<Ledger>>;

/// The commands of operators to controls, and the answers.
#[derive(Debug, Default)]
pub struct Ledger {
    pub commands: Vec<OperatorCommand>,
    /// The processes that have ended.
    pub ended: BTreeSet<u64>,
    /// A command that a process forgot although it still runs.
    pub forgotten: Option<String>,
    /// A step that a link dropped although its process still runs.
    pub dropped: Option<String>,
    /// How many steps links got.
    pub steps: u64,
    /// For each process and each server to which it sent steps, the last of these that went on although its connection
    /// was lost: when it was lost, and its number.
    pub resumed: BTreeMap<(u64, u16), (Duration, u64)>,
    /// A step that went on after a later step that was lost together with it.
    pub overtaken: Option<String>,
}

impl Ledger {
    /// Returns how many commands are still to be answered.
    pub fn open(&self) -> usize {
        self.commands.iter().filter(|it| it.is_open()).count()
    }
}
