use crate::ledger::SharedLedger;
use crate::operator_command::OperatorCommand;
use crate::simulated_store::{locked, SharedStore};
use durkenzo_control::control::{ControlAnswer, Refusal, ReplyTo};
use std::fmt;
use std::sync::atomic::{AtomicBool, Ordering};
use std::sync::Arc;

/// The destination of the answer to an operator's command.
pub struct OperatorReply {
    ledger: SharedLedger,
    store: SharedStore,
    /// The command's index in the ledger. It is `None` once the command is answered.
    place: Option<usize>,
    is_awaited: Arc<AtomicBool>,
}

impl OperatorReply {
    /// Notes that an operator gives this command to this process. Returns the destination of the answer.
    pub fn of(
        (ledger, store): (&SharedLedger, &SharedStore),
        words: &[String],
        life: u64,
    ) -> OperatorReply {
        let is_awaited = Arc::new(AtomicBool::new(true));
        let since = locked(store).revision();
        let mut held = ledger.lock().expect("no schedule goes on after a panic");
        held.commands.push(OperatorCommand {
            words: words.to_vec(),
            life,
            since,
            told: None,
            is_over: false,
            is_awaited: is_awaited.clone(),
        });
        OperatorReply {
            ledger: ledger.clone(),
            store: store.clone(),
            place: Some(held.commands.len() - 1),
            is_awaited,
        }
    }

    fn note(&mut self, told: String) {
        let at = locked(&self.store).revision();
        let mut ledger = self
            .ledger
            .lock()
            .expect("no schedule goes on after a panic");
        if let Some(place) = self.place.take() {
            ledger.commands[place].told = Some((at, told));
        }
    }
}

impl ReplyTo for OperatorReply {
    fn send(mut self: Box<Self>, answer: Result<ControlAnswer, Refusal>) {
        self.note(text(answer));
    }

    fn is_awaited(&self) -> bool {
        self.is_awaited.load(Ordering::Relaxed)
    }

    fn pass_on(mut self: Box<Self>, answer: Vec<u8>) {
        self.note(String::from_utf8_lossy(&answer).into_owned());
    }
}

impl Drop for OperatorReply {
    fn drop(&mut self) {
        let Some(place) = self.place else {
            return;
        };
        let Ok(mut ledger) = self.ledger.lock() else {
            return;
        };
        let command = &mut ledger.commands[place];
        command.is_over = true;
        let (life, is_awaited) = (command.life, self.is_awaited.load(Ordering::Relaxed));
        let asked = format!("{:?}", command.words);
        if is_awaited && !ledger.ended.contains(&life) {
            ledger.forgotten.get_or_insert(asked);
        }
    }
}

impl fmt::Debug for OperatorReply {
    fn fmt(&self, f: &mut fmt::Formatter<'_>) -> fmt::Result {
        f.debug_tuple("OperatorReply").field(&self.place).finish()
    }
}

/// Returns the answer as an operator reads it.
pub fn text(answer: Result<ControlAnswer, Refusal>) -> String {
    match answer {
        Ok(ControlAnswer::Done) => "OK".to_owned(),
        Ok(ControlAnswer::Line(line)) => line,
        Ok(ControlAnswer::Lines(lines)) => lines.join("\n"),
        Err(refusal) => refusal.to_string(),
    }
}
