//! The threads that run controls. Only here does a control wait for clients.
use super::patience::Patience;
use super::{Asked, Campaigner, Controller, Refusal};
use durkenzo_driver::ControlCommand;
use std::sync::mpsc::{Receiver, RecvTimeoutError};
use std::thread;

impl Controller {
    /// Answers until nobody can ask any more.
    pub fn run(mut self, asked: Receiver<Asked>) {
        loop {
            let next = match self.wait() {
                None => asked.recv().map_err(RecvTimeoutError::from),
                Some(wait) => asked.recv_timeout(wait),
            };
            match next {
                Ok(asked) => self.turn(Some(asked)),
                Err(RecvTimeoutError::Timeout) => self.turn(None),
                Err(RecvTimeoutError::Disconnected) => return,
            }
        }
    }

    /// Makes a command while the process ends. If another thread has the shard, tries again for a while.
    pub(super) fn make_patiently(&mut self, command: ControlCommand) -> Result<(), Refusal> {
        let mut patience = Patience::default();
        loop {
            match self.make(command) {
                Err(refusal) if refusal.is_passing() && patience.lasts(self.now()) => {
                    thread::yield_now();
                }
                made => return made,
            }
        }
    }
}

impl Campaigner {
    /// Leads or follows until nobody can ask any more.
    pub fn run(mut self, asked: Receiver<Asked>) {
        let mut next = None;
        loop {
            self.turn(next);
            next = match asked.recv_timeout(self.wait()) {
                Ok(asked) => Some(asked),
                Err(RecvTimeoutError::Timeout) => None,
                Err(RecvTimeoutError::Disconnected) => return self.end(),
            };
        }
    }
}
