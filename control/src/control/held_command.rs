use super::{Asked, Refusal, MOST_ASKED};
use durkenzo_driver::Clock;
use std::sync::{Arc, Mutex, MutexGuard, PoisonError};
use std::time::{Duration, Instant};

/// How long a command waits for a leader.
const LEADER_WAIT: Duration = Duration::from_secs(5);

/// Commands that wait for a leader, until the control that takes them ends.
#[derive(Clone, Debug, Default)]
pub struct Waiting {
    held: Arc<Mutex<Held>>,
    clock: Clock,
}

#[derive(Debug, Default)]
struct Held {
    commands: Vec<HeldCommand>,
    /// Whether the control has ended, so that nobody takes a command any more.
    is_closed: bool,
}

/// A command that waits, and until when.
#[derive(Debug)]
pub struct HeldCommand {
    /// Until when.
    pub until: Instant,
    /// The command, and the address of its answer.
    pub asked: Asked,
}

/// The queue in which a command waits again that another process didn't do, and until when.
#[derive(Debug)]
pub struct Again {
    waiting: Waiting,
    until: Instant,
}

impl Waiting {
    /// Makes an empty queue, with this clock.
    pub fn by(clock: Clock) -> Waiting {
        Waiting {
            held: Arc::default(),
            clock,
        }
    }

    /// Makes the command wait from now on.
    pub fn hold(&self, asked: Asked) {
        let until = self.clock.now() + LEADER_WAIT;
        self.hold_again(HeldCommand { until, asked });
    }

    /// Returns whether as many wait as allowed.
    pub fn is_full(&self) -> bool {
        self.held().commands.len() >= MOST_ASKED
    }

    /// Returns whether none waits.
    pub fn is_empty(&self) -> bool {
        self.held().commands.is_empty()
    }

    /// Makes it wait as before. If the control has ended, refuses it, or gives it back to the process that sent it.
    pub fn hold_again(&self, held: HeldCommand) {
        match self.try_hold(held) {
            Ok(()) => {}
            Err(asked) if asked.reply_to.asks_elsewhere() => asked.reply_to.give_back(),
            Err(asked) => asked.refuse(Refusal::no_leader()),
        }
    }

    /// Takes all that wait, in the order in which they came, or came back.
    pub fn take(&self) -> Vec<HeldCommand> {
        std::mem::take(&mut self.held().commands)
    }

    /// Takes all that wait, as the control ends. A command that comes back later doesn't wait.
    pub fn close(&self) -> Vec<HeldCommand> {
        let mut held = self.held();
        held.is_closed = true;
        std::mem::take(&mut held.commands)
    }

    fn try_hold(&self, command: HeldCommand) -> Result<(), Asked> {
        let mut held = self.held();
        if held.is_closed {
            return Err(command.asked);
        }
        held.commands.push(command);
        Ok(())
    }

    /// Returns the queue for a command that has waited until now and may wait again.
    pub fn again(&self, until: Instant) -> Again {
        let waiting = self.clone();
        Again { waiting, until }
    }

    fn held(&self) -> MutexGuard<'_, Held> {
        self.held.lock().unwrap_or_else(PoisonError::into_inner)
    }
}

impl Again {
    /// Makes the command wait again.
    ///
    /// # Errors
    ///
    /// The command, if it has waited for as long as it may, or the control has ended.
    pub fn hold(self, asked: Asked) -> Result<(), Asked> {
        let Again { waiting, until } = self;
        if waiting.clock.now() >= until {
            return Err(asked);
        }
        waiting.try_hold(HeldCommand { until, asked })
    }
}

#[cfg(test)]
mod tests {
    use super::super::plain_backend::Teller;
    use super::super::Words;
    use super::*;

    #[test]
    fn a_command_waits_for_no_control_that_has_ended() {
        let waiting = Waiting::default();
        let asked = || {
            let (reply_to, told) = Teller::pair();
            let words = Words::of(["SM", "SPREAD"]);
            (Asked { words, reply_to }, told)
        };
        let (first, _told) = asked();
        waiting.hold(first);
        let until = waiting.clock.now() + LEADER_WAIT;
        let (later, again) = (waiting.again(until), waiting.again(until));
        let (second, _told) = asked();
        later.hold(second).expect("the control goes on");
        assert_eq!(waiting.close().len(), 2);
        let (third, _told) = asked();
        again.hold(third).expect_err("the control has ended");
        let (fourth, told) = asked();
        waiting.hold(fourth);
        assert_eq!(told.try_recv(), Ok(Err(Refusal::no_leader())));
        assert!(waiting.is_empty());
    }
}
