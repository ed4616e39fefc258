use super::advance::Advance;
use super::answer::ControlAnswer;
use super::backend::StateWait;
use super::controller::Controller;
use super::patience::Patience;
use super::Refusal;
use durkenzo_driver::{ControlCommand, Subject};
use std::time::Duration;

/// How often it checks whether everybody has acted upon the states of servers.
const LOOK: Duration = Duration::from_micros(100);

/// A command that somebody asked for. If another thread has its shard, it is tried again for a while. After it was
/// made, everybody must act upon its server's state. Each call makes a step.
#[derive(Debug)]
pub(super) struct AskedCommand {
    command: ControlCommand,
    patience: Patience,
    /// The wait until everybody has acted upon the server's state.
    wait: Option<Box<dyn StateWait>>,
}

impl AskedCommand {
    /// Returns the command, which wasn't tried yet.
    pub(super) fn new(command: ControlCommand) -> AskedCommand {
        AskedCommand {
            command,
            patience: Patience::default(),
            wait: None,
        }
    }

    /// Makes the next step.
    pub(super) fn advance(&mut self, control: &mut Controller) -> Result<Advance, Refusal> {
        if self.wait.is_none() {
            match control.make(self.command) {
                Err(refusal) if refusal.is_passing() && self.patience.lasts(control.now()) => {
                    return Ok(Advance::soon());
                }
                made => made?,
            }
            self.wait = self.made(control)?;
        }
        match self.wait.as_ref().map_or(Ok(true), |it| it.is_over())? {
            true => Ok(Advance::Done(ControlAnswer::Done)),
            false => Ok(Advance::After(LOOK)),
        }
    }

    /// Goes on after the command was made: a shard that it moves stays there. Returns the wait that is necessary, if
    /// any.
    fn made(&self, control: &mut Controller) -> Result<Option<Box<dyn StateWait>>, Refusal> {
        match self.command.subject() {
            Subject::Shard(shard) if self.command.taker().is_some() => {
                control.forget_homes_of([shard].into_iter())?;
                Ok(None)
            }
            Subject::Shard(_) => Ok(None),
            Subject::Server(server) => Ok(control.backend.wait_for_state(server)),
        }
    }
}

#[cfg(test)]
mod tests {
    use super::super::plain_backend::PlainBackend;
    use super::*;
    use durkenzo::Stand;

    /// Returns the result of a command whose shard is busy for so many tries. There is one try each second.
    fn tried(busy: u32) -> Result<ControlAnswer, Refusal> {
        let backend = PlainBackend::of(1, Stand::Vacant);
        backend.plain().busy = [(0, busy)].into();
        let mut control = backend.control();
        let mut command = AskedCommand::new(ControlCommand::Assign(0, 1));
        loop {
            match command.advance(&mut control)? {
                Advance::Done(answer) => return Ok(answer),
                _ => backend.plain().passed += Duration::from_secs(1),
            }
        }
    }

    #[test]
    fn a_command_is_tried_again_for_a_while_if_its_shard_is_busy() {
        assert_eq!(tried(2), Ok(ControlAnswer::Done));
        let refused = tried(3).unwrap_err();
        assert!(refused.is_passing(), "{refused}");
    }
}
