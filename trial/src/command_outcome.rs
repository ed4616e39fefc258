use crate::{Failure, KeyAnswer, KeyCommand, RespReply};

/// The outcome of a command.
#[derive(Debug)]
pub enum CommandOutcome {
    /// No server got it.
    NotSent,
    /// Its answer.
    Answer(KeyAnswer),
    /// This refusal: it did nothing.
    Refused(String),
    /// This reply, which answers no request: the command may have been done, or may be done later.
    Garbled(String),
    /// The command may have been done, or may be done later.
    Unknown,
}

impl CommandOutcome {
    /// Returns the outcome of this command, by its reply or by why there is none.
    pub fn of(input: &KeyCommand, reply: Result<RespReply, Failure>) -> CommandOutcome {
        match reply {
            Ok(reply) => match (input.answer(&reply), reply) {
                (Some(answer), _) => CommandOutcome::Answer(answer),
                (None, RespReply::Error(it)) if it.starts_with("UNKNOWN") => {
                    CommandOutcome::Unknown
                }
                (None, RespReply::Error(it)) => CommandOutcome::Refused(it),
                (None, reply) => CommandOutcome::Garbled(format!("{reply:?}")),
            },
            Err(failure) if failure.is_garbled() => CommandOutcome::Garbled(failure.0.to_string()),
            Err(_) => CommandOutcome::Unknown,
        }
    }
}
