use crate::{Model, RespReply};

/// A command of one key.
#[derive(Clone, Debug, PartialEq, Eq)]
pub enum KeyCommand {
    /// `GET`.
    Get,
    /// `SET`.
    Set(String),
    /// `APPEND`.
    Append(String),
    /// `INCR`.
    Incr,
    /// `DEL`.
    Del,
}

impl KeyCommand {
    /// Returns its words, with the key.
    pub fn words<'a>(&'a self, key: &'a str) -> Vec<&'a str> {
        match self {
            KeyCommand::Get => vec!["GET", key],
            KeyCommand::Set(text) => vec!["SET", key, text],
            KeyCommand::Append(text) => vec!["APPEND", key, text],
            KeyCommand::Incr => vec!["INCR", key],
            KeyCommand::Del => vec!["DEL", key],
        }
    }

    /// Returns whether it may be sent under a number, because it writes without reading first.
    pub fn may_be_numbered(&self) -> bool {
        matches!(
            self,
            KeyCommand::Set(_) | KeyCommand::Incr | KeyCommand::Del
        )
    }

    /// Returns the answer that a reply gives to it. A refusal answers nothing, and neither does a reply of another
    /// kind.
    pub fn answer(&self, reply: &RespReply) -> Option<KeyAnswer> {
        match (self, reply) {
            (KeyCommand::Set(_), RespReply::Line(it)) if it == "OK" => Some(KeyAnswer::Done),
            (KeyCommand::Get, RespReply::Text(text)) => Some(KeyAnswer::Text(text.clone())),
            (KeyCommand::Append(_) | KeyCommand::Incr | KeyCommand::Del, RespReply::Number(it)) => {
                Some(KeyAnswer::Number(*it))
            }
            (KeyCommand::Incr, RespReply::Error(it)) if it.contains("not an integer") => {
                Some(KeyAnswer::NoNumber)
            }
            _ => None,
        }
    }
}

/// The answer to a command.
#[derive(Clone, Debug, PartialEq, Eq)]
pub enum KeyAnswer {
    /// It is done.
    Done,
    /// The text, if there is one.
    Text(Option<String>),
    /// A number.
    Number(i64),
    /// The text isn't a number.
    NoNumber,
}

/// One key of Redis: a text, or none.
#[derive(Debug)]
pub struct Register;

impl Model for Register {
    type State = Option<String>;
    type Input = KeyCommand;
    type Output = KeyAnswer;

    fn step(text: &Option<String>, command: &KeyCommand) -> (Option<String>, KeyAnswer) {
        match command {
            KeyCommand::Get => (text.clone(), KeyAnswer::Text(text.clone())),
            KeyCommand::Set(new) => (Some(new.clone()), KeyAnswer::Done),
            KeyCommand::Append(more) => {
                let whole = text.clone().unwrap_or_default() + more;
                let length = i64::try_from(whole.len()).unwrap_or(i64::MAX);
                (Some(whole), KeyAnswer::Number(length))
            }
            KeyCommand::Incr => match text.as_deref().unwrap_or("0").parse::<i64>() {
                Ok(number) => (
                    Some((number + 1).to_string()),
                    KeyAnswer::Number(number + 1),
                ),
                Err(_) => (text.clone(), KeyAnswer::NoNumber),
            },
            KeyCommand::Del => (None, KeyAnswer::Number(i64::from(text.is_some()))),
        }
    }
}
