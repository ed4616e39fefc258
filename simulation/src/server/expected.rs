use super::history::{Noted, Seen};
use super::resp_reply::RespReply;
use super::server_keys::ServerKey;
use crate::law::Broken;

/// A command that a client has sent.
#[derive(Clone, Debug, PartialEq, Eq)]
pub enum Sent {
    /// Appends a text to a text. The number makes it unique.
    Append(ServerKey, u64),
    /// Adds a unique number to a number.
    Add(ServerKey, u64),
    Get(ServerKey),
    /// Reads two keys of different shards.
    GetBoth([ServerKey; 2]),
    Echo(Vec<u8>),
    Multi,
    Queued,
    /// Executes the queued commands, which append a text with this number and read the key.
    Exec(ServerKey, u64),
    /// Asks the control. Whatever it answers, no key has changed.
    Control,
    /// Ends the connection.
    Quit,
}

/// A command whose answer a client expects.
#[derive(Clone, Debug)]
pub struct Expected {
    pub sent: Sent,
    /// The step at which it was sent.
    pub since: u64,
}

/// Returns the text with this number.
pub fn text_of(number: u64) -> Vec<u8> {
    format!("{number:07};").into_bytes()
}

impl Expected {
    /// Returns the key and the number by which the command writes, if it does.
    pub fn written(&self) -> Option<(ServerKey, u64)> {
        match &self.sent {
            Sent::Append(key, number) | Sent::Add(key, number) | Sent::Exec(key, number) => {
                Some((*key, *number))
            }
            Sent::Get(_)
            | Sent::GetBoth(_)
            | Sent::Echo(_)
            | Sent::Multi
            | Sent::Queued
            | Sent::Control
            | Sent::Quit => None,
        }
    }

    /// Returns what the reply tells of each key.
    ///
    /// # Errors
    ///
    /// If the reply isn't one to this command.
    pub fn told(&self, reply: &RespReply) -> Result<Vec<Noted>, Broken> {
        if let RespReply::Error(why) = reply {
            return Ok(self.refused(why).into_iter().collect());
        }
        let told = match (&self.sent, reply) {
            (Sent::Append(key, number), RespReply::Number(length)) => {
                vec![self.noted(*key, Some(*number), Seen::At(*length as u64))]
            }
            (Sent::Add(key, number), RespReply::Number(sum)) => {
                vec![self.noted(*key, Some(*number), Seen::At(*sum as u64))]
            }
            (Sent::Get(key), RespReply::Text(_) | RespReply::Nothing) => {
                self.seen(*key, reply).into_iter().collect()
            }
            (Sent::GetBoth(keys), RespReply::List(items)) if items.len() == keys.len() => {
                let seen = keys.iter().zip(items);
                let seen = seen.map(|(key, it)| self.seen(*key, it));
                seen.collect::<Option<_>>()
                    .ok_or_else(|| self.misfit(reply))?
            }
            (Sent::Echo(text), RespReply::Text(told)) if text == told => Vec::new(),
            (Sent::Control, _) => Vec::new(),
            (Sent::Multi | Sent::Quit, RespReply::Simple(told)) if told == b"OK" => Vec::new(),
            (Sent::Queued, RespReply::Simple(told)) if told == b"QUEUED" => Vec::new(),
            (Sent::Exec(key, number), RespReply::List(items)) => {
                return self.executed(*key, *number, items);
            }
            _ => return Err(self.misfit(reply)),
        };
        Ok(told)
    }

    /// Returns what EXEC tells: the length of the text after the append, and the text.
    fn executed(
        &self,
        key: ServerKey,
        number: u64,
        items: &[RespReply],
    ) -> Result<Vec<Noted>, Broken> {
        match items {
            [RespReply::Number(length), RespReply::Text(text)]
                if text.len() as i64 == *length && text.ends_with(&text_of(number)) =>
            {
                let at = Seen::At(*length as u64);
                let read = self.noted(key, None, Seen::Text(text.clone()));
                Ok(vec![self.noted(key, Some(number), at), read])
            }
            _ => Err(self.misfit(&RespReply::List(items.to_vec()))),
        }
    }

    fn misfit(&self, reply: &RespReply) -> Broken {
        Broken {
            law: "an answer is that to its command",
            by: format!("{self:?}: {reply:?}"),
        }
    }

    /// Returns what an error tells. Whatever its name, the command wasn't made, unless the error says that this is
    /// unknown.
    fn refused(&self, why: &[u8]) -> Option<Noted> {
        let (key, number) = self.written()?;
        let seen = match why.starts_with(b"UNKNOWN ") {
            true => Seen::Unknown,
            false => Seen::Refused,
        };
        Some(self.noted(key, Some(number), seen))
    }

    /// Returns that nothing is known of the command, because its connection ended.
    pub fn lost(&self) -> Option<Noted> {
        let (key, number) = self.written()?;
        Some(self.noted(key, Some(number), Seen::Unknown))
    }

    fn noted(&self, key: ServerKey, number: Option<u64>, seen: Seen) -> Noted {
        Noted {
            key,
            number,
            since: self.since,
            seen,
        }
    }

    /// Returns what a read saw, if the reply is one to a read.
    fn seen(&self, key: ServerKey, reply: &RespReply) -> Option<Noted> {
        let seen = match reply {
            RespReply::Text(text) => Seen::Text(text.clone()),
            RespReply::Nothing => Seen::Text(Vec::new()),
            RespReply::Simple(_)
            | RespReply::Error(_)
            | RespReply::Number(_)
            | RespReply::List(_) => return None,
        };
        Some(self.noted(key, None, seen))
    }
}
