use super::join::Join;
use crate::io::{Caller, ReplyAddress};
use crate::resp::{Protocol, Replies};
use std::sync::{Arc, Mutex, PoisonError};

/// The answer of another process is replaced by this one if there is no memory for it.
const NO_ROOM: &str = "UNKNOWN memory was refused for the answer: read before you try again";

/// Gathers the parts of a connection's next answer. The answer is sent once all parts are there.
pub(super) struct Answers {
    protocol: Protocol,
    commands: u64,
    join: Join,
    caller: Caller,
    state: Mutex<AnswersState>,
}

struct AnswersState {
    parts: Vec<Option<Replies>>,
    left: usize,
    /// How many bytes the parts have so far.
    size: usize,
    /// The address of the answer, until it is sent.
    reply_to: Option<ReplyAddress>,
}

impl AnswersState {
    /// Takes the part at this place. If the parts have more than `most` bytes in all, it keeps only their refusals.
    fn take(&mut self, place: usize, part: Replies, most: usize) {
        self.left -= 1;
        self.size += part.unsent().len();
        self.parts[place] = Some(part);
        if self.size > most {
            for it in &mut self.parts {
                it.take_if(|it| it.error_count() == 0);
            }
        }
    }
}

impl Answers {
    /// Makes the answer to so many commands, with so many parts.
    pub(super) fn new(
        parts: usize,
        commands: u64,
        protocol: Protocol,
        join: Join,
        reply_to: ReplyAddress,
    ) -> Arc<Answers> {
        let caller = reply_to.caller();
        let state = AnswersState {
            parts: (0..parts).map(|_| None).collect(),
            left: parts,
            size: 0,
            reply_to: Some(reply_to),
        };
        Arc::new(Answers {
            protocol,
            commands,
            join,
            caller,
            state: Mutex::new(state),
        })
    }

    /// Returns who waits for the answer.
    pub(super) fn caller(&self) -> &Caller {
        &self.caller
    }

    /// Returns an empty part, in the client's version of the protocol.
    pub(super) fn part(&self) -> Replies {
        Replies::new(self.protocol)
    }

    /// Adds the part at this place, once, as another process has written it.
    pub(super) fn bring_bytes(&self, place: usize, answer: &[u8]) {
        let mut part = self.part();
        part.append_told(answer);
        if part.are_whole().is_err() {
            part.take_back(0);
            part.error(NO_ROOM);
        }
        self.bring(place, part);
    }

    /// Adds the part at this place, once.
    pub(super) fn bring(&self, place: usize, part: Replies) {
        let mut state = self.state.lock().unwrap_or_else(PoisonError::into_inner);
        state.take(place, part, self.join.most());
        if state.left > 0 {
            return;
        }
        let parts = std::mem::take(&mut state.parts);
        let reply_to = state.reply_to.take();
        drop(state);
        if let Some(reply_to) = reply_to {
            let mut answer = self.join.answer(parts, self.part());
            if let Some(errors) = answer.take_errors() {
                reply_to.note_errors(errors);
            }
            reply_to.send_of(answer.into_bytes(), self.commands);
        }
    }
}

#[cfg(test)]
mod tests {
    use super::*;
    use crate::body::MAX_TEXT;
    use crate::command::spec::Effect;
    use crate::command::split::Combine;
    use crate::resp::MAX_REPLY;
    use std::sync::mpsc::channel;

    /// Adds texts of these lengths, the last one first. Returns the answer, and the most bytes that were held.
    fn told(join: Join, lengths: &[usize]) -> (Vec<u8>, usize) {
        let (tell, told) = channel();
        let reply_to = ReplyAddress::process(move |bytes| tell.send(bytes).unwrap());
        let (count, mut most) = (lengths.len(), 0);
        let answers = Answers::new(count, 1, Protocol::Two, join, reply_to);
        for (place, length) in lengths.iter().enumerate().rev() {
            let mut part = answers.part();
            part.bulk(&vec![b'x'; *length]);
            answers.bring(place, part);
            let state = answers.state.lock().unwrap();
            let held: usize = state
                .parts
                .iter()
                .flatten()
                .map(|it| it.unsent().len())
                .sum();
            most = held.max(most);
        }
        (told.recv().unwrap(), most)
    }

    #[test]
    fn parts_of_one_reply_have_its_bound() {
        let join = Join::Each(Combine::Values, Effect::Reads);
        // As a part of the reply, each text has 10 bytes more.
        let mut lengths = vec![MAX_TEXT; 128];
        lengths[127] = MAX_REPLY - b"*128\r\n".len() - 127 * (MAX_TEXT + 10) - 10;
        let (answer, _) = told(join, &lengths);
        assert!(answer.len() == MAX_REPLY && answer.starts_with(b"*128\r\n$65535\r\nxx"));
        let refused = b"-TOOLARGE a reply has at most 8388608 bytes\r\n";
        lengths[127] += 1;
        assert_eq!(told(join, &lengths).0, refused);
        let (answer, held) = told(join, &[MAX_TEXT; 1_023]);
        assert_eq!(answer, refused);
        assert!(held < MAX_REPLY + MAX_TEXT, "{held}");
    }

    /// Returns the answer to a command with a key for each of these parts, up to its advice.
    fn told_of((joined, effect): (Combine, Effect), parts: &[&str]) -> String {
        let (tell, told) = channel();
        let reply_to = ReplyAddress::process(move |bytes| tell.send(bytes).unwrap());
        let join = Join::Each(joined, effect);
        let answers = Answers::new(parts.len(), 1, Protocol::Two, join, reply_to);
        for (place, part) in parts.iter().enumerate() {
            answers.bring_bytes(place, format!("{part}\r\n").as_bytes());
        }
        let text = String::from_utf8(told.recv().unwrap()).unwrap();
        text.split([':', '\r']).next().unwrap().to_owned()
    }

    #[test]
    fn a_refusal_of_one_key_hides_no_write_of_another() {
        let in_part = "-UNKNOWN some of these keys are written, or may be, and others aren't";
        let mset = (Combine::Ok, Effect::Grows);
        let del = (Combine::Sum, Effect::Frees);
        let mget = (Combine::Values, Effect::Reads);
        let exists = (Combine::Sum, Effect::Reads);
        for (word, parts, answer) in [
            (mset, &["+OK", "-STOREDOWN a"][..], in_part),
            (mset, &["-STOREDOWN a", "-UNKNOWN b"], in_part),
            (del, &[":0", "-PEERDOWN a", ":1"], in_part),
            (del, &["-UNKNOWN a", "-UNKNOWN b"], in_part),
            (mset, &["-SHARDPAUSED a", "-STOREDOWN b"], "-SHARDPAUSED a"),
            (mget, &["$1\r\n1", "-STOREDOWN a"], "-STOREDOWN a"),
            (exists, &[":1", "-SHARDPAUSED a"], "-SHARDPAUSED a"),
        ] {
            assert_eq!(told_of(word, parts), answer, "{parts:?}");
        }
    }

    #[test]
    fn answers_to_several_commands_are_all_told() {
        let (answer, _) = told(Join::InOrder, &[MAX_TEXT; 200]);
        assert_eq!(answer.len(), 200 * (MAX_TEXT + 10));
    }
}
