use super::client_line::SharedLine;
use super::expected::{text_of, Expected, Sent};
use super::history::History;
use super::resp_reply::RespReply;
use super::server_keys::ServerKeys;
use crate::chance::Chance;
use crate::law::Broken;
use crate::mail::Sender;
use std::collections::VecDeque;
use std::time::Duration;

/// The most commands that a client sends at once, and the most that it has sent and that aren't answered.
const PIPELINE: u64 = 8;
const MOST_OPEN: usize = 48;
/// The lengths of the texts that a client has a process echo, beside their numbers.
const ECHOED: [usize; 8] = [0, 0, 0, 0, 1, 200, 5_000, 70_000];

/// A client that speaks RESP in pipelines.
#[derive(Default)]
pub struct RespClient {
    /// The process to which it is connected, and the line.
    line: Option<(Sender, SharedLine)>,
    /// The number of its connection.
    connection: u64,
    expected: VecDeque<Expected>,
    input: Vec<u8>,
    /// It reads nothing before this time.
    pub stalls_until: Duration,
    /// Whether the process may end the connection before it has answered everything.
    is_excused: bool,
}

impl RespClient {
    /// Returns the process and the line, if it is connected.
    pub fn line(&self) -> Option<&(Sender, SharedLine)> {
        self.line.as_ref()
    }

    /// Connects to this process.
    pub fn connect(&mut self, process: Sender, line: SharedLine, connection: u64) {
        self.line = Some((process, line));
        self.connection = connection;
        self.is_excused = false;
    }

    /// Returns whether each command that it has sent is answered.
    pub fn is_told(&self) -> bool {
        self.expected.is_empty()
    }

    /// Returns the commands that aren't answered.
    pub fn open(&self) -> &VecDeque<Expected> {
        &self.expected
    }

    /// Sends random commands. `step` is the present step, and `number` the last unique number.
    pub fn send_some(
        &mut self,
        chance: &mut Chance,
        keys: &ServerKeys,
        (step, number): (u64, &mut u64),
    ) {
        let Some((_, line)) = self.line.clone() else {
            return;
        };
        if self.expected.len() >= MOST_OPEN || line.line().has_client_ended() {
            return;
        }
        for _ in 0..1 + chance.below(PIPELINE) {
            *number += 1;
            let (sent, bytes) = some_commands(chance, keys, *number);
            line.line().send(&bytes);
            let expected = sent.into_iter().map(|sent| Expected { sent, since: step });
            self.expected.extend(expected);
        }
        let ends = chance.is_true(1, 40);
        if ends && chance.is_true(1, 2) {
            line.line().send(b"QUIT\r\n");
            let (sent, since) = (Sent::Quit, step);
            self.expected.push_back(Expected { sent, since });
        }
        if ends {
            self.end();
        }
    }

    /// Sends this command with these words at this step. Returns whether it could.
    pub fn send(&mut self, sent: Sent, words: &[String], step: u64) -> bool {
        let Some((_, line)) = self.line.clone() else {
            return false;
        };
        if self.expected.len() >= MOST_OPEN || line.line().has_client_ended() {
            return false;
        }
        line.line().send(&spelled(words));
        let since = step;
        self.expected.push_back(Expected { sent, since });
        true
    }

    /// Sends no more. The answers are still read.
    pub fn end(&mut self) {
        if let Some((_, line)) = &self.line {
            line.line().end_client();
            self.is_excused = true;
        }
    }

    /// Cuts the connection, whatever is under way.
    pub fn cut(&mut self) {
        if let Some((_, line)) = &self.line {
            line.line().reset();
            self.is_excused = true;
        }
    }

    /// Reads at most this many bytes of answers, and notes what they tell at this step. If the connection is over,
    /// forgets it. `has_ended` says whether the process has ended. Returns whether anything happened.
    ///
    /// # Errors
    ///
    /// The law that is broken.
    pub fn read(
        &mut self,
        most: usize,
        history: &mut History,
        (step, has_ended): (u64, bool),
    ) -> Result<bool, Broken> {
        let Some((_, line)) = self.line.clone() else {
            return Ok(false);
        };
        let read = line.line().read_answers(most);
        self.input.extend(&read);
        self.take_replies(history, step)?;
        if !line.line().is_over() {
            return Ok(!read.is_empty());
        }
        self.is_excused |= has_ended;
        let lost: Vec<_> = self.expected.drain(..).collect();
        let notes = lost.iter().filter_map(Expected::lost);
        notes.for_each(|it| history.note(self.connection, None, it));
        let is_excused = self.is_excused;
        *self = RespClient::default();
        match is_excused {
            true => Ok(true),
            false => Err(Broken {
                law: "a connection ends only with its client or its process",
                by: format!("{lost:?}"),
            }),
        }
    }

    fn take_replies(&mut self, history: &mut History, step: u64) -> Result<(), Broken> {
        let mut at = 0;
        loop {
            let read = RespReply::read(&self.input[at..]);
            let read = read.map_err(|by| Broken {
                law: "answers can be read",
                by,
            });
            let Some((reply, length)) = read? else {
                break;
            };
            at += length;
            let Some(expected) = self.expected.pop_front() else {
                return Err(Broken {
                    law: "each command is answered once",
                    by: format!("{reply:?}"),
                });
            };
            let told = expected.told(&reply)?;
            let told = told.into_iter();
            told.for_each(|it| history.note(self.connection, Some(step), it));
        }
        self.input.drain(..at);
        Ok(())
    }
}

/// Returns a random command, or the commands of a transaction, with its bytes. `number` is unique.
fn some_commands(chance: &mut Chance, keys: &ServerKeys, number: u64) -> (Vec<Sent>, Vec<u8>) {
    let text = String::from_utf8_lossy(&text_of(number)).into_owned();
    let (key, count) = (keys.drawn(chance, true), keys.drawn(chance, false));
    let [name, count_name] = [key, count].map(|it| keys.name(it));
    let (sent, words) = match chance.below(16) {
        0..=3 => (
            Sent::Append(key, number),
            vec!["APPEND".to_owned(), name, text],
        ),
        4..=6 => (
            Sent::Add(count, number),
            vec!["INCRBY".to_owned(), count_name, number.to_string()],
        ),
        7 | 8 => (Sent::Get(key), vec!["GET".to_owned(), name]),
        9 | 10 => (Sent::Get(count), vec!["GET".to_owned(), count_name]),
        11 if key.shard != count.shard => (
            Sent::GetBoth([key, count]),
            vec!["MGET".to_owned(), name, count_name],
        ),
        11 | 12 => return transaction(&name, (Sent::Exec(key, number), text)),
        13 if chance.is_true(1, 4) => (Sent::Control, vec!["SM".to_owned(), "SHARDS".to_owned()]),
        _ => {
            let length = ECHOED[chance.below(ECHOED.len() as u64) as usize];
            let echoed = text + &"x".repeat(length);
            let sent = Sent::Echo(echoed.clone().into_bytes());
            (sent, vec!["ECHO".to_owned(), echoed])
        }
    };
    let bytes = match chance.is_true(1, 8) && words.iter().all(|it| it.len() < 999) {
        true => format!("{}\r\n", words.join(" ")).into_bytes(),
        false => spelled(&words),
    };
    (vec![sent], bytes)
}

/// Returns a transaction that appends this text to the key of this name, and reads the key.
fn transaction(name: &str, (exec, text): (Sent, String)) -> (Vec<Sent>, Vec<u8>) {
    let lines = [
        &["MULTI"][..],
        &["APPEND", name, &text],
        &["GET", name],
        &["EXEC"],
    ];
    let lines = lines.map(|it| it.iter().map(|it| (*it).to_owned()).collect::<Vec<_>>());
    let bytes = lines.iter().flat_map(|it| spelled(it)).collect();
    (vec![Sent::Multi, Sent::Queued, Sent::Queued, exec], bytes)
}

/// Returns the bytes of a command with these words.
fn spelled(words: &[String]) -> Vec<u8> {
    let words_of = words.iter().map(|it| format!("${}\r\n{it}\r\n", it.len()));
    let all: String = words_of.collect();
    format!("*{}\r\n{all}", words.len()).into_bytes()
}
