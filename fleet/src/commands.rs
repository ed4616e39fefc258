//! Commands for the control, from this process, from clients, and from other processes.
use crate::environment::before;
use crate::fleet_inner::FleetInner;
use crate::frame::{self, Response};
use crate::Service;
use durkenzo_control::control::{Asked, ControlAnswer, Refusal, ReplyTo, Words};
use std::sync::PoisonError;
use std::time::Duration;
use tokio::sync::oneshot::{self, Receiver, Sender};

/// How often this process looks whether it is leaving, while it waits for a command.
const LOOK: Duration = Duration::from_millis(100);
/// The first character of an answer that is a refusal.
pub(crate) const REFUSED: char = '-';

/// The outcome of a command.
#[derive(Debug)]
pub(crate) enum Told {
    /// The control has answered this.
    Answer(Vec<u8>),
    /// Nothing was done here, because another process leads.
    NotHere,
}

/// Takes the answer to a command.
#[derive(Debug)]
pub(crate) struct Reply {
    pub(crate) tell: Sender<Told>,
    /// Whether another server passed the command on.
    pub(crate) is_passed_on: bool,
}

impl ReplyTo for Reply {
    fn send(self: Box<Self>, answer: Result<ControlAnswer, Refusal>) {
        let text = match answer {
            Ok(ControlAnswer::Done) => String::new(),
            Ok(ControlAnswer::Line(line)) => line,
            Ok(ControlAnswer::Lines(lines)) => lines.join("\n"),
            Err(refusal) => format!("{REFUSED}{refusal}"),
        };
        self.pass_on(text.into_bytes());
    }

    fn asks_elsewhere(&self) -> bool {
        self.is_passed_on
    }

    fn give_back(self: Box<Self>) {
        // Perhaps nobody waits any more.
        let _ = self.tell.send(Told::NotHere);
    }

    fn pass_on(self: Box<Self>, answer: Vec<u8>) {
        let _ = self.tell.send(Told::Answer(answer));
    }
}

impl<S: Service> FleetInner<S> {
    /// Gives the control the command, and returns the receiver of its answer.
    fn ask(&self, words: Words, is_passed_on: bool) -> Option<Receiver<Told>> {
        let (tell, told) = oneshot::channel();
        let reply_to = Box::new(Reply { tell, is_passed_on });
        let control = self.control.lock().unwrap_or_else(PoisonError::into_inner);
        let sent = control.as_ref()?.send(Asked { words, reply_to });
        sent.ok().map(|()| told)
    }

    /// Waits for the answer, for as long as this process stays.
    async fn wait_for(&self, mut told: Receiver<Told>) -> Option<Told> {
        loop {
            let soon = self.environment.end_of(LOOK);
            let came = before(&mut told, self.environment.wait_until(soon)).await;
            match came {
                Some(told) => return told.ok(),
                None if self.is_stopping() => return None,
                None => {}
            }
        }
    }

    pub(crate) async fn command(&self, words: &[&str]) -> Result<Vec<String>, String> {
        let told = match self.ask(Words::of(with_sm(words)), false) {
            Some(told) => self.wait_for(told).await,
            None => None,
        };
        match told {
            Some(Told::Answer(answer)) => lines(words, &answer),
            Some(Told::NotHere) | None => {
                Err("this process leaves: look before you try again".to_owned())
            }
        }
    }

    /// Makes the control answer the words of a frame.
    pub(crate) async fn answer_command(&self, bytes: &[u8], is_passed_on: bool, out: &mut Vec<u8>) {
        let words = match frame::words(bytes) {
            Ok(words) => Words::of(words),
            Err(error) => return Response::Again(&error.to_string()).write(out),
        };
        let told = match self.ask(words, is_passed_on) {
            Some(told) => self.wait_for(told).await,
            None => return Response::Again("this process leaves").write(out),
        };
        match told {
            Some(Told::Answer(answer)) => Response::Text(&answer).write(out),
            Some(Told::NotHere) => Response::Again("another process leads").write(out),
            None => Response::Unsure("this process leaves").write(out),
        }
    }

    /// Returns the settings of the fleet in two lines, and a line for each shard that has an owner with a known
    /// address: the number of the shard, the revision of its record, the owner, and the owner's address.
    pub(crate) fn routes(&self) -> String {
        let mut text = format!("{}\n", self.settings);
        for (shard, place) in self.places.iter().enumerate() {
            let (record, stood) = {
                let known = place.known();
                (known.record(), known.stood)
            };
            let at = record
                .owner()
                .and_then(|it| Some((it, self.address_of(it)?)));
            if let Some((owner, address)) = at {
                text.push_str(&format!("{shard} {stood} {owner} {address}\n"));
            }
        }
        text
    }
}

/// Returns the command with SM before it, because the control needs that word even if the caller left it out.
pub(crate) fn with_sm<'a>(words: &'a [&'a str]) -> impl Iterator<Item = &'a str> {
    std::iter::once("SM").chain(bare(words).iter().copied())
}

/// Returns the command without SM, if SM is before it.
fn bare<'a, 'b>(words: &'a [&'b str]) -> &'a [&'b str] {
    match words {
        [sm, command @ ..] if sm.eq_ignore_ascii_case("SM") => command,
        command => command,
    }
}

/// Returns the lines of the answer to this command, or its refusal. After a resize, the answer is the number of
/// servers.
pub(crate) fn lines(words: &[&str], answer: &[u8]) -> Result<Vec<String>, String> {
    let text = String::from_utf8_lossy(answer);
    if let Some(refusal) = text.strip_prefix(REFUSED) {
        return Err(refusal.to_owned());
    }
    match bare(words) {
        [word, servers] if word.eq_ignore_ascii_case("RESIZE") => {
            Ok(vec![format!("servers {servers}")])
        }
        _ => Ok(text.lines().map(str::to_owned).collect()),
    }
}
