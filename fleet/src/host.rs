//! The control of this process. Either it leads, or it passes commands on to the process that leads.
use crate::commands::{Reply, Told, REFUSED};
use crate::environment::NotAnswered;
use crate::fleet_inner::FleetInner;
use crate::frame::{spelled, Request, Response};
use crate::settings::line;
use crate::threads::{block_on, spawn, Threads};
use crate::{JoinError, Service};
use durkenzo_control::control::{
    is_decided, Again, Asked, Balance, Campaigner, ControlAnswer, ControlHost, Doing,
    OtherControls, Refusal, ReplyTo, Words,
};
use durkenzo_driver::{ControlCommand, Durable, Member, ServerState};
use std::sync::atomic::{AtomicBool, Ordering};
use std::sync::mpsc::channel;
use std::sync::{Arc, PoisonError};
use std::time::Duration;
use tokio::sync::oneshot;

/// The longest time for a command at the process that leads. A drain of many shards takes long.
const COMMAND: Duration = Duration::from_secs(600);

/// This process and the other ones, as its control sees them.
struct Host {
    durable: Arc<Durable>,
    member: Arc<Member>,
    threads: Arc<Threads>,
    stopping: Arc<AtomicBool>,
    settings: String,
    balance: Balance,
}

/// Begins the control.
pub(crate) fn begin<S: Service>(
    fleet: &Arc<FleetInner<S>>,
    threads: &Arc<Threads>,
) -> Result<(), JoinError> {
    let (tell, asked) = channel();
    *fleet.control.lock().unwrap_or_else(PoisonError::into_inner) = Some(tell);
    let host = Arc::new(Host {
        durable: fleet.durable.clone(),
        member: fleet.member.clone(),
        threads: threads.clone(),
        stopping: fleet.stopping.clone(),
        settings: fleet.settings.clone(),
        balance: fleet.options.balance,
    });
    let line = line(&fleet.settings).to_owned();
    let campaigner = Campaigner::new(host.clone(), fleet.durable.clone(), host, line, true);
    spawn("control".to_owned(), move || campaigner.run(asked))
}

impl ControlHost for Host {
    fn is_stopping(&self) -> bool {
        self.stopping.load(Ordering::Acquire)
    }

    fn pace(&self) -> Duration {
        Duration::ZERO
    }

    fn note_state(&self, server: u16, state: ServerState) {
        tracing::info!(server, standing = state.name(), "server");
    }

    fn note_progress(&self, server: u16, doing: Option<Doing>) {
        if let Some(doing) = doing {
            tracing::debug!(server, %doing, "progress");
        }
    }

    fn note_change(&self, _: ControlCommand) {}

    fn note_load(&self) {}

    fn balance(&self) -> Balance {
        self.balance
    }

    fn shard_line(&self, shard: u16) -> Option<String> {
        let record = self.durable.standing(shard)?.record()?;
        let number = |it: Option<u16>| it.map_or("-".to_owned(), |it| it.to_string());
        let (owner, other) = (number(record.owner()), number(record.other()));
        Some(format!(
            "{shard} {} {owner} {other} {}",
            record.stand.name(),
            record.generation
        ))
    }

    fn shard_lines(&self) -> Vec<String> {
        let shards = (0..self.durable.shards()).filter_map(|it| self.shard_line(it));
        std::iter::once("shard stand owner other generation".to_owned())
            .chain(shards)
            .collect()
    }

    fn server_lines(&self) -> Vec<String> {
        let members = self.member.members();
        let leader = self.member.leader();
        let rows = members.iter().map(|(server, live)| {
            let leads = if leader == Some(live.process) {
                "leads"
            } else {
                "-"
            };
            let away = if self.durable.is_away(*server) {
                "away"
            } else {
                "up"
            };
            format!("{server} {away} {leads} {}", live.addresses.servers)
        });
        std::iter::once("server stands leads address".to_owned())
            .chain(rows)
            .collect()
    }

    fn follows_settings(&self) -> bool {
        true
    }

    fn serves_texts(&self) -> bool {
        false
    }

    fn settings_lines(&self) -> Vec<String> {
        let rule = self.settings.lines().next().unwrap_or_default();
        let (server, shards) = (self.member.server(), self.durable.shards());
        vec![
            format!("server {server} leads"),
            format!("shards {shards}"),
            format!("keys by {rule}"),
        ]
    }

    fn route_lines(&self) -> Vec<String> {
        self.shard_lines()
    }

    fn compact(&self, reply_to: Box<dyn ReplyTo>) {
        // A fleet hasn't the word, because it writes no logs that could be compacted.
        reply_to.send(Ok(ControlAnswer::Done));
    }
}

impl OtherControls for Host {
    fn member(&self) -> &Member {
        &self.member
    }

    fn leader(&self) -> Option<u16> {
        let (leader, members) = (self.member.leader()?, self.member.members());
        let found = members.iter().find(|it| it.1.process == leader);
        found.map(|it| *it.0)
    }

    fn ask(&self, server: u16, asked: Asked, again: Option<Again>) {
        let members = self.member.members();
        let address = members.get(&server).map(|it| it.addresses.servers.clone());
        let threads = self.threads.clone();
        let pass_on = move || pass_on(&threads, address.as_deref(), asked, again);
        // If there is no thread, the command is dropped. That tells the caller that nobody answers.
        if let Err(error) = spawn("command".to_owned(), pass_on) {
            tracing::warn!(%error, "a command isn't passed on");
        }
    }

    fn ask_to_be_back(&self, leader: u16, tell: Box<dyn FnOnce(bool) + Send>) {
        let (answer, told) = oneshot::channel();
        let asked = Asked {
            words: Words::of(["SM", "BACK", &self.member.server().to_string()]),
            reply_to: Box::new(Reply {
                tell: answer,
                is_passed_on: false,
            }),
        };
        self.ask(leader, asked, None);
        let decided = move || {
            let is_decided = match block_on(told) {
                Ok(Told::Answer(answer)) => is_decided(&answer),
                Ok(Told::NotHere) | Err(_) => false,
            };
            tell(is_decided);
        };
        if let Err(error) = spawn("back".to_owned(), decided) {
            tracing::warn!(%error, "nobody waits for this server to be up");
        }
    }
}

/// Gives the command to the control of the process at this address. If nothing was done there, the command waits again,
/// if it may.
fn pass_on(threads: &Threads, address: Option<&str>, asked: Asked, again: Option<Again>) {
    let words = spelled(asked.words.iter().map(|it| &**it));
    let request = Request::Command {
        is_passed_on: true,
        words: &words,
    };
    let response = address.map(|it| threads.connections().ask(it, &request, COMMAND));
    let lost = |asked: Asked, why: String| {
        let text = format!("{REFUSED}UNKNOWN {why}: look before you try again");
        asked.reply_to.pass_on(text.into_bytes());
    };
    match response {
        Some(Ok(bytes)) => match Response::read(&bytes) {
            Ok(Response::Text(answer)) => asked.reply_to.pass_on(answer.to_vec()),
            Ok(Response::Again(_)) => give_back(asked, again),
            Ok(Response::Unsure(why)) => lost(asked, why.to_owned()),
            _ => lost(asked, "it answers something else".to_owned()),
        },
        Some(Err(error @ NotAnswered::Lost(..))) => lost(asked, error.to_string()),
        Some(Err(NotAnswered::Unreached(..))) | None => give_back(asked, again),
    }
}

fn give_back(asked: Asked, again: Option<Again>) {
    let held = match again {
        Some(again) => again.hold(asked),
        None => Err(asked),
    };
    if let Err(asked) = held {
        asked.refuse(Refusal::no_leader());
    }
}
