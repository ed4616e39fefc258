use crate::chance::Chance;
use crate::{Call, CommandOutcome, History, KeyCommand, KeyRoutes, RespClient, TrialPlan};
use std::thread::sleep;
use std::time::{Duration, Instant};

/// How a client reaches servers.
#[derive(Clone, Copy, Debug, PartialEq, Eq)]
pub enum Way {
    /// It calls the server of its turn, and the next one if that server isn't there.
    Server,
    /// It reads which server owns each shard, and calls the owner.
    Routes,
    /// It numbers its writes, and sends each one again until it is answered.
    Numbers,
    /// It only reads.
    Reads,
}

/// How long a client waits if it found no server, or before it sends a request again.
const PAUSE: Duration = Duration::from_millis(10);

/// How many clients may number their requests.
const MOST_CLIENTS: u64 = 4_096;

/// How long after the end a numbered request is still sent again.
const GRACE: Duration = Duration::from_secs(10);

/// A client that makes calls by chance, and records its requests and their answers.
pub struct Hand<'a> {
    plan: &'a TrialPlan,
    name: u64,
    way: Way,
    chance: Chance,
    client: Option<(String, RespClient)>,
    routes: KeyRoutes,
    /// The turn, which says which server it calls.
    turn: u64,
    /// How many numbered requests it made.
    numbered: u64,
    history: History,
}

impl<'a> Hand<'a> {
    /// Returns a client with a name of its own, which calls the server of this turn.
    pub fn new(plan: &'a TrialPlan, name: u64, way: Way, turn: u64) -> Hand<'a> {
        Hand {
            plan,
            name,
            way,
            chance: Chance::new(plan.seed, name),
            client: None,
            routes: KeyRoutes::default(),
            turn,
            numbered: 0,
            history: History::default(),
        }
    }

    /// Makes calls one after another until the end, and returns their record.
    pub fn work(mut self) -> History {
        for number in 0.. {
            if Instant::now() >= self.plan.end {
                break;
            }
            let (key, input) = self.next(number);
            let began = self.plan.moment();
            let told = match self.way {
                Way::Numbers if input.may_be_numbered() => self.numbered(&key, &input),
                _ => self.call(&key, &input, &input.words(&key)),
            };
            let ended = self.plan.moment();
            self.record(key, input, began, ended, told);
        }
        self.history
    }

    /// Returns a key and a command by chance. No other call writes the same text.
    fn next(&mut self, number: u64) -> (String, KeyCommand) {
        if self.way == Way::Numbers && self.chance.below(4) == 0 {
            return (self.plan.count(self.name), KeyCommand::Incr);
        }
        let key = self.plan.key(self.chance.below(self.plan.keys));
        if self.way == Way::Reads {
            return (key, KeyCommand::Get);
        }
        let input = match self.chance.below(8) {
            0 => KeyCommand::Set(format!("{}.{number}.", self.name)),
            1 if self.plan.epoch.is_none() || self.chance.below(4) == 0 => {
                KeyCommand::Append(format!("+{}.{number}", self.name))
            }
            2 => KeyCommand::Set(number.to_string()),
            3 | 4 => KeyCommand::Incr,
            5 if self.chance.below(4) == 0 => KeyCommand::Del,
            _ => KeyCommand::Get,
        };
        (key, input)
    }

    /// Sends a request under a number, until it is answered or it is too late.
    fn numbered(&mut self, key: &str, input: &KeyCommand) -> CommandOutcome {
        self.numbered += 1;
        let (client, number) = (self.client_number(), self.numbered.to_string());
        let words: Vec<_> = ["SM", "CALL", &client, &number]
            .into_iter()
            .chain(input.words(key))
            .collect();
        loop {
            let told = self.call(key, input, &words);
            let why: &str = match &told {
                CommandOutcome::Refused(it) if !is_final(it) => it,
                CommandOutcome::NotSent => "nobody is there",
                CommandOutcome::Unknown => "no answer",
                CommandOutcome::Answer(_)
                | CommandOutcome::Refused(_)
                | CommandOutcome::Garbled(_) => return told,
            };
            if Instant::now() > self.plan.end + GRACE {
                return CommandOutcome::Unknown;
            }
            self.history.send_again(why);
            self.turn += 1;
            sleep(PAUSE);
        }
    }

    /// Returns the number of this client among those that number their requests.
    fn client_number(&self) -> String {
        (self.name % MOST_CLIENTS + 1).to_string()
    }

    /// Sends a command to the server at which its key must be called.
    fn call(&mut self, key: &str, input: &KeyCommand, words: &[&str]) -> CommandOutcome {
        let address = match self.way {
            Way::Routes => self.routes.address(self.plan, key, self.turn),
            _ => self.plan.address(self.turn).to_owned(),
        };
        let kept = self.client.take().filter(|(at, _)| *at == address);
        let connect = || RespClient::connect(address.as_str(), self.plan.patience).ok();
        let Some(mut client) = kept.map(|(_, it)| it).or_else(connect) else {
            self.pass_over();
            return CommandOutcome::NotSent;
        };
        let reply = client.call(words);
        let is_reply = reply.is_ok();
        let told = CommandOutcome::of(input, reply);
        // After a garbled reply, nobody knows which request the next replies answer.
        match is_reply && !matches!(told, CommandOutcome::Garbled(_)) {
            true => self.client = Some((address, client)),
            false => self.pass_over(),
        }
        told
    }

    /// Makes the next call go to another server.
    fn pass_over(&mut self) {
        sleep(PAUSE);
        self.turn += 1;
        self.routes.forget();
    }

    fn record(
        &mut self,
        key: String,
        input: KeyCommand,
        began: u64,
        ended: u64,
        told: CommandOutcome,
    ) {
        if let CommandOutcome::Garbled(came) = &told {
            let asked = input.words(&key).join(" ");
            self.history.garbled.note(&asked, came);
        }
        let output = match told {
            CommandOutcome::NotSent => return,
            CommandOutcome::Refused(why) => return self.history.refuse(&why),
            CommandOutcome::Answer(answer) => Some(answer),
            CommandOutcome::Garbled(_) | CommandOutcome::Unknown if input == KeyCommand::Get => {
                return
            }
            CommandOutcome::Garbled(_) | CommandOutcome::Unknown => {
                self.plan.note_open(&key);
                None
            }
        };
        let call = Call {
            input,
            output,
            began,
            ended,
        };
        self.history.record(key, call);
    }
}

/// Returns whether a numbered request that was refused in this way may not be sent again.
fn is_final(refusal: &str) -> bool {
    refusal.starts_with("ERR") || refusal.starts_with("WRONGTYPE")
}
