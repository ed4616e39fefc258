//! The backend of tests: plain records, without caps or capacities.
use super::backend::{Backend, BackendFault};
use super::controller::Controller;
use super::progress::Doing;
use super::{Asked, Balance, ControlAnswer, ControlHost, Refusal, ReplyTo, Words};
use durkenzo::{ChangeFault, Move, Plan, Record, RestartFault, ServerId, ShardId, Stand};
use durkenzo_driver::{
    Clock, ControlCommand, Intent, Next, Refused, ServerState, ShardLoad, Subject,
};
use durkenzo_store::WriteError;
use std::collections::{BTreeMap, BTreeSet, VecDeque};
use std::sync::mpsc::{channel, Receiver, Sender};
use std::sync::{Arc, Mutex, MutexGuard};
use std::time::{Duration, Instant};

/// Two servers, each of which takes all shards of the other, or several. A test shares the parts that it looks at or
/// breaks.
#[derive(Clone)]
pub(super) struct PlainBackend(Arc<Mutex<Plain>>);

pub(super) struct Plain {
    beginning: Instant,
    /// How much time has passed, as the test sets it.
    pub(super) passed: Duration,
    pub(super) stands: Vec<Stand>,
    /// The number of servers.
    pub(super) servers: u16,
    /// The loads that servers have told.
    pub(super) loads: Vec<(u16, u16, ShardLoad)>,
    pub(super) lasts: bool,
    /// Whether the other server has no room for shards.
    pub(super) is_full: bool,
    /// How often it planned.
    pub(super) plans: usize,
    /// The shards that no change can begin to move.
    pub(super) spent: BTreeSet<u16>,
    /// Why the store doesn't confirm that it keeps the next intents.
    pub(super) unkept: VecDeque<WriteError>,
    /// Why the store doesn't confirm that it withdraws the next intents.
    pub(super) unwithdrawn: VecDeque<WriteError>,
    /// The intents that it keeps.
    pub(super) intents: Vec<Intent>,
    /// Why the next command isn't made.
    pub(super) unmade: Option<Refused>,
    /// The shards that are busy, and for how many tries.
    pub(super) busy: BTreeMap<u16, u32>,
    /// The server whose restart is approved, and waits until its shards are free.
    pub(super) approved: Option<u16>,
    /// The control's notes about servers.
    pub(super) doing: BTreeMap<u16, Doing>,
    /// How fast the control evens out servers, and how many shards it moved for that.
    pub(super) balance: Balance,
    pub(super) balanced: usize,
}

impl PlainBackend {
    /// Makes a backend with so many shards, which all have this stand.
    pub(super) fn of(shards: usize, stand: Stand) -> PlainBackend {
        let plain = Plain {
            stands: vec![stand; shards],
            servers: 2,
            loads: Vec::new(),
            beginning: Clock::default().now(),
            passed: Duration::ZERO,
            lasts: false,
            is_full: false,
            plans: 0,
            spent: BTreeSet::new(),
            unkept: VecDeque::new(),
            unwithdrawn: VecDeque::new(),
            intents: Vec::new(),
            unmade: None,
            busy: BTreeMap::new(),
            approved: None,
            doing: BTreeMap::new(),
            balance: Balance::Off,
            balanced: 0,
        };
        PlainBackend(Arc::new(Mutex::new(plain)))
    }

    /// Returns a control that stands on it.
    pub(super) fn control(&self) -> Controller {
        let this = self.clone();
        let clock = Clock::new(move || this.plain().now());
        let host = QuietHost {
            noting: Some(self.clone()),
        };
        Controller::new(Arc::new(host), Box::new(self.clone()), clock)
    }

    /// Returns the part that tests look at.
    pub(super) fn plain(&self) -> MutexGuard<'_, Plain> {
        self.0.lock().unwrap()
    }
}

impl Plain {
    fn now(&self) -> Instant {
        self.beginning + self.passed
    }

    fn record(&self, shard: u16) -> Option<Record> {
        let stand = *self.stands.get(usize::from(shard))?;
        let (admitted, generation) = (false, 0);
        Some(Record {
            stand,
            admitted,
            generation,
        })
    }

    fn plan(&mut self, server: u16) -> Plan {
        self.plans += 1;
        let wanted = match server {
            0 => Stand::Vacant,
            server => Stand::Serving(server),
        };
        let shards = ShardId::all(self.stands.len()).zip(&self.stands);
        let server = ServerId::new(other(server)).expect("a server");
        let own = shards.filter(|it| *it.1 == wanted).map(|it| it.0);
        Plan {
            moves: own.map(|shard| Move { shard, server }).collect(),
            left: Vec::new(),
        }
    }

    fn change(&mut self, command: ControlCommand) -> Result<(), ChangeFault> {
        let Subject::Shard(shard) = command.subject() else {
            return Ok(());
        };
        let record = self.record(shard).ok_or(ChangeFault::UnknownShard)?;
        if self.spent.contains(&shard) {
            return Err(ChangeFault::Spent(record));
        }
        if let Some(left) = self.busy.get_mut(&shard).filter(|it| **it > 0) {
            *left -= 1;
            return Err(ChangeFault::Busy(record));
        }
        self.stands[usize::from(shard)] = match (command, record.stand) {
            (ControlCommand::Assign(_, owner), Stand::Vacant) => Stand::Serving(owner),
            (ControlCommand::PrepareAddShard(_, next), Stand::Serving(owner)) => {
                Stand::Prepared { owner, next }
            }
            (ControlCommand::PrepareDropShard(_), Stand::Prepared { owner, next }) => {
                Stand::Forwarding { owner, next }
            }
            (ControlCommand::AddShard(_), Stand::Forwarding { owner, next }) => Stand::Taken {
                owner: next,
                previous: owner,
            },
            (ControlCommand::Pause(_), Stand::Serving(owner)) => Stand::Paused(owner),
            (ControlCommand::DropShard(_), Stand::Taken { owner, .. }) => Stand::Serving(owner),
            (
                ControlCommand::Cancel(_),
                Stand::Prepared { owner, .. } | Stand::Forwarding { owner, .. },
            ) => Stand::Serving(owner),
            _ => return Err(ChangeFault::WrongPhase),
        };
        Ok(())
    }
}

/// Returns the server that takes shards of this one.
fn other(server: u16) -> u16 {
    server % 2 + 1
}

impl Backend for PlainBackend {
    fn servers(&self) -> u16 {
        self.plain().servers
    }

    fn shards(&self) -> u16 {
        u16::try_from(self.plain().stands.len()).unwrap()
    }

    fn lasts(&self) -> bool {
        self.plain().lasts
    }

    fn command(&mut self, command: ControlCommand) -> Result<(), BackendFault> {
        let mut plain = self.plain();
        match plain.unmade.take() {
            None => Ok(plain.change(command)?),
            Some(refused) => Err(refused.into()),
        }
    }

    fn next_of_shard(&mut self, shard: u16) -> Result<Next, BackendFault> {
        Ok(match self.plain().record(shard).map(|it| it.stand) {
            Some(Stand::Prepared { .. }) => Next::Command(ControlCommand::PrepareDropShard(shard)),
            Some(Stand::Forwarding { .. }) => Next::Command(ControlCommand::AddShard(shard)),
            Some(Stand::Taken { .. }) => Next::Command(ControlCommand::DropShard(shard)),
            Some(Stand::Vacant | Stand::Serving(_) | Stand::Paused(_)) | None => Next::Nothing,
        })
    }

    fn next_of_server(&mut self, server: u16) -> Result<Next, BackendFault> {
        Ok(match self.plain().approved == Some(server) {
            true => Next::Waits,
            false => Next::Nothing,
        })
    }

    fn next_of_drain(&mut self, server: u16) -> Result<Next, BackendFault> {
        let plan = self.plan(server)?;
        let first = plan.moves.first();
        Ok(match first.map(|it| (it.shard.get(), it.server.get())) {
            None => Next::Nothing,
            Some((shard, _)) if self.plain().is_full => Next::Command(ControlCommand::Pause(shard)),
            // As the proved control: if it would refuse, it waits.
            Some((shard, _)) if self.plain().lasts && self.plain().spent.contains(&shard) => {
                Next::Waits
            }
            Some((shard, to)) if server == 0 => Next::Command(ControlCommand::Assign(shard, to)),
            Some((shard, to)) => Next::Command(ControlCommand::PrepareAddShard(shard, to)),
        })
    }

    fn plan(&mut self, server: u16) -> Result<Plan, BackendFault> {
        Ok(self.plain().plan(server))
    }

    fn record(&mut self, shard: u16) -> Result<Option<Record>, BackendFault> {
        Ok(self.plain().record(shard))
    }

    fn state_of(&mut self, server: u16) -> Result<ServerState, BackendFault> {
        let plain = self.plain();
        if !(1..=plain.servers).contains(&server) {
            return Err(RestartFault::UnknownServer.into());
        }
        Ok(match plain.approved == Some(server) {
            true => ServerState::Approved,
            false => ServerState::Up,
        })
    }

    fn show_state(&mut self, _server: u16, _state: ServerState) {}

    fn loads(&mut self) -> Result<Vec<(u16, u16, ShardLoad)>, BackendFault> {
        Ok(self.plain().loads.clone())
    }

    fn intents(&mut self) -> Result<Vec<Intent>, BackendFault> {
        Ok(self.plain().intents.clone())
    }

    fn intend(&mut self, intents: &[Intent]) -> Result<(), BackendFault> {
        let mut plain = self.plain();
        match plain.unkept.pop_front() {
            None => {
                plain.intents.extend(intents);
                Ok(())
            }
            Some(error) => Err(Refused::Write(error).into()),
        }
    }

    fn withdraw(&mut self, intents: &[Intent]) -> Result<(), BackendFault> {
        let mut plain = self.plain();
        match plain.unwithdrawn.pop_front() {
            None => {
                plain.intents.retain(|it| !intents.contains(it));
                Ok(())
            }
            Some(error) => Err(Refused::from(error).into()),
        }
    }
}

/// A client that asks, and gets the answer.
#[derive(Debug)]
pub(super) struct Teller(Sender<Told>);

pub(super) type Told = Result<ControlAnswer, Refusal>;

impl Teller {
    /// Returns an address for an answer, and its receiver.
    pub(super) fn pair() -> (Box<dyn ReplyTo>, Receiver<Told>) {
        let (tell, told) = channel();
        (Box::new(Teller(tell)), told)
    }
}

impl ReplyTo for Teller {
    fn send(self: Box<Self>, answer: Told) {
        self.0.send(answer).unwrap();
    }

    fn pass_on(self: Box<Self>, _answer: Vec<u8>) {
        unreachable!("there is one process");
    }
}

/// Gives the command to the control in its turn.
pub(super) fn asked(control: &mut Controller, line: &str) -> Receiver<Told> {
    let (reply_to, told) = Teller::pair();
    let words = Words::of(line.split(' '));
    control.turn(Some(Asked { words, reply_to }));
    told
}

/// A host that shows nothing, and has no pause between steps.
#[derive(Default)]
pub(super) struct QuietHost {
    /// The place for its notes about work under way at servers.
    noting: Option<PlainBackend>,
}

impl ControlHost for QuietHost {
    fn is_stopping(&self) -> bool {
        false
    }

    fn pace(&self) -> Duration {
        Duration::ZERO
    }

    fn note_state(&self, _server: u16, _state: ServerState) {}

    fn note_progress(&self, server: u16, doing: Option<Doing>) {
        if let Some(backend) = &self.noting {
            let rows = &mut backend.plain().doing;
            rows.remove(&server);
            rows.extend(doing.map(|it| (server, it)));
        }
    }

    fn note_change(&self, _command: ControlCommand) {}

    fn balance(&self) -> Balance {
        let noting = self.noting.as_ref();
        noting.map_or(Balance::Off, |it| it.plain().balance)
    }

    fn note_balanced(&self) {
        if let Some(backend) = &self.noting {
            backend.plain().balanced += 1;
        }
    }

    fn note_load(&self) {}

    fn shard_line(&self, _shard: u16) -> Option<String> {
        None
    }

    fn shard_lines(&self) -> Vec<String> {
        Vec::new()
    }

    fn server_lines(&self) -> Vec<String> {
        Vec::new()
    }

    fn settings_lines(&self) -> Vec<String> {
        Vec::new()
    }

    fn route_lines(&self) -> Vec<String> {
        Vec::new()
    }

    fn compact(&self, _reply_to: Box<dyn ReplyTo>) {}
}
