use super::client_line::SharedLine;
use super::expected::Sent;
use super::history::History;
use super::resp_client::RespClient;
use super::server_keys::ServerKeys;
use crate::chance::Chance;
use crate::fault::Fault;
use crate::faults::Faults;
use crate::law::Broken;
use crate::mail::Sender;
use crate::reading::Replied;
use crate::timeline::Column;
use std::time::Duration;

/// How many clients there are.
const CLIENTS: usize = 4;
/// How many bytes arrive or are read at once, at most. In one of four cases that is everything that is there.
const PIECE: u64 = 300;
/// How many lines move at once, at most.
const MOVES: u64 = 8;
/// A client reads nothing for less than this, in milliseconds.
const STALLED: u64 = 2_000;

/// The clients of a schedule that speak RESP, and all that they were told.
pub struct RespClients {
    pub keys: ServerKeys,
    chance: Chance,
    clients: Vec<RespClient>,
    history: History,
    /// The number of the present step. Commands and answers have different ones.
    step: u64,
    /// The number of the last command, and of the last connection.
    number: u64,
    connection: u64,
}

impl RespClients {
    /// Returns clients that aren't connected.
    pub fn new(keys: ServerKeys, chance: Chance) -> RespClients {
        RespClients {
            keys,
            chance,
            clients: (0..CLIENTS).map(|_| RespClient::default()).collect(),
            history: History::default(),
            step: 0,
            number: 0,
            connection: 0,
        }
    }

    /// Draws a client. If it is connected, it sends commands. Otherwise returns its place, because it wants to connect.
    pub fn ask(&mut self) -> Option<usize> {
        let at = self.chance.below(CLIENTS as u64) as usize;
        self.step += 1;
        if self.clients[at].line().is_none() {
            return Some(at);
        }
        let numbers = (self.step, &mut self.number);
        self.clients[at].send_some(&mut self.chance, &self.keys, numbers);
        None
    }

    /// Draws a client. If it is connected, it sends this command of an operator. Returns whether it did.
    pub fn operate(&mut self, words: &[String]) -> bool {
        let at = self.chance.below(CLIENTS as u64) as usize;
        self.step += 1;
        self.clients[at].send(Sent::Control, words, self.step)
    }

    /// Draws one of so many things to which a client connects.
    pub fn draw(&mut self, count: usize) -> usize {
        self.chance.below(count as u64) as usize
    }

    /// Connects the client at this place to a process. Returns the line, which the process must accept.
    pub fn connect(&mut self, at: usize, process: Sender) -> SharedLine {
        self.connection += 1;
        let line = SharedLine::new(self.chance.drawn());
        self.clients[at].connect(process, line.clone(), self.connection);
        line
    }

    /// Lets the client at this place read at most so many bytes. `has_ended` tells of a process, by its life, whether
    /// it may end connections.
    fn read(
        &mut self,
        at: usize,
        most: usize,
        has_ended: &dyn Fn(u64) -> bool,
    ) -> Result<bool, Broken> {
        self.step += 1;
        let client = &mut self.clients[at];
        let has_ended = client.line().is_some_and(|it| has_ended(it.0.life));
        client.read(most, &mut self.history, (self.step, has_ended))
    }

    /// Moves some bytes between clients and processes. Sometimes something fails there.
    ///
    /// # Errors
    ///
    /// The law that an answer breaks.
    pub fn move_some(
        &mut self,
        faults: &Faults,
        now: Duration,
        has_ended: &dyn Fn(u64) -> bool,
    ) -> Result<(), Broken> {
        for _ in 0..1 + self.chance.below(MOVES) {
            let at = self.chance.below(CLIENTS as u64) as usize;
            let most = match self.chance.is_true(1, 4) {
                true => usize::MAX,
                false => 1 + self.chance.below(PIECE) as usize,
            };
            harm(&mut self.clients[at], faults, now);
            if self.chance.is_true(1, 2) {
                let line = self.clients[at].line().map(|it| it.1.clone());
                let _ = line.is_some_and(|it| it.line().arrive(most));
                continue;
            }
            if self.clients[at].stalls_until <= now {
                self.read(at, most, has_ended)?;
            }
        }
        Ok(())
    }

    /// Moves all bytes between clients and processes. Nothing fails any more. Returns whether any moved.
    ///
    /// # Errors
    ///
    /// The law that an answer breaks.
    pub fn move_all(&mut self, has_ended: &dyn Fn(u64) -> bool) -> Result<bool, Broken> {
        let mut have_moved = false;
        for at in 0..CLIENTS {
            self.clients[at].stalls_until = Duration::ZERO;
            let line = self.clients[at].line().map(|it| it.1.clone());
            have_moved |= line.is_some_and(|it| it.line().arrive(usize::MAX));
            have_moved |= self.read(at, usize::MAX, has_ended)?;
        }
        Ok(have_moved)
    }

    /// Returns whether no client expects an answer.
    pub fn are_told(&self) -> bool {
        self.clients.iter().all(RespClient::is_told)
    }

    /// Returns the commands that aren't answered, for a law that is broken.
    pub fn shown(&self) -> String {
        let open: Vec<_> = self.clients.iter().map(RespClient::open).collect();
        format!("{open:?}")
    }

    /// Makes all clients send no more.
    pub fn end(&mut self) {
        self.clients.iter_mut().for_each(RespClient::end);
    }

    /// Returns how many clients have connections.
    pub fn connected(&self) -> usize {
        let connected = self.clients.iter().filter(|it| it.line().is_some());
        connected.count()
    }

    /// Returns how many commands on keys were made or read, refused, and neither for sure.
    pub fn counts(&self) -> [u64; 3] {
        self.history.counts()
    }

    /// Returns how many commands were sent.
    pub fn commands(&self) -> u64 {
        self.number
    }

    /// Judges the answers to all clients. `held` tells what the key of this shard and of this name holds in the end.
    /// Returns how many commands were made before an earlier one of their pipeline.
    ///
    /// # Errors
    ///
    /// The law that they break.
    pub fn judge(&self, held: impl Fn(u16, &[u8]) -> Replied) -> Result<u64, Broken> {
        self.keys.all().into_iter().try_fold(0, |sum, key| {
            let held = held(key.shard, self.keys.name(key).as_bytes());
            Ok(sum + self.history.judge(key, &held)?)
        })
    }
}

/// Lets something fail between a client and its process.
fn harm(client: &mut RespClient, faults: &Faults, now: Duration) {
    let Some(process) = client.line().map(|it| it.0) else {
        return;
    };
    let column = Column::Process(process.place);
    if faults.strikes(Fault::ClientCut, 1, 800, column) {
        client.cut();
    }
    if faults.strikes(Fault::ClientEnds, 1, 1_000, column) {
        client.end();
    }
    if let Some(mut chance) = faults.strike(Fault::ClientStalls, 1, 400, column) {
        client.stalls_until = now + Duration::from_millis(chance.below(STALLED));
    }
}
