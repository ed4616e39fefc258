mod election;
mod intents;
mod loads;
mod settings;

use crate::command::{ControlCommand, Next, Subject};
use crate::plan::planned;
use crate::proved::{AckRead, CommandTransaction, Director};
use crate::{keys, process, Durable, Live, Refused, ServerRun, ServerState};
use durkenzo::{word, Plan, Record, Stand};
use durkenzo_store::{Outcome, Reading, Revision, Transaction, WriteError};
use std::collections::BTreeMap;
use std::fmt;
use std::sync::Arc;

/// How often a command is sent again if another one came before it, or its outcome isn't known.
const TRIES: u32 = 8;

/// This process's control over a store. The proved control decides what it sends, and its next steps.
pub struct DurableControl {
    durable: Arc<Durable>,
    director: Director,
    /// The settings in force, as a line, and the revision at which they were written, as they were last read.
    line: Box<str>,
    settled: Revision,
    /// The revision of the leader's key.
    elected: Revision,
    /// When records and states were written, as far as the director has read or made them.
    written: WrittenRevisions,
    /// Whether everything must be read again.
    is_behind: bool,
    /// Whether a transaction that was sent and given up may still be made.
    has_stray: bool,
    /// How many changes servers' keys had when the followers were last read; nothing if they must be read again.
    followers: Option<u64>,
    /// How many changes they had when the director was last told the followers, as the watch tells them.
    told: Option<u64>,
}

impl DurableControl {
    /// Makes this process lead the store, whoever led it before. The line of settings describes the store if it has
    /// none.
    ///
    /// # Errors
    ///
    /// If the store can't be read or written, or its content isn't of these settings.
    pub fn lead(durable: Arc<Durable>, line: &str) -> Result<DurableControl, Refused> {
        let elected = election::elect(&durable)?;
        DurableControl::elected(durable, line, elected)
    }

    /// Makes this process lead the store, if no other one does. Its key lies under the lease of this process's server,
    /// [`Durable::member`]. Returns nothing if another process leads. The line of settings describes the store if it
    /// has none.
    ///
    /// # Errors
    ///
    /// As for [`DurableControl::lead`]; `NotLeader` if the process has no server with a lease now.
    pub fn campaign(durable: Arc<Durable>, line: &str) -> Result<Option<DurableControl>, Refused> {
        match election::campaigned(&durable)? {
            Some(elected) => DurableControl::elected(durable, line, elected).map(Some),
            None => Ok(None),
        }
    }

    fn elected(
        durable: Arc<Durable>,
        line: &str,
        elected: Revision,
    ) -> Result<DurableControl, Refused> {
        let director = election::director(&durable, line, elected)?;
        let mut control = DurableControl {
            durable,
            director,
            line: line.into(),
            settled: Revision::NEVER,
            elected,
            written: WrittenRevisions::default(),
            is_behind: true,
            has_stray: false,
            followers: None,
            told: None,
        };
        control.has_shards()?;
        control.catch_up()?;
        Ok(control)
    }

    /// Returns the first server to which requests go although it isn't there. [`ControlCommand::Fail`] says that it has
    /// failed. That command is refused if the server is there again.
    ///
    /// # Errors
    ///
    /// As [`Refused`] says.
    pub fn fallen(&mut self) -> Result<Option<u16>, Refused> {
        self.catch_up()?;
        self.follow()?;
        self.director.fallen().map_err(Refused::of)
    }

    /// Returns the greatest number of a server.
    pub fn servers(&self) -> u16 {
        self.director.servers().iter().copied().max().unwrap_or(0)
    }

    /// Returns the number of shards.
    pub fn shards(&self) -> u16 {
        self.durable.shards()
    }

    /// Reads records and states if that is due, once no transaction that was given up may still be made.
    fn catch_up(&mut self) -> Result<(), Refused> {
        self.outdate()?;
        self.read_again()
    }

    /// Reads records and states if that is due. A command that is tried again may still be made.
    fn read_again(&mut self) -> Result<(), Refused> {
        self.look_at_member()?;
        if self.is_behind {
            self.director.lost().map_err(Refused::of)?;
            let reading = self.read_in_force()?;
            self.give(&reading).map_err(Refused::of)?;
            (self.is_behind, self.followers, self.told) = (false, None, None);
            if self.durable.member().is_none() {
                self.follow_all(reading.revision)?;
            }
        }
        Ok(())
    }

    /// Fails if this process has seen that it doesn't lead any more.
    fn look_at_member(&self) -> Result<(), Refused> {
        match self.durable.member() {
            Some(member) if !member.leads(self.elected) => Err(Refused::NotLeader),
            _ => Ok(()),
        }
    }

    /// Says that all servers follow: they are in this process, which has read as far as its watch.
    fn follow_all(&mut self, revision: Revision) -> Result<(), Refused> {
        let servers = self.director.servers().to_vec();
        let all = servers.into_iter().map(|it| (it, revision));
        self.director.follow(all).map_err(Refused::of)
    }

    /// Reads which servers are there, and how far they follow, if that may have changed. It must be read no earlier
    /// than the rest. That takes as long as a command, so it is done only on request.
    fn follow(&mut self) -> Result<(), Refused> {
        let Some(member) = self.durable.member() else {
            return Ok(());
        };
        let changes = member.changes();
        if self.followers == Some(changes) {
            return Ok(());
        }
        let reading = self.durable.store().read_all(keys::SERVERS)?;
        let pairs = reading.pairs.iter();
        let there = pairs.filter_map(|it| {
            // If its bytes can't be read, the server is there all the same, and nothing waits for it to read.
            let followed =
                Live::of(&it.value, it.created).map_or(reading.revision, |live| live.followed);
            Some((keys::server_of(&it.key)?, followed))
        });
        self.director.follow(there).map_err(Refused::of)?;
        (self.followers, self.told) = (Some(changes), None);
        Ok(())
    }

    /// If the shard is taken, tells the director which servers follow, because the shard is dropped once all do. The
    /// watch tells the followers of one moment. If that moment is before the shard was taken, nobody follows so far, so
    /// the shard waits.
    fn follow_if_taken(&mut self, shard: u16) -> Result<(), Refused> {
        let stand = self.record_read(shard)?.map(|it| it.stand);
        let member = self.durable.member();
        let Some(member) = member.filter(|_| matches!(stand, Some(Stand::Taken { .. }))) else {
            return Ok(());
        };
        let changes = member.changes();
        if self.told == Some(changes) {
            return Ok(());
        }
        let Some(followers) = member.followers() else {
            return self.follow();
        };
        let told = self.director.follow(followers.into_iter());
        told.map_err(Refused::of)?;
        (self.followers, self.told) = (None, Some(changes));
        Ok(())
    }

    /// Tells the director the acks for which the subject waits, as this process has seen them. An ack counts once it
    /// was made. If this process has all servers, nothing waits.
    fn hear_acks(&mut self, subject: Subject) -> Result<(), Refused> {
        let Some(member) = self.durable.member().cloned() else {
            return Ok(());
        };
        let mut acks = Vec::new();
        for (shard, server) in self.awaited(subject)? {
            let generation = member.acked(shard, server);
            acks.extend(generation.map(|generation| AckRead {
                shard,
                server,
                generation,
            }));
        }
        self.director.acked(acks.into_iter()).map_err(Refused::of)
    }

    /// Tells the director the acks for which the command may wait: those of the shard that it changes, or of all shards
    /// that are paused for the server that it stops.
    fn hear_acks_for(&mut self, command: ControlCommand) -> Result<(), Refused> {
        match command {
            ControlCommand::Ask(_)
            | ControlCommand::Approve(_)
            | ControlCommand::Back(_)
            | ControlCommand::Fail(_) => Ok(()),
            ControlCommand::Assign(..)
            | ControlCommand::PrepareAddShard(..)
            | ControlCommand::PrepareDropShard(_)
            | ControlCommand::AddShard(_)
            | ControlCommand::DropShard(_)
            | ControlCommand::Cancel(_)
            | ControlCommand::Pause(_)
            | ControlCommand::Resume(_)
            | ControlCommand::Reassign(..)
            | ControlCommand::Stopped(_) => self.hear_acks(command.subject()),
        }
    }

    /// Returns the servers whose acks may be awaited, each with the shard: the servers that the shard's record names,
    /// or the server with each shard that is paused for it.
    fn awaited(&mut self, subject: Subject) -> Result<Vec<(u16, u16)>, Refused> {
        let mut awaited = Vec::new();
        match subject {
            Subject::Shard(shard) => {
                let named = self.record_read(shard)?.map(|it| [it.owner(), it.other()]);
                awaited.extend(named.into_iter().flatten().flatten().map(|it| (shard, it)));
            }
            Subject::Server(server) => {
                for shard in 0..self.durable.shards() {
                    let stand = self.record_read(shard)?.map(|it| it.stand);
                    if stand == Some(Stand::Paused(server)) {
                        awaited.push((shard, server));
                    }
                }
            }
        }
        Ok(awaited)
    }

    /// Makes the command, or returns why it doesn't.
    ///
    /// # Errors
    ///
    /// As [`Refused`] says.
    pub fn command(&mut self, command: ControlCommand) -> Result<(), Refused> {
        self.outdate()?;
        let made = self.tried(command);
        // If the store doesn't take that now, it will before the control goes on.
        made.inspect_err(|_| drop(self.outdate()))
    }

    /// Makes the command. Tries again each time another command came before, or the outcome isn't known.
    fn tried(&mut self, command: ControlCommand) -> Result<(), Refused> {
        let mut unknown = None;
        for _ in 0..TRIES {
            self.read_again()?;
            if self.lies(&unknown)? {
                (self.is_behind, self.has_stray) = (true, false);
                return Ok(());
            }
            if let ControlCommand::DropShard(shard) = command {
                self.follow_if_taken(shard)?;
            }
            self.hear_acks_for(command)?;
            let runs = self.process_of(command)?;
            self.director.command(command, runs).map_err(Refused::of)?;
            let sending = self.director.sending().map_err(Refused::of)?;
            let (number, is_state, absent) = (sending.number, sending.is_state, sending.absent);
            let sent = (sending.key(), sending.written.clone());
            self.is_behind = true;
            match self.send(sending) {
                Ok(Outcome::Made(revision)) => return self.made(number, is_state, revision),
                Ok(Outcome::Lost(reading)) => self.look_at_lost(absent, &reading)?,
                Err(WriteError::Unknown(_)) => {
                    (unknown, self.has_stray) = (Some(sent), true);
                }
                Err(error) => return Err(error.into()),
            }
        }
        Err(Refused::in_vain())
    }

    /// Returns whether the value that was sent to a key is there. Then it was made, though that wasn't known: the value
    /// tells the generation, or how far a restart has come, and no other command of this process leads to the same.
    fn lies(&self, sent: &Option<(Vec<u8>, Vec<u8>)>) -> Result<bool, Refused> {
        let Some((key, written)) = sent else {
            return Ok(false);
        };
        let reading = self.durable.store().read(&[key])?;
        Ok(reading.get(key).is_some_and(|it| &it.value == written))
    }

    /// Goes on from the command that was made at this revision, which wrote the server's state or the shard's record.
    fn made(&mut self, number: u16, is_state: bool, revision: Revision) -> Result<(), Refused> {
        self.director.made(revision).map_err(Refused::of)?;
        self.written.note(number, is_state, revision);
        // Earlier transactions compare the key of commands as it was before.
        (self.is_behind, self.has_stray, self.followers) = (false, false, None);
        match self.durable.member() {
            None => self.follow_all(revision),
            Some(_) => Ok(()),
        }
    }

    fn send(&self, sending: CommandTransaction) -> Result<Outcome, WriteError> {
        let mut transaction = Transaction::new()
            .compare(keys::LEADER, sending.elected)
            .compare(keys::COMMANDS, sending.placed)
            .put(sending.key(), sending.written)
            .put(keys::COMMANDS, sending.commands)
            .with_kept_room();
        if let Some(key) = sending.absent.map(keys::server) {
            transaction = transaction
                .compare(key.clone(), Revision::NEVER)
                .or_read(key);
        }
        match sending.is_state {
            true => self.durable.store().make(transaction),
            false => self.durable.change(sending.number, transaction),
        }
    }

    /// Fails if another process leads; or if a server's key was there that must not be, because nothing is to be done
    /// for a server that is back.
    fn look_at_lost(&self, absent: Option<u16>, found: &Reading) -> Result<(), Refused> {
        self.look_at_leader()?;
        match absent.filter(|it| found.get(&keys::server(*it)).is_some()) {
            Some(server) => Err(Refused::StillThere(server)),
            None => Ok(()),
        }
    }

    /// Fails if another process leads.
    fn look_at_leader(&self) -> Result<(), Refused> {
        let reading = self.durable.store().read(&[keys::LEADER])?;
        let own = keys::leader_of(self.durable.process());
        match reading.get(keys::LEADER) {
            Some(pair) if pair.value == own => Ok(()),
            _ => Err(Refused::NotLeader),
        }
    }

    /// Returns the next step of the shard's migration.
    ///
    /// # Errors
    ///
    /// As [`Refused`] says. That applies to the functions below, too.
    pub fn next_of_shard(&mut self, shard: u16) -> Result<Next, Refused> {
        self.catch_up()?;
        self.follow_if_taken(shard)?;
        self.hear_acks(Subject::Shard(shard))?;
        self.director.next_of_shard(shard).map_err(Refused::of)
    }

    /// Returns the next step of the server's restart.
    pub fn next_of_server(&mut self, server: u16) -> Result<Next, Refused> {
        self.catch_up()?;
        self.hear_acks(Subject::Server(server))?;
        self.director.next_of_server(server).map_err(Refused::of)
    }

    /// Returns the next step of the drain of the server, or of the vacant shards if `server` is 0.
    pub fn next_of_drain(&mut self, server: u16) -> Result<Next, Refused> {
        self.catch_up()?;
        self.director.next_of_drain(server).map_err(Refused::of)
    }

    /// Plans the moves of the server's shards, or of the vacant shards if `server` is 0, as if each move were made in
    /// its turn.
    pub fn plan(&mut self, server: u16) -> Result<Plan, Refused> {
        let mut stands = Vec::new();
        for shard in 0..self.durable.shards() {
            stands.push(self.record(shard)?.map_or(Stand::Vacant, |it| it.stand));
        }
        let servers = self.director.servers().to_vec();
        let states = servers.into_iter().map(|it| self.state_of(it));
        let states = states.collect::<Result<Vec<_>, _>>()?;
        planned(&self.line, &stands, &states, server)
    }

    /// Returns the paused shards whose owners came back after the pause, and for which nothing is under way. Such a
    /// shard was paused because its owner was to stop or had failed, and then the leader of that time went no further.
    pub fn left_paused(&mut self) -> Result<Vec<u16>, Refused> {
        let mut left = Vec::new();
        for shard in 0..self.durable.shards() {
            let stand = self.record(shard)?.map(|it| it.stand);
            let Some(Stand::Paused(owner)) = stand else {
                continue;
            };
            if self.state_of(owner)? == ServerState::Up && self.written.is_before(shard, owner) {
                left.push(shard);
            }
        }
        Ok(left)
    }

    /// Returns the shard's record, including all changes by this control.
    pub fn record(&mut self, shard: u16) -> Result<Option<Record>, Refused> {
        self.catch_up()?;
        self.record_read(shard)
    }

    fn record_read(&mut self, shard: u16) -> Result<Option<Record>, Refused> {
        self.read_again()?;
        let word = self.director.word_of(shard).map_err(Refused::of)?;
        Ok(word::record(word))
    }

    /// Returns how far the server's restart has come.
    pub fn state_of(&mut self, server: u16) -> Result<ServerState, Refused> {
        Ok(self.run_of(server)?.state)
    }

    /// Returns how far the server's restart has come, and the process of the server to which that applies.
    pub fn run_of(&mut self, server: u16) -> Result<ServerRun, Refused> {
        self.catch_up()?;
        self.director.run_of(server).map_err(Refused::of)
    }

    /// Returns the process that runs the command's server, as it was last seen; 0 if none was. If this process has all
    /// servers, it runs them: a server that was stopped begins again under a number that no process has.
    fn process_of(&mut self, command: ControlCommand) -> Result<u64, Refused> {
        let Subject::Server(server) = command.subject() else {
            return Ok(0);
        };
        if let Some(member) = self.durable.member() {
            let members = member.members();
            return Ok(members.get(&server).map_or(0, |it| it.process));
        }
        let own = self.durable.process();
        let run = self.director.run_of(server).map_err(Refused::of)?;
        let is_stopped = run.state == ServerState::Stopped && run.process >= own;
        match command {
            ControlCommand::Back(_) if is_stopped => Ok(process::begin(&**self.durable.store())?),
            _ => Ok(own),
        }
    }
}

/// The revisions of shards' records and of servers' states, by their numbers.
#[derive(Default)]
struct WrittenRevisions {
    records: Vec<Revision>,
    states: BTreeMap<u16, Revision>,
}

impl WrittenRevisions {
    /// Notes the revision at which a command wrote the server's state, or the shard's record.
    fn note(&mut self, number: u16, is_state: bool, revision: Revision) {
        let written = match is_state {
            true => self.states.get_mut(&number),
            false => self.records.get_mut(usize::from(number)),
        };
        if let Some(it) = written {
            *it = revision;
        }
    }

    /// Returns whether the shard's record was written before the server's state was.
    fn is_before(&self, shard: u16, server: u16) -> bool {
        let state = self.states.get(&server);
        self.records.get(usize::from(shard)) < state
    }
}

impl fmt::Debug for DurableControl {
    fn fmt(&self, f: &mut fmt::Formatter<'_>) -> fmt::Result {
        f.debug_struct("Control")
            .field("servers", &self.director.servers())
            .finish_non_exhaustive()
    }
}
