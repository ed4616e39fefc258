//! The controls that ship, in schedules whose processes have them. Operators give them commands, and in the end all is
//! well.
use super::{server_of, World, PROCESSES, SERVERS};
use crate::command_mail::{CommandAnswer, CommandMessage, VisitorReply};
use crate::fault::Fault;
use crate::key::DecodedKey;
use crate::law::Broken;
use crate::operator;
use crate::operator_command::OperatorCommand;
use crate::operator_reply::OperatorReply;
use crate::process::Process;
use crate::reading::{self, DecodedRecord};
use crate::timeline::Column;
use durkenzo_control::control::{Asked, Words};
use std::sync::atomic::Ordering;
use std::time::Duration;

/// How many milliseconds a round has. In each round, all work that is due is done.
const ROUND: u64 = 10;
/// How many rounds may pass until all shards have their first owners, until all is well although a server is missing,
/// and until everything is over.
const BEGINNING: u64 = 1_000;
const WELL: u64 = 4_000;
const OVER: u64 = 8_000;
/// How many rounds pass until each process has seen which one leads. A leader that can't go on tries again only after
/// half a second, and may have been replaced meanwhile.
const SEEING: u64 = 100;
/// Operators look after the processes and shards once in this many rounds.
const LOOKING: u64 = 300;
/// A process is paused for less than this, in milliseconds.
const PAUSE: u64 = 3_000;
/// The numbers of states: a server is up, its restart is asked for or approved, or it is stopped.
const UP: u64 = 0;
const ASKED: u64 = 1;
const APPROVED: u64 = 2;
const STOPPED: u64 = 3;
/// The phases of records.
const SERVING: u64 = 1;
const PAUSED: u64 = 5;

impl World {
    /// Lets the processes campaign until one leads and all shards have owners.
    pub(super) fn begin_controls(&mut self) {
        for _ in 0..BEGINNING {
            if (0..self.shape.shards).all(|it| self.is_served(it)) {
                return;
            }
            self.pass_round();
        }
        self.find("shards get owners at the beginning", String::new());
    }

    /// Gives the control of a process a turn.
    pub(super) fn take_turn(&mut self) {
        if let Some(process) = self.process() {
            process.take_turn();
            self.tally.turns += 1;
        }
    }

    /// Lets an operator give a random command to a process.
    pub(super) fn operate(&mut self) {
        let words = operator::asked(&mut self.chance, self.shape.shards, SERVERS);
        if let Some(place) = self.place() {
            self.ask_control(place, &words);
        }
    }

    fn ask_control(&mut self, place: usize, words: &[String]) {
        self.tally.operated += 1;
        let Some(process) = self.processes[place].as_mut() else {
            return;
        };
        self.timeline
            .note(process.column(), || format!("is asked {}", words.join(" ")));
        let life = process.sender.life;
        let reply_to = OperatorReply::of((&self.ledger, &self.store), words, life);
        process.ask(Asked {
            words: Words::of(words),
            reply_to: Box::new(reply_to),
        });
    }

    /// Makes an operator stop waiting for an answer.
    pub(super) fn leave_control(&mut self) {
        let at = self.chance.drawn() as usize;
        let ledger = self.ledger.lock().expect("no panic");
        let open: Vec<_> = ledger.commands.iter().filter(|it| it.is_open()).collect();
        if let Some(command) = open.get(at % open.len().max(1)) {
            command.is_awaited.store(false, Ordering::Relaxed);
        }
    }

    /// Brings a command to the control of another process, gives it back, or loses it.
    pub(super) fn deliver_command(&mut self) {
        let Some(message) = self.command_message() else {
            return;
        };
        let CommandMessage {
            sender,
            process,
            command,
        } = message;
        if !self.is_there(sender) {
            return;
        }
        let is_calm = self.store().is_calm;
        let is_lost = !is_calm && self.strikes(Fault::CommandLost, 3, 20, sender.place);
        let fate = match is_lost {
            true => self.chance.below(3),
            false => 20,
        };
        let mut targets = self.processes.iter().flatten();
        let target = targets.find(|it| Some(it.member.process()) == process);
        let Some(target) = target else {
            return command.give_back("PEERDOWN nothing has changed");
        };
        if fate == 0 {
            return command.give_back("PEERDOWN nothing has changed");
        }
        let (words, mails) = (command.asked.words.clone(), self.mails.clone());
        let visits = match fate {
            1 | 2 => {
                command.lose();
                None
            }
            _ => Some((sender, command)),
        };
        // A lost command may have reached the other control all the same.
        if fate > 1 {
            let reply_to = Box::new(VisitorReply { mails, visits });
            target.ask(Asked { words, reply_to });
        }
    }

    fn command_message(&mut self) -> Option<CommandMessage> {
        let mut mail = self.mails.lock().expect("no panic");
        let at = self.chance.below(mail.commands.len().max(1) as u64) as usize;
        (at < mail.commands.len()).then(|| mail.commands.swap_remove(at))
    }

    /// Brings the outcome of a command back to the process that passed it on, or loses it.
    pub(super) fn answer_command(&mut self) {
        let Some(answer) = self.command_answer() else {
            return;
        };
        let CommandAnswer {
            sender,
            command,
            became,
        } = answer;
        let is_calm = self.store().is_calm;
        let is_lost = !is_calm && self.strikes(Fault::CommandLost, 1, 20, sender.place);
        match (self.is_there(sender), is_lost) {
            (false, _) => {}
            (true, true) => command.lose(),
            (true, false) => command.end(became),
        }
    }

    fn command_answer(&mut self) -> Option<CommandAnswer> {
        let mut mail = self.mails.lock().expect("no panic");
        let at = self.chance.below(mail.commands_back.len().max(1) as u64) as usize;
        (at < mail.commands_back.len()).then(|| mail.commands_back.swap_remove(at))
    }

    /// Pauses a process. It does nothing for a while, and then goes on.
    pub(super) fn pause(&mut self) {
        let Some(place) = self.place() else {
            return;
        };
        let struck = self
            .faults
            .strike(Fault::Pause, 1, 1, Column::Process(place));
        let (Some(mut chance), Some(process)) = (struck, self.processes[place].as_mut()) else {
            return;
        };
        let time = Duration::from_millis(chance.below(PAUSE));
        process.paused_until = self.time.passed() + time;
    }

    /// Asks a process to stop. If it was asked before, ends it.
    pub(super) fn stop(&mut self) {
        if self.fleet.is_some() {
            return self.stop_fleet();
        }
        let Some(place) = self
            .place()
            .filter(|it| self.strikes(Fault::Stop, 1, 1, *it))
        else {
            return;
        };
        let process = self.processes[place].as_mut();
        let is_stopping = process.is_some_and(|it| it.is_stopping.swap(true, Ordering::Relaxed));
        match is_stopping {
            true => self.end_process(place),
            false => self.begin_to_stop_serving(place),
        }
    }

    /// Ends a process. Those who wait for its control are told so, and others see at once that it is gone.
    pub(super) fn end_process(&mut self, place: usize) {
        let Some(mut process) = self.processes[place].take() else {
            return;
        };
        process.is_stopping.store(true, Ordering::Relaxed);
        while process.is_asked() {
            process.take_turn();
        }
        let campaigner = process.campaigner.take();
        campaigner.into_iter().for_each(|it| it.end());
        self.stop_serving(&mut process);
        self.leave_links(&process);
        process.member.leave();
        self.bury(process);
    }

    /// If a server is stopped, an operator ends its process, and another one begins.
    pub(super) fn renew_stopped(&mut self) {
        let at = self.chance.below(PROCESSES as u64) as usize;
        let server = server_of(at);
        if self.state_of(server) == STOPPED && self.processes[at].is_some() {
            self.end_process(at);
            self.start_at(at);
        }
    }

    /// Ends the faults. If each server has room for all shards, one server may be missing at first. Within some time
    /// all must be well. Once the missing server is back too, all commands and requests must come to their end.
    pub(super) fn settle_controls(&mut self) {
        self.store().is_calm = true;
        for place in 0..PROCESSES {
            self.go_on_or_end(place);
        }
        let is_roomy = self.shape.control.as_ref().is_some_and(|it| it.is_roomy);
        let missing = match self.chance.is_true(1, 2) && is_roomy {
            true => 1 + self.chance.below(u64::from(SERVERS)) as u16,
            false => 0,
        };
        for place in (0..PROCESSES).filter(|it| server_of(*it) == missing) {
            self.crash_at(place);
        }
        let is_well =
            |it: &World| (0..it.shape.shards).all(|shard| it.is_served(shard) || it.is_away(shard));
        if !self.passes_until(WELL, missing, is_well) {
            return self.find("shards get owners that run", self.shown());
        }
        if let Some(control) = &self.shape.control {
            control.balances.store(false, Ordering::Relaxed);
        }
        if !self.passes_until(OVER, 0, World::is_over) {
            return self.find("all that is under way comes to its end", self.shown());
        }
        self.judge_last_commands();
        self.judge_last_calls();
        self.rest();
    }

    /// Asks the control of each process that has its server. The leader must answer, because nothing fails any more,
    /// and each process had time to see which one leads. A process that another one replaced finds no leader, so it
    /// isn't asked.
    fn judge_last_commands(&mut self) {
        (0..SEEING).for_each(|_| self.pass_round());
        let before = self.ledger.lock().expect("no panic").commands.len();
        let words = ["SM", "RESUME", "0"].map(str::to_owned);
        for place in 0..PROCESSES {
            if self.processes[place]
                .as_ref()
                .is_some_and(Process::is_member)
            {
                self.ask_control(place, &words);
            }
        }
        self.passes_until(OVER, 0, World::is_over);
        let ledger = self.ledger.clone();
        let ledger = ledger.lock().expect("no panic");
        let unled = ledger.commands[before..].iter().find(|it| !it.is_led());
        if let Some(unled) = unled {
            self.find(
                "the leader answers once nothing fails",
                format!("{unled:?}"),
            );
        }
    }

    /// Makes a paused process go on. If a process was asked to stop, ends it.
    fn go_on_or_end(&mut self, place: usize) {
        let Some(process) = self.processes[place].as_mut() else {
            return;
        };
        process.paused_until = Duration::ZERO;
        if process.is_stopping.load(Ordering::Relaxed) {
            self.end_process(place);
        }
    }

    /// Lets at most `rounds` rounds pass until `is_so` holds. Starts no process of the server `missing`. Returns
    /// whether `is_so` holds.
    pub(super) fn passes_until(
        &mut self,
        rounds: u64,
        missing: u16,
        is_so: fn(&World) -> bool,
    ) -> bool {
        for round in 0..rounds {
            if is_so(self) {
                return true;
            }
            if round % LOOKING == 0 {
                self.look_after(missing);
            }
            self.pass_round();
        }
        is_so(self)
    }

    /// Does an operator's work: ends the processes of stopped servers, begins those that are gone, and resumes shards
    /// that were paused by hand.
    fn look_after(&mut self, missing: u16) {
        for place in 0..PROCESSES {
            let server = server_of(place);
            if self.state_of(server) == STOPPED && self.processes[place].is_some() {
                self.end_process(place);
            }
            if server != missing {
                self.start_at(place);
            }
        }
        for shard in 0..self.shape.shards {
            let record = self.record_of(shard);
            let is_left = record.phase == PAUSED && self.state_of(record.owner as u16) <= ASKED;
            if is_left {
                let words = ["SM", "RESUME", &shard.to_string()].map(str::to_owned);
                self.ask_one(&words);
            }
        }
    }

    /// Lets an operator ask a random process of those that run. Another one is drawn each time, because a process that
    /// was replaced by another one finds no leader.
    fn ask_one(&mut self, words: &[String]) {
        let running: Vec<usize> = (0..PROCESSES)
            .filter(|it| self.processes[*it].is_some())
            .collect();
        let at = self.chance.below(running.len().max(1) as u64) as usize;
        if let Some(place) = running.get(at) {
            self.ask_control(*place, words);
        }
    }

    /// Lets a round pass, in which all work that is due is done.
    fn pass_round(&mut self) {
        self.time.pass(ROUND);
        for process in self.processes.iter_mut().flatten() {
            process.take_turn_if_due();
        }
        while self.has_commands() {
            self.deliver_command();
            self.answer_command();
        }
        self.settle_network();
        self.settle_messages();
        while self.has_heard() {}
        for process in self.processes.iter_mut().flatten() {
            process.do_chores();
            process.member.turn();
        }
        self.turn_beginnings();
        self.settle_fleets();
        self.settle_servers();
        self.lapse();
    }

    fn has_commands(&self) -> bool {
        let mail = self.mails.lock().expect("no panic");
        !mail.commands.is_empty() || !mail.commands_back.is_empty()
    }

    /// Returns whether the shard has an owner that runs.
    fn is_served(&self, shard: u16) -> bool {
        let record = self.record_of(shard);
        let owner = record.owner as u16;
        let key = format!("server/{owner:05}");
        record.phase == SERVING
            && self.state_of(owner) <= APPROVED
            && self.store().has(key.as_bytes())
    }

    /// Returns whether the shard waits for its owner, which was stopped for a restart.
    fn is_away(&self, shard: u16) -> bool {
        let record = self.record_of(shard);
        record.phase == PAUSED && self.state_of(record.owner as u16) == STOPPED
    }

    /// Returns whether all work is over, all servers are up, and all shards have owners that run.
    fn is_over(&self) -> bool {
        let idle =
            |it: &Process| !it.is_asked() && it.campaigner.as_ref().is_none_or(|it| it.is_idle());
        let is_idle = self.processes.iter().flatten().all(idle);
        let is_idle = is_idle && self.are_held() && self.are_clients_told();
        let are_up = (1..=SERVERS).all(|it| self.state_of(it) == UP);
        let is_told = self.ledger.lock().expect("no panic").open() == 0;
        let is_asked = self.asked.iter().any(|it| it.2.strong_count() > 0);
        let has_intents = self.store().keys().any(is_intent);
        let has_mail = !self.mails.lock().expect("no panic").is_empty();
        let is_quiet = !is_asked && !has_intents && !has_mail && is_told;
        is_idle && are_up && is_quiet && (0..self.shape.shards).all(|it| self.is_served(it))
    }

    /// Returns the present state as a text, for a law that is broken.
    fn shown(&self) -> String {
        let states: Vec<u64> = (1..=SERVERS).map(|it| self.state_of(it)).collect();
        let records: Vec<_> = (0..self.shape.shards)
            .map(|it| self.record_of(it))
            .collect();
        let ledger = self.ledger.lock().expect("no panic");
        let open: Vec<_> = ledger.commands.iter().filter(|it| it.is_open()).collect();
        let store = self.store();
        let intents: Vec<_> = store.keys().filter(|it| is_intent(it)).collect();
        let intents: Vec<_> = intents
            .iter()
            .map(|it| String::from_utf8_lossy(it))
            .collect();
        let there = store
            .keys()
            .filter(|it| it.starts_with(b"server/") || *it == b"leader");
        let there: Vec<_> = there.map(String::from_utf8_lossy).collect();
        format!(
            "states {states:?}, {records:?}, open {open:?}, intents {intents:?}, there {there:?}"
        )
    }

    fn state_of(&self, server: u16) -> u64 {
        let (store, key) = (self.store(), format!("state/{server:05}"));
        let pair = store.pair_at(key.as_bytes(), store.revision());
        pair.and_then(|it| reading::state(&it.value))
            .map_or(UP, |it| it.0)
    }

    fn record_of(&self, shard: u16) -> DecodedRecord {
        let (store, key) = (self.store(), format!("record/{shard:05}"));
        let pair = store.pair_at(key.as_bytes(), store.revision());
        let record = pair.and_then(|it| DecodedRecord::of(&it.value));
        record.unwrap_or_default()
    }

    /// Checks the answers that operators got.
    pub(super) fn judge_operators(&mut self) {
        let ledger = self.ledger.clone();
        let ledger = ledger.lock().expect("no panic");
        let commands = ledger.commands.iter();
        self.tally.told += commands.clone().filter(|it| it.told.is_some()).count() as u64;
        self.tally.done += commands.filter(|it| it.is_done()).count() as u64;
        if let Some(forgotten) = &ledger.forgotten {
            self.find("each command is answered once", forgotten.clone());
        }
        let is_left = |it: &&OperatorCommand| it.is_left(&ledger.commands, &self.store);
        if let Some(left) = ledger.commands.iter().find(is_left) {
            self.find("a restart that is refused is given up", format!("{left:?}"));
        }
        let untrue = ledger.commands.iter().find(|it| !it.is_true(&self.store));
        if let Some(untrue) = untrue {
            self.find("what operators are told is so", format!("{untrue:?}"));
        }
    }

    pub(super) fn find(&mut self, law: &'static str, by: String) {
        self.fault.get_or_insert(Broken { law, by });
    }
}

/// Returns whether the key holds an intent, with which a leader still has to go on.
fn is_intent(key: &[u8]) -> bool {
    DecodedKey::of(key).is_some_and(DecodedKey::is_intent)
}
