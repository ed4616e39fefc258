//! The processes of a fleet, in schedules that have one. Their services execute by permits, each by the clock of its
//! machine, and clients call them.
use super::{World, PROCESSES, SERVERS};
use crate::chance::Chance;
use crate::fault::Fault;
use crate::fleet::{Callers, Excuses, FleetShape, RunningFleet};
use crate::line::Line;
use crate::machine_clock::Clocks;
use crate::process::Process;
use crate::simulated_store::locked;
use crate::timeline::Column;
use durkenzo_driver::RouteMap;
use durkenzo_fleet::Retry;
use std::time::Duration;

/// How many things arrive or are done at once, at most.
const MOVES: u64 = 8;
/// A connection carries nothing for less than this, in milliseconds.
const DARK: u64 = 3_000;
/// A process that leaves waits for the others for less than this, in milliseconds.
const GRACE: u64 = 4_000;
/// How many rounds of deliveries there are at most, once nothing fails.
const ROUNDS: u64 = 400;
/// How long each of the last calls may take.
const LAST: Duration = Duration::from_secs(30);
/// How many last calls there are.
const LAST_CALLS: u64 = 32;
/// How often a client may ask for the map before the last calls.
const LEARNINGS: u64 = 5;
/// How many rounds may pass until a client is answered.
const ANSWERED: u64 = 4_000;

/// The fleet of a schedule.
pub struct FleetOfWorld {
    pub shape: FleetShape,
    pub callers: Callers,
    chance: Chance,
    /// The last process that held each shard.
    holders: Vec<Option<u64>>,
    excuses: Excuses,
}

impl FleetOfWorld {
    /// Returns a fleet whose processes haven't begun.
    pub fn new(
        shape: FleetShape,
        callers: Callers,
        (chance, shards): (Chance, u16),
    ) -> FleetOfWorld {
        FleetOfWorld {
            shape,
            callers,
            chance,
            holders: vec![None; usize::from(shards)],
            excuses: Excuses::default(),
        }
    }

    fn book(&self) -> std::sync::MutexGuard<'_, crate::fleet::Book> {
        self.shape.book.lock().expect("no panic")
    }

    fn frames(&self) -> std::sync::MutexGuard<'_, crate::fleet::Frames> {
        self.shape.frames.lock().expect("no panic")
    }
}

impl World {
    /// Lets a client watch the records of the fleet.
    pub(super) fn begin_fleet(&mut self) {
        if self.fleet.is_none() {
            return;
        }
        let line = Line::of(&self.store, 0);
        let watches = self.store().watches();
        let Ok(map) = RouteMap::watch(&line) else {
            return;
        };
        let more = self.store().watches() - watches;
        self.client_watches = more;
        if let Some(fleet) = &mut self.fleet {
            fleet.callers.watch(&fleet.shape, map);
        }
    }

    /// Returns the fleet's part of a random process, if it runs.
    fn running_fleet(&mut self) -> Option<&mut RunningFleet> {
        self.process().and_then(|it| it.fleet.as_mut())
    }

    /// Lets the keeper or the follower of a process do the work that is due.
    pub(super) fn keep_fleet(&mut self) {
        let follows = self.chance.is_true(2, 3);
        if let Some(fleet) = self.running_fleet() {
            match follows {
                true => fleet.follow(),
                false => fleet.process.keep(),
            }
        }
    }

    /// Lets threads of a process and of the clients go on.
    pub(super) fn run_fleet(&mut self) {
        let times = 1 + self.chance.below(MOVES);
        let mut chance = Chance::new(self.chance.drawn());
        if let Some(fleet) = &mut self.fleet {
            fleet.frames().wake_due();
            (0..times).for_each(|_| fleet.callers.tasks.run_one(&mut chance));
            fleet.callers.tasks.tidy();
        }
        let Some(place) = self.place() else {
            return;
        };
        if let Some(fleet) = self.fleet_at(place) {
            (0..times).for_each(|_| fleet.tasks.run_one(&mut chance));
            fleet.tasks.tidy();
            fleet.begin_jobs();
        }
        self.go_on_with(place);
    }

    fn fleet_at(&mut self, place: usize) -> Option<&mut RunningFleet> {
        self.processes[place].as_mut()?.fleet.as_mut()
    }

    /// Brings the requests of a process to its control. If the process has left, ends it.
    fn go_on_with(&mut self, place: usize) {
        let Some(process) = &self.processes[place] else {
            return;
        };
        let Some(fleet) = &process.fleet else {
            return;
        };
        while let Some(asked) = fleet.take_asked() {
            // If the process has no control that ships, nobody answers.
            if process.campaigner.is_some() {
                process.ask(asked);
            }
        }
        if fleet.has_left() {
            self.end_process(place);
        }
    }

    /// Moves frames between processes and clients, and connects those that wait for a connection.
    pub(super) fn move_frames(&mut self) {
        self.reach_fleets();
        let now = self.time.passed();
        if let Some(fleet) = &mut self.fleet {
            let moves = 1 + fleet.chance.below(MOVES);
            let mut frames = fleet.shape.frames.lock().expect("no panic");
            for _ in 0..moves {
                frames.go_on(&mut fleet.chance, now);
            }
        }
    }

    /// Connects processes and clients to the processes that they dial. If a process isn't there, the dial fails.
    fn reach_fleets(&mut self) {
        let Some(fleet) = &self.fleet else {
            return;
        };
        let (dials, shape) = (fleet.frames().dials(), fleet.shape.clone());
        let (is_calm, now) = (self.store().is_calm, self.time.passed());
        for (number, from, address) in dials {
            let found = self.processes.iter_mut().flatten();
            let mut found = found.filter(|it| shape.address(it.sender) == address);
            let process = found.next();
            let column = process.as_ref().map_or(Column::Store, |it| it.column());
            let fails = !is_calm && self.faults.strikes(Fault::DialFails, 1, 20, column);
            let life = match process.filter(|_| !fails) {
                // A paused process takes no connection.
                Some(process) if process.paused_until > now => continue,
                Some(process) => {
                    let life = process.sender.life;
                    let fleet = process.fleet.as_mut();
                    let is_taken = fleet.is_some_and(|it| it.accept(number, from));
                    is_taken.then_some(life)
                }
                None => None,
            };
            shape
                .frames
                .lock()
                .expect("no panic")
                .answer_dial(number, life);
        }
    }

    /// Lets a client call.
    pub(super) fn call_fleet(&mut self) {
        let at = self.chance.below(PROCESSES as u64) as usize;
        let address = self.processes[at].as_ref().map(|it| it.sender);
        let Some(fleet) = &mut self.fleet else {
            return;
        };
        let caller = fleet.chance.below(fleet.callers.count() as u64) as usize;
        let address = address.map_or_else(|| "nobody".to_owned(), |it| fleet.shape.address(it));
        let FleetOfWorld {
            shape,
            callers,
            chance,
            ..
        } = fleet;
        callers.call(caller, (chance, shape), &address);
    }

    /// Makes something fail between processes and clients.
    pub(super) fn harm_frames(&mut self) {
        let (now, place) = (
            self.time.passed(),
            self.chance.below(PROCESSES as u64) as usize,
        );
        let Some(fleet) = &mut self.fleet else {
            return;
        };
        let mut frames = fleet.shape.frames.lock().expect("no panic");
        let Some(number) = frames.some(&mut fleet.chance) else {
            return;
        };
        let column = Column::Process(place);
        if fleet.chance.is_true(1, 2) {
            if self.faults.strikes(Fault::ConnectionBreaks, 1, 1, column) {
                frames.break_off(number);
            }
            return;
        }
        if let Some(mut chance) = self.faults.strike(Fault::ConnectionCut, 1, 1, column) {
            let until = now + Duration::from_millis(chance.below(DARK));
            frames.darken(number, chance.below(2) as usize, until);
        }
    }

    /// Tells a process to leave.
    pub(super) fn stop_fleet(&mut self) {
        let Some(place) = self.place() else {
            return;
        };
        let struck = self
            .faults
            .strike(Fault::Stop, 1, 1, Column::Process(place));
        let (Some(mut chance), Some(fleet)) = (struck, self.fleet_at(place)) else {
            return;
        };
        fleet.stop(Duration::from_millis(chance.below(GRACE)));
    }

    /// Forgets a process that has ended. Its machine may be gone too.
    pub(super) fn forget_fleet(&mut self, process: &mut Process) {
        let Some(fleet) = &mut self.fleet else {
            return;
        };
        let life = process.sender.life;
        let is_dark = self
            .faults
            .strikes(Fault::MachineGone, 1, 4, process.column());
        fleet.frames().forget(life, is_dark);
        fleet.excuses.note_end(life, self.time.passed());
        // The work of its threads ends with it.
        process.fleet = None;
        fleet.frames().forget(life, false);
    }

    /// Lets all parts of the fleet do the work that is due. Nothing fails any more.
    pub(super) fn settle_fleets(&mut self) {
        let Some(fleet) = &self.fleet else {
            return;
        };
        fleet.frames().calm();
        fleet.frames().wake_due();
        for process in self.processes.iter_mut().flatten() {
            if let Some(fleet) = &mut process.fleet {
                fleet.process.keep();
                fleet.follow();
            }
        }
        for _ in 0..ROUNDS {
            if !self.has_gone_on() {
                break;
            }
        }
        (0..PROCESSES).for_each(|it| self.go_on_with(it));
        self.judge_fleets();
    }

    /// Delivers all messages, and lets everything go on that can. Returns whether anything did.
    fn has_gone_on(&mut self) -> bool {
        self.reach_fleets();
        let now = self.time.passed();
        let Some(fleet) = &mut self.fleet else {
            return false;
        };
        let mut has_gone_on = fleet.callers.tasks.run();
        fleet.callers.tasks.tidy();
        let mut frames = fleet.shape.frames.lock().expect("no panic");
        while frames.go_on(&mut fleet.chance, now) {
            has_gone_on = true;
        }
        drop(frames);
        for process in self.processes.iter_mut().flatten() {
            if let Some(fleet) = &mut process.fleet {
                has_gone_on |= fleet.tasks.run();
                fleet.tasks.tidy();
                fleet.begin_jobs();
            }
        }
        has_gone_on
    }

    /// Checks the fleet after each event.
    pub(super) fn judge_fleets(&mut self) {
        if self.fleet.is_none() {
            return;
        }
        self.note_excuses();
        self.judge_losses();
        if self.shape.clocks != Clocks::Beyond {
            self.judge_permits();
        }
        self.judge_bounds();
    }

    /// Notes the reasons in the store for which bodies may be lost.
    fn note_excuses(&mut self) {
        let (revision, now) = (self.store().revision(), self.time.passed());
        let by_hand = self.given_by_hand();
        let fleet = self.fleet.as_mut().map(|it| &mut it.excuses);
        let Some(excuses) = fleet.filter(|it| !it.has_looked(revision)) else {
            return;
        };
        let store = locked(&self.store);
        for process in self.processes.iter().flatten() {
            let member = &process.member;
            let of = (process.sender.life, member.server(), member.process());
            excuses.look_at_process(&store, of, now);
        }
        for shard in by_hand {
            excuses.look_at_shard(&store, shard, now);
        }
        excuses.note_looked(revision);
    }

    /// Returns the shards that somebody may give to another server while they are paused. A control that ships does
    /// that by itself only if the owner has failed.
    fn given_by_hand(&self) -> Vec<u16> {
        if self.shape.control.is_none() {
            return (0..self.shape.shards).collect();
        }
        let ledger = self.ledger.lock().expect("no panic");
        let commands = ledger
            .commands
            .iter()
            .filter(|it| it.words[1] == "REASSIGN");
        commands.filter_map(|it| it.words[2].parse().ok()).collect()
    }

    /// Checks that bodies were lost only with the processes that had them, or because a shard was given away by hand.
    fn judge_losses(&mut self) {
        let Some(fleet) = &self.fleet else {
            return;
        };
        let mut book = fleet.book();
        let losses = std::mem::take(&mut book.losses);
        let fault = book.fault.take();
        drop(book);
        let unjust = losses.iter().find(|it| !fleet.excuses.excuse(it));
        let unjust =
            unjust.map(|it| format!("{:?} of {:?}, {:?}", it.made, it.holders, fleet.excuses));
        if let Some(fault) = fault {
            self.find(fault.law, fault.by);
        }
        if let Some(by) = unjust {
            self.find("a body is lost only with who had it", by);
        }
    }

    /// Checks that at most one process may now execute for each shard.
    fn judge_permits(&mut self) {
        for shard in 0..self.shape.shards {
            let holders = self.lives_that_hold(shard);
            let Some(fleet) = &mut self.fleet else {
                return;
            };
            let last = &mut fleet.holders[usize::from(shard)];
            match holders[..] {
                [] => {}
                [one] => {
                    self.tally.permits += u64::from(last.is_some_and(|it| it != one));
                    *last = Some(one);
                }
                _ => {
                    let by = format!(
                        "shard {shard} by processes {holders:?}, in the order in which all began"
                    );
                    return self.find("one process at most holds a permit", by);
                }
            }
        }
    }

    /// Checks that no process has more waiting calls or more guests than it may have.
    fn judge_bounds(&mut self) {
        let Some(fleet) = &self.fleet else {
            return;
        };
        let (waiting, most) = (
            fleet.shape.options.waiting,
            2 * fleet.shape.options.connections,
        );
        let running = self
            .processes
            .iter()
            .flatten()
            .filter_map(|it| it.fleet.as_ref());
        let held = running.map(RunningFleet::held);
        let mut beyond = held.filter(|it| it.most_waiting > waiting || it.guests > most);
        if let Some(beyond) = beyond.next() {
            self.find("no more waits than may", format!("{beyond:?}"));
        }
    }

    /// Returns whether no process is leaving, each shard has a process that may execute now and has the body, and all
    /// calls are answered. If there is no fleet, returns true.
    pub(super) fn are_held(&self) -> bool {
        if self.fleet.is_none() {
            return true;
        }
        let has_body = |shard: u16| {
            let running = self
                .processes
                .iter()
                .flatten()
                .filter_map(|it| it.fleet.as_ref());
            running
                .filter(|it| it.holds(shard, SERVERS))
                .any(|it| it.process.has_body(shard))
        };
        let mut running = self.processes.iter().flatten();
        let stays = |it: &Process| it.fleet.as_ref().is_none_or(|it| !it.is_leaving());
        running.all(stays) && (0..self.shape.shards).all(has_body) && self.are_calls_told()
    }

    /// Returns whether the fleet's clients wait for nothing. If there is no fleet, returns true.
    pub(super) fn are_calls_told(&self) -> bool {
        let fleet = self.fleet.as_ref();
        fleet.is_none_or(|it| it.book().open == 0 && !it.callers.learn_still())
    }

    /// Lets a client ask for the map. If the process that it asks has no place for it, the client asks again.
    fn learn_at_last(&mut self, at: usize) {
        for _ in 0..LEARNINGS {
            self.passes_until(ANSWERED, 0, World::are_calls_told);
            // A process that another one of its server has replaced knows nothing, so it isn't asked.
            let mut running = self.processes.iter().flatten();
            let server = running.find(|it| it.member.kept_lease().is_some());
            let server = server.map(|it| it.sender);
            let fleet = self.fleet.as_mut();
            let Some(fleet) = fleet.filter(|it| !it.callers.knows(at)) else {
                return;
            };
            let server = server.map_or_else(String::new, |it| fleet.shape.address(it));
            fleet.callers.learn(at, &server);
        }
    }

    /// Checks that clients that know the map are answered, once nothing fails any more.
    pub(super) fn judge_last_calls(&mut self) {
        let Some(fleet) = &mut self.fleet else {
            return;
        };
        fleet.callers.forget();
        let (before, count) = (fleet.book().counts, fleet.callers.count());
        (0..count).for_each(|it| self.learn_at_last(it));
        self.passes_until(ANSWERED, 0, World::are_calls_told);
        let Some(fleet) = &mut self.fleet else {
            return;
        };
        for number in 0..LAST_CALLS {
            let (at, key) = (number as usize % count, Chance::new(number).drawn());
            let FleetOfWorld { shape, callers, .. } = fleet;
            callers.call_by(at, shape, key, Retry::Until(LAST));
        }
        let is_over = self.passes_until(ANSWERED, 0, World::are_calls_told);
        let after = self.fleet.as_ref().map(|it| it.book().counts.answered);
        if !is_over || after != Some(before.answered + LAST_CALLS) {
            let by = format!("{before:?} before, {after:?} after");
            self.find("clients are answered once nothing fails", by);
        }
    }

    /// Returns how many calls, bodies and frames of fleets are under way. Bodies count only if a control goes on with
    /// migrations, and only in processes that weren't replaced by another one of their server.
    pub(super) fn left_of_fleets(&self) -> [usize; 3] {
        let Some(fleet) = &self.fleet else {
            return [0; 3];
        };
        let is_judged = self.shape.control.is_some();
        let (mut calls, mut bodies) = (fleet.callers.tasks.count(), 0);
        for process in self.processes.iter().flatten() {
            let held = process.fleet.as_ref().map(RunningFleet::held);
            let held = held.unwrap_or_default();
            calls += held.waiting;
            if is_judged && process.member.kept_lease().is_some() {
                bodies += held.coming + held.used;
            }
        }
        [calls, bodies, fleet.frames().under_way()]
    }

    /// Returns the processes that may execute for the shard now.
    fn lives_that_hold(&self, shard: u16) -> Vec<u64> {
        let holds = |it: &&Process| {
            let fleet = it.fleet.as_ref();
            fleet.is_some_and(|it| it.holds(shard, SERVERS))
        };
        let running = self.processes.iter().flatten();
        running.filter(holds).map(|it| it.sender.life).collect()
    }

    /// Counts the work of the fleet.
    pub(super) fn tally_fleet(&mut self) {
        let Some(fleet) = &self.fleet else {
            return;
        };
        let (book, frames) = (fleet.book(), fleet.frames());
        let (counts, tally) = (book.counts, &mut self.tally);
        (tally.calls, tally.frames) = (book.calls, frames.came);
        (tally.answered, tally.hopped) = (counts.answered, counts.forwarded);
        (tally.unsure, tally.not_made) = (counts.unsure, counts.not_made);
        (tally.handed, tally.bodies_lost) = (counts.handed, counts.lost);
    }
}
