use super::destination::RunDestination;
use super::{Action, Lister, ReplicaState, Shard, Ticket};
use crate::decision::Decision;
use crate::proved::ServerRequest;
use crate::round::{Round, StepFilter, PLACE_BITS};
use crate::round_step::{FinishedStep, RoundRequest};
use crate::{Came, MapReply, NotDone};
use durkenzo_store::Revision;
use std::collections::VecDeque;
use std::time::Instant;

/// The servers' verdict about a request.
enum RequestVerdict {
    Replied(MapReply),
    Waits(u16),
    /// No server executes it now.
    Nobody,
    /// This server of another process executes it, and it was then forwarded so often.
    Leaves(u16, u8),
    /// Another server executes it, to which this server doesn't forward it.
    Back,
    /// A later number of its client was made.
    Passed,
    /// Its client was forgotten.
    Forgotten,
    /// The shard keeps as many clients as it may.
    Crowded,
}

/// The servers' verdict about a round.
enum RoundVerdict {
    /// Each request has its reply, or waits at a server.
    Whole,
    /// Some of it goes no further here, so the round is aborted.
    Aborts,
    /// No server executes it now.
    Nobody,
    /// Its outcome isn't known, and never will be.
    Unknown,
}

/// Runs that go to another process: the run, its server, and how often the run was then forwarded.
type ForwardedRuns = Vec<(u64, u16, u8)>;

impl Shard {
    /// Goes on as far as possible now: ends the round and forms the next one, has servers decide, and sends.
    pub(super) fn go_on(&mut self, now: Instant, actions: &mut Vec<Action>) {
        loop {
            if self.round.as_ref().is_some_and(Round::is_replied) {
                self.end_round(actions);
            }
            self.tell_holders(actions);
            if self.holds > 0 {
                return;
            }
            self.route(now, actions);
            self.abort_if_unwanted(actions);
            if self.round.is_none() && !self.form(now) {
                return self.name_base(actions);
            }
            if let Err(server) = self.decide(now, actions) {
                self.read_again(server);
                continue;
            }
            if self.round.as_ref().is_some_and(|it| !it.is_replied()) {
                return;
            }
        }
    }

    fn end_round(&mut self, actions: &mut Vec<Action>) {
        for it in self.round.take().into_iter().flat_map(Round::finished) {
            match it {
                FinishedStep::Told(work, outcome) => actions.push(Action::Tell(work, outcome)),
                FinishedStep::Decided(decided) => self.decided.push_back(decided),
            }
        }
    }

    /// Forms the next round of waiting steps. Returns whether there is one.
    fn form(&mut self, now: Instant) -> bool {
        if self.renews || self.decided.is_empty() && self.runs.is_empty() {
            return false;
        }
        self.rounds += 1;
        // Steps that need no transaction don't wait for steps that do. Steps that take no room don't wait for steps
        // that couldn't be written.
        let makes_room = self.makes_room();
        let is_scant = std::mem::take(&mut self.is_unwritten) || makes_room;
        let first = match (self.is_leased(), is_scant) {
            (_, true) => StepFilter::NoGrowth,
            (true, false) => StepFilter::OnlyReads,
            (false, false) => StepFilter::All,
        };
        let mut round = self.filled(first, now);
        if first != StepFilter::All && round.is_empty() && !makes_room {
            round = self.filled(StepFilter::All, now);
        }
        let is_formed = !round.is_empty();
        self.round = Some(round).filter(|_| is_formed);
        is_formed
    }

    /// Returns a round of waiting steps, as far as the round takes them.
    fn filled(&mut self, takes: StepFilter, now: Instant) -> Round {
        let mut round = Round::new(self.rounds, self.process, self.most_bytes, now);
        round.filter = takes;
        round.take_decided(&mut self.decided);
        self.fill(&mut round, now);
        round
    }

    /// Fills the round with waiting steps. Each run gives its share in turn, until none has more or the round is full,
    /// so that nobody waits behind all requests of a client that asks for much. The run at which the round was full
    /// comes first in the next round.
    fn fill(&mut self, round: &mut Round, now: Instant) {
        let mut runs = std::mem::take(&mut self.runs);
        let mut lister = self.take_lister();
        let (mut firsts, mut again) = (0..runs.len(), VecDeque::new());
        loop {
            let first =
                firsts.find(|it| self.destination_of(&runs[*it], now) == RunDestination::Here);
            let Some(place) = first.or_else(|| again.pop_front()) else {
                break;
            };
            if runs[place].give(round, lister.as_mut()) {
                again.push_back(place);
            }
            if round.is_full() {
                runs.rotate_left(place);
                break;
            }
        }
        runs.retain(|it| !it.steps.is_empty());
        self.runs = runs;
        if let Some(lister) = lister {
            self.end_lister(lister, round);
        }
    }

    /// Puts the lister's server back among the others. If a call failed, the server reads the shard again, and the
    /// round for which it listed lists again.
    fn end_lister(&mut self, lister: Lister, round: &mut Round) {
        let (server, state, has_failed) = lister.end();
        self.replicas.insert(server, state);
        if has_failed {
            self.read_again(server);
            round.take_back(server);
        }
    }

    /// Makes the executing server the lister, if it is ready. It isn't among the others until the listing ends.
    fn take_lister(&mut self) -> Option<Lister> {
        let server = self.stored.record()?.executor()?;
        let state = self.replicas.remove(&server)?;
        match Lister::new(server, state) {
            Ok(lister) => Some(lister),
            Err(state) => {
                self.replicas.insert(server, state);
                None
            }
        }
    }

    /// Returns the revision of the head that the server has, if it is ready.
    fn logged_of(&self, server: u16) -> Option<Revision> {
        match self.replicas.get(&server)? {
            ReplicaState::Ready(_, at) => Some(at.logged),
            ReplicaState::Unread(_)
            | ReplicaState::Behind(..)
            | ReplicaState::Reading(_)
            | ReplicaState::Sent(..) => None,
        }
    }

    /// Has servers decide all requests of the round that wait nowhere, and sends their transactions; or returns the
    /// server that must be read again.
    fn decide(&mut self, now: Instant, actions: &mut Vec<Action>) -> Result<(), u16> {
        let Some(mut round) = self.round.take() else {
            return Ok(());
        };
        let mut leaving = ForwardedRuns::new();
        let judged = self.judge(&mut round, &mut leaving, now, actions);
        self.round = Some(round);
        match judged? {
            // Steps that are written together are sent together. So nothing is sent as long as no server executes some
            // of them.
            RoundVerdict::Nobody => return Ok(()),
            RoundVerdict::Unknown => {
                self.end_unknown(actions);
                return Ok(());
            }
            RoundVerdict::Aborts => {
                self.abort_round(actions);
                self.note_forwarded(&leaving);
                return Ok(());
            }
            RoundVerdict::Whole => {}
        }
        let ready: Vec<u16> = self.replicas.keys().copied().collect();
        ready.into_iter().try_for_each(|it| self.send(it, actions))
    }

    /// Notes the destinations of runs that this process's server forwards.
    fn note_forwarded(&mut self, leaving: &ForwardedRuns) {
        let revision = self.stored.revision();
        for run in &mut self.runs {
            let found = leaving.iter().find(|it| it.0 == run.origin.run);
            if let Some((_, to, hops)) = found {
                run.leaves = Some((*to, *hops, revision));
            }
        }
    }

    /// Judges the round by the verdicts about its requests.
    fn judge(
        &mut self,
        round: &mut Round,
        leaving: &mut ForwardedRuns,
        now: Instant,
        actions: &mut Vec<Action>,
    ) -> Result<RoundVerdict, u16> {
        let record = self.stored.record();
        let (own, owner) = (self.me(), record.and_then(|it| it.owner()));
        let is_sent = self.is_sent();
        let is_foreign = own.is_some_and(|it| !self.stored.names(it));
        if is_foreign && !round.may_be_made && !is_sent {
            return Ok(RoundVerdict::Aborts);
        }
        let Some(server) = own.or(owner) else {
            return Ok(RoundVerdict::Nobody);
        };
        let found = self.judge_each(round, server, leaving, (now, actions))?;
        if matches!(found, RoundVerdict::Nobody | RoundVerdict::Unknown) {
            return Ok(found);
        }
        if is_sent {
            return Ok(RoundVerdict::Nobody);
        }
        if round.may_be_made && self.unknown_at.is_some() {
            // A copy that comes late may still be made, so the round goes on as it was sent.
            return match found {
                RoundVerdict::Whole => Ok(found),
                RoundVerdict::Aborts | RoundVerdict::Nobody | RoundVerdict::Unknown => {
                    Ok(RoundVerdict::Nobody)
                }
            };
        }
        round.may_be_made = false;
        let is_stale = std::mem::take(&mut round.is_broken) && round.has_undone_change();
        let is_whole = matches!(found, RoundVerdict::Whole);
        let is_listed_anew = is_whole && round.is_listed_elsewhere(|it| self.logged_of(it));
        match is_stale || is_listed_anew {
            true => Ok(RoundVerdict::Aborts),
            false => Ok(found),
        }
    }

    fn judge_each(
        &mut self,
        round: &mut Round,
        server: u16,
        leaving: &mut ForwardedRuns,
        (now, actions): (Instant, &mut Vec<Action>),
    ) -> Result<RoundVerdict, u16> {
        self.is_crowded = false;
        let mut judged = RoundVerdict::Whole;
        for place in 0..round.requests.len() {
            let request = &round.requests[place];
            if request.reply.is_some() || request.waits_at.is_some() {
                continue;
            }
            let finds_out = round.may_be_made;
            let found = self.decide_one(round, request, (server, finds_out), now, actions)?;
            if let Some(judged) = self.note_verdict(round, place, found, leaving, actions) {
                return Ok(judged);
            }
            if !round.requests[place].is_placed() {
                judged = RoundVerdict::Aborts;
            }
        }
        Ok(judged)
    }

    /// Notes the verdict about the request in this place. Returns the verdict about the whole round, if this decides
    /// it.
    fn note_verdict(
        &mut self,
        round: &mut Round,
        place: usize,
        found: RequestVerdict,
        leaving: &mut ForwardedRuns,
        actions: &mut Vec<Action>,
    ) -> Option<RoundVerdict> {
        let request = &round.requests[place];
        let (step, is_numbered) = (request.step, round.is_numbered(request));
        let origin = round.origin_of(request);
        let run = origin.map_or(0, |it| it.run);
        match found {
            RequestVerdict::Replied(reply) => round.requests[place].reply = Some(reply),
            RequestVerdict::Waits(server) => round.requests[place].waits_at = Some(server),
            RequestVerdict::Nobody => return Some(RoundVerdict::Nobody),
            RequestVerdict::Leaves(to, hops) => leaving.push((run, to, hops)),
            RequestVerdict::Back if origin.is_some_and(|it| it.came.is_some()) => {
                round.end_run(run, &NotDone::Moved(self.stored.revision()));
            }
            // Steps that a client gave here go to the owner.
            RequestVerdict::Back => {}
            RequestVerdict::Passed if is_numbered => round.end_step(step, NotDone::Passed),
            RequestVerdict::Crowded if is_numbered => round.end_step(step, NotDone::TooManyClients),
            RequestVerdict::Crowded => {
                self.is_crowded = true;
                return Some(RoundVerdict::Nobody);
            }
            RequestVerdict::Forgotten if !round.may_be_made => {
                self.renews = true;
                actions.push(Action::Renew);
                return Some(RoundVerdict::Aborts);
            }
            RequestVerdict::Passed | RequestVerdict::Forgotten => {
                return Some(RoundVerdict::Unknown)
            }
        }
        None
    }

    /// Has the server decide; if all servers are in this process, also the server to which it forwards.
    fn decide_one(
        &mut self,
        round: &Round,
        request: &RoundRequest,
        (first, finds_out): (u16, bool),
        now: Instant,
        actions: &mut Vec<Action>,
    ) -> Result<RequestVerdict, u16> {
        let came = round.origin_of(request).and_then(|it| it.came);
        let Came { from, hops, .. } = came.unwrap_or(Came::HERE);
        let mut asked = ServerRequest {
            client: request.client,
            number: request.number,
            from,
            hops,
            forgets: self.lowest().min(round.process) << PLACE_BITS,
            request: &request.bytes,
        };
        let mut server = first;
        loop {
            if self.away.contains(&server) && !finds_out {
                return Ok(RequestVerdict::Nobody);
            }
            let Some(core) = self.ready_core(server, now, actions) else {
                return Ok(RequestVerdict::Nobody);
            };
            match core.take(&asked).map_err(|_| server)? {
                Decision::Replied(reply) => return Ok(RequestVerdict::Replied(reply)),
                Decision::Waits => return Ok(RequestVerdict::Waits(server)),
                Decision::Refused | Decision::TooFar => return Ok(self.refused()),
                Decision::NotRead => return Err(server),
                Decision::Passed => return Ok(RequestVerdict::Passed),
                Decision::Forgotten => return Ok(RequestVerdict::Forgotten),
                Decision::TooManyClients => return Ok(RequestVerdict::Crowded),
                Decision::Forwards(to, hops) if self.own.is_some() => {
                    return Ok(RequestVerdict::Leaves(to, hops));
                }
                Decision::Forwards(to, hops) => {
                    (asked.from, asked.hops) = (server, hops);
                    server = to;
                }
            }
        }
    }

    /// Returns the server, if it can decide now. A server that hasn't read the shard, or lacks a part of its log, must
    /// read that.
    pub(super) fn ready_core(
        &mut self,
        server: u16,
        now: Instant,
        actions: &mut Vec<Action>,
    ) -> Option<&mut crate::proved::Core> {
        let replica = self
            .replicas
            .entry(server)
            .or_insert(ReplicaState::Unread(None));
        if let Some(later) = replica.reads_from() {
            if later.is_none_or(|it| it <= now) {
                self.tickets += 1;
                let number = self.tickets;
                let kept = match std::mem::replace(replica, ReplicaState::Reading(number)) {
                    ReplicaState::Behind(core, _) => Some(core),
                    ReplicaState::Unread(_)
                    | ReplicaState::Reading(_)
                    | ReplicaState::Ready(..)
                    | ReplicaState::Sent(..) => None,
                };
                actions.push(Action::Read(Ticket { server, number }, kept));
            }
        }
        match replica {
            ReplicaState::Ready(core, _) => Some(core),
            ReplicaState::Unread(_)
            | ReplicaState::Behind(..)
            | ReplicaState::Reading(_)
            | ReplicaState::Sent(..) => None,
        }
    }

    /// Returns the meaning of a refusal: either no server executes now, or a server of another process does.
    fn refused(&self) -> RequestVerdict {
        let owner = self.stored.record().and_then(|it| it.owner());
        match self.me().zip(owner) {
            Some((me, owner)) if me != owner => RequestVerdict::Back,
            _ => RequestVerdict::Nobody,
        }
    }

    /// Returns the number of the first process whose clients must not be forgotten.
    fn lowest(&self) -> u64 {
        let own = self.own.as_ref();
        own.map_or(self.process, |it| it.lowest())
    }
}
