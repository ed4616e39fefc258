use crate::key_list::KeyList;
use crate::request::{get_bytes, is_deletion};
use crate::round_step::{AbortedStep, FinishedStep, RoundRequest, RoundStep, StepKind};
use crate::run::{DecidedChange, Origin};
use crate::shard::Lister;
use crate::size::Size;
use crate::work::{Begin, Numbered, Work, WorkOutcome, WorkStep};
use crate::{Key, MapReply, MapRequest, NotDone, OpaqueRequest};
use durkenzo_store::Revision;
use std::collections::{BTreeSet, HashMap, HashSet, VecDeque};
use std::time::Instant;

/// After so many requests, or so many of their bytes, a round takes no more work.
const MOST_REQUESTS: usize = 1_024;
pub(crate) const MOST_BYTES: usize = 1 << 20;

/// How many bits of a client's number are its place in a round. The bits above are the process.
pub(crate) const PLACE_BITS: u32 = 16;

/// The steps that a round takes.
#[derive(Clone, Copy, Debug, Default, PartialEq, Eq)]
pub(crate) enum StepFilter {
    #[default]
    All,
    /// Steps that write nothing in this round, or only delete, because the store took no writes.
    NoGrowth,
    /// Steps that only read. They may be answered without a transaction, or before waiting writes.
    OnlyReads,
}

/// The requests of a group commit: they are decided together and sent together. The writes are within a bound, or
/// belong to one step. So no step is ever made in part.
///
/// Reads see the state before the round's writes. So the reads of a run come before its writes. If a change reads a
/// key, no step writes that key, and no other change reads it. So when the change's writes come first in the next
/// round, the values that decided them are still there.
pub(crate) struct Round {
    pub(crate) number: u64,
    pub(crate) since: Instant,
    pub(crate) requests: Vec<RoundRequest>,
    /// Whether a part of it may have been made, because the outcome of a transaction isn't known.
    pub(crate) may_be_made: bool,
    /// Whether others may have written since its changes were decided.
    pub(crate) is_broken: bool,
    /// The number of the process, with which its clients' numbers begin.
    pub(crate) process: u64,
    pub(crate) filter: StepFilter,
    /// The places of requests whose clients number them.
    numbered: HashMap<u64, usize>,
    steps: Vec<RoundStep>,
    bytes: usize,
    /// How much is written, and how much may be written if it isn't all of one step.
    writes: Size,
    most_writes: Size,
    /// Whether a step came for which there was no more room.
    is_closed: bool,
    read: HashSet<Key>,
    written: HashSet<Key>,
    /// Runs that have written, which read no more; and runs that had to stop.
    wrote: HashSet<u64>,
    stopped: HashSet<u64>,
}

impl Round {
    /// Makes a round in which several steps write at most so many bytes together.
    pub(crate) fn new(number: u64, process: u64, most_bytes: usize, since: Instant) -> Round {
        Round {
            number,
            since,
            requests: Vec::new(),
            may_be_made: false,
            is_broken: false,
            process,
            filter: StepFilter::All,
            numbered: HashMap::new(),
            steps: Vec::new(),
            bytes: 0,
            writes: Size::default(),
            most_writes: Size {
                bytes: most_bytes,
                ..Size::MOST
            },
            is_closed: false,
            read: HashSet::new(),
            written: HashSet::new(),
            wrote: HashSet::new(),
            stopped: HashSet::new(),
        }
    }

    pub(crate) fn is_empty(&self) -> bool {
        self.steps.is_empty()
    }

    /// Returns whether no more work comes in.
    pub(crate) fn is_full(&self) -> bool {
        self.is_closed || self.requests.len() >= MOST_REQUESTS || self.bytes >= MOST_BYTES
    }

    /// Returns whether nobody waits any more for one of its steps, and nothing of it may have been made.
    pub(crate) fn has_unwanted(&self) -> bool {
        let is_unwanted = |it: &RoundStep| !it.step.work.is_wanted();
        !self.may_be_made && self.steps.iter().any(is_unwanted)
    }

    /// Returns whether each of its steps only reads. A step that decides by its reads doesn't count: if it then writes
    /// nothing, no later transaction finds out that its reads were stale.
    pub(crate) fn only_reads(&self) -> bool {
        self.steps.iter().all(|it| it.step.begin.only_reads())
    }

    /// Returns whether it writes, and only deletes.
    pub(crate) fn frees(&self) -> bool {
        let mut writes = self.steps.iter().filter(|it| it.kind.writes()).peekable();
        writes.peek().is_some() && writes.all(|it| it.frees)
    }

    /// Returns how many bytes are written, if several steps write.
    pub(crate) fn bytes_of_several(&self) -> Option<usize> {
        let writes = |it: &&RoundStep| it.kind.writes() && it.count > 0;
        (self.steps.iter().filter(writes).count() > 1).then_some(self.writes.bytes)
    }

    /// Takes the writes that changes decided, as far as there is room. The rest comes first in the next round. Until
    /// these are made, nothing else is written, and no other step of those runs is done.
    pub(crate) fn take_decided(&mut self, decided: &mut VecDeque<DecidedChange>) {
        while let Some(next) = decided.pop_front() {
            if self.filter != StepFilter::All || !self.has_room(Size::of(&next.requests)) {
                decided.push_front(next);
                break;
            }
            self.wrote.insert(next.origin.run);
            self.note_written(&next.requests);
            let bytes = next.requests.iter().map(MapRequest::bytes).collect();
            self.add(next.step, StepKind::Decided, next.origin, bytes, None);
        }
        if !decided.is_empty() {
            self.filter = StepFilter::OnlyReads;
            self.stopped.extend(decided.iter().map(|it| it.origin.run));
        }
    }

    /// Returns whether so much can be written beside the others.
    fn has_room(&self, size: Size) -> bool {
        let is_first = self.writes == Size::default();
        is_first || (self.writes + size).is_within(self.most_writes)
    }

    /// Takes the run's next step, or gives the step back if it must wait for the next round. If there is a lister, it
    /// lists keys.
    pub(crate) fn take(
        &mut self,
        origin: Origin,
        step: WorkStep,
        lister: Option<&mut Lister>,
    ) -> Result<(), WorkStep> {
        let run = origin.run;
        if !self.may_take(run, &step.begin) {
            self.stopped.insert(run);
            return Err(step);
        }
        if !self.has_room(step.begin.size()) {
            // Later steps don't overtake it, so its turn comes.
            self.is_closed = true;
            return Err(step);
        }
        let gets = |keys: &[Key]| keys.iter().map(|it| get_bytes(it)).collect();
        let (kind, bytes) = match &step.begin {
            Begin::Read(keys) => (StepKind::Read, gets(keys)),
            Begin::Scan(_) | Begin::Keys(_) | Begin::Count => {
                let listed = lister.and_then(|it| it.list(&step.begin));
                self.add_list(step, origin, listed);
                return Ok(());
            }
            Begin::Change(keys) => {
                self.stopped.insert(run);
                self.read.extend(keys.iter().cloned());
                (StepKind::Change, gets(keys))
            }
            Begin::Write(requests) | Begin::Numbered(_, requests) => {
                self.wrote.insert(run);
                self.note_written(requests);
                (
                    StepKind::Write,
                    requests.iter().map(MapRequest::bytes).collect(),
                )
            }
            Begin::Opaque(request) => (self.begin_opaque(run, request), vec![request.bytes()]),
        };
        let numbered = step.begin.numbered();
        self.add(step, kind, origin, bytes, numbered);
        Ok(())
    }

    fn begin_opaque(&mut self, run: u64, request: &OpaqueRequest) -> StepKind {
        if request.only_reads() {
            return StepKind::Read;
        }
        self.wrote.insert(run);
        self.writes = self.writes + request.size();
        StepKind::Write
    }

    fn add_list(&mut self, step: WorkStep, origin: Origin, listed: Option<KeyList>) {
        let bytes = KeyList::requests(listed.as_ref());
        self.add(step, StepKind::List, origin, bytes, None);
        if let Some(step) = self.steps.last_mut() {
            step.listed = listed;
        }
    }

    fn may_take(&self, run: u64, begin: &Begin) -> bool {
        let reads = |it: &MapRequest| self.read.contains(it.key());
        let is_waiting = |it: Numbered| self.numbered.contains_key(&it.first());
        let may = match begin {
            Begin::Read(_) | Begin::Scan(_) | Begin::Keys(_) | Begin::Count => {
                !self.wrote.contains(&run)
            }
            Begin::Change(keys) => {
                let is_taken = |it| self.written.contains(it) || self.read.contains(it);
                !self.wrote.contains(&run) && !keys.iter().any(is_taken)
            }
            Begin::Write(requests) => !requests.iter().any(reads),
            // A client that numbers its requests has only one number waiting at a time.
            Begin::Numbered(numbered, requests) => {
                !is_waiting(*numbered) && !requests.iter().any(reads)
            }
            Begin::Opaque(request) if request.only_reads() => !self.wrote.contains(&run),
            Begin::Opaque(request) => !request.numbered().is_some_and(is_waiting),
        };
        let is_wanted = match self.filter {
            StepFilter::All => true,
            StepFilter::NoGrowth => begin.takes_no_room(),
            StepFilter::OnlyReads => begin.only_reads(),
        };
        may && is_wanted && !self.stopped.contains(&run)
    }

    fn note_written(&mut self, requests: &[MapRequest]) {
        self.writes = self.writes + Size::of(requests);
        self.written
            .extend(requests.iter().map(|it| it.key().clone()));
    }

    fn add(
        &mut self,
        step: WorkStep,
        kind: StepKind,
        origin: Origin,
        requests: Vec<Vec<u8>>,
        numbered: Option<Numbered>,
    ) {
        self.since = self.since.min(origin.since);
        let (first, count, place) = (self.requests.len(), requests.len(), self.steps.len());
        self.bytes += requests.iter().map(Vec::len).sum::<usize>();
        let frees = kind.writes() && count > 0 && requests.iter().all(|it| is_deletion(it));
        let floor = self.process << PLACE_BITS;
        for (at, bytes) in requests.into_iter().enumerate() {
            let (client, number) = match numbered {
                Some(it) => (it.first() + at as u64, it.number),
                None => (floor + (first + at) as u64, self.number),
            };
            if numbered.is_some() {
                self.numbered.insert(client, first + at);
            }
            self.requests.push(RoundRequest {
                bytes,
                client,
                number,
                step: place,
                reply: None,
                waits_at: None,
            });
        }
        self.steps.push(RoundStep {
            step,
            kind,
            origin,
            first,
            count,
            listed: None,
            frees,
            ends: None,
        });
    }

    /// Returns the request with this client and number, if it is in this round.
    pub(crate) fn request_by(&mut self, client: u64, number: u64) -> Option<&mut RoundRequest> {
        let floor = self.process << PLACE_BITS;
        let place = self.numbered.get(&client).copied();
        let place = place.or_else(|| usize::try_from(client.checked_sub(floor)?).ok())?;
        let request = self.requests.get_mut(place)?;
        (request.client == client && request.number == number).then_some(request)
    }

    /// Returns the origin of this request's step.
    pub(crate) fn origin_of(&self, request: &RoundRequest) -> Option<Origin> {
        Some(self.steps.get(request.step)?.origin)
    }

    /// Returns whether the request's client numbers its requests.
    pub(crate) fn is_numbered(&self, request: &RoundRequest) -> bool {
        self.numbered.contains_key(&request.client)
    }

    /// Ends the step at this place with this reason.
    pub(crate) fn end_step(&mut self, place: usize, why: NotDone) {
        if let Some(step) = self.steps.get_mut(place) {
            step.ends = Some(why);
        }
    }

    /// Ends all steps that write with this reason, and returns whether there are some. If some steps only delete, and
    /// others write more, the deletions begin again without the others, unless they may have been made.
    pub(crate) fn end_writes(&mut self, why: &NotDone) -> bool {
        let grows = |it: &RoundStep| it.kind.writes() && !it.frees;
        let are_aborted = !self.may_be_made && self.steps.iter().any(grows);
        let ends = |it: &&mut RoundStep| it.kind.writes() && !(are_aborted && it.frees);
        let writes = self.steps.iter_mut().filter(ends);
        writes.map(|it| it.ends = Some(why.clone())).count() > 0
    }

    /// Ends all steps of this run with this reason.
    pub(crate) fn end_run(&mut self, run: u64, why: &NotDone) {
        let of_run = self.steps.iter_mut().filter(|it| it.origin.run == run);
        of_run.for_each(|it| it.ends = Some(why.clone()));
    }

    /// Returns whether it has writes that a change decided, and of which nothing was made.
    pub(crate) fn has_undone_change(&self) -> bool {
        let is_undone = |it: &RoundStep| {
            let requests = self.requests[it.first..][..it.count].iter();
            it.kind == StepKind::Decided && requests.clone().any(|it| it.reply.is_none())
        };
        self.steps.iter().any(is_undone)
    }

    /// Returns whether keys were listed by another server than the one at which their requests wait, or by an earlier
    /// head than that server has now, which `logged` tells. Then they may not be the keys that it has.
    pub(crate) fn is_listed_elsewhere(&self, logged: impl Fn(u16) -> Option<Revision>) -> bool {
        let is_elsewhere = |it: &RoundStep| {
            let requests = self.requests[it.first..][..it.count].iter();
            let mut undone = requests.filter(|it| it.reply.is_none());
            undone.any(|request| match (&it.listed, request.waits_at) {
                (Some(listed), Some(server)) => !listed.is_by(server, logged(server)),
                _ => true,
            })
        };
        let mut lists = self.steps.iter().filter(|it| it.kind == StepKind::List);
        lists.any(is_elsewhere)
    }

    /// Returns whether each request has its reply.
    pub(crate) fn is_replied(&self) -> bool {
        self.requests.iter().all(|it| it.reply.is_some())
    }

    /// Returns the servers at which requests wait.
    pub(crate) fn waits_at(&self) -> BTreeSet<u16> {
        let waits = self.requests.iter().filter(|it| it.reply.is_none());
        waits.filter_map(|it| it.waits_at).collect()
    }

    /// Takes back the requests that wait at this server, so that they are decided again, and drops the server's lists,
    /// so that the round lists again. If the round may have been made, its lists stay, because its transaction compared
    /// the head for which they are right.
    pub(crate) fn take_back(&mut self, server: u16) {
        for it in &mut self.requests {
            if it.waits_at == Some(server) {
                it.waits_at = None;
            }
        }
        if self.may_be_made {
            return;
        }
        let requests = &self.requests;
        for it in &mut self.steps {
            let is_undone = replies_of(&requests[it.first..][..it.count]).is_none();
            it.listed = it
                .listed
                .take()
                .filter(|list| !(is_undone && list.is_of(server)));
        }
    }

    /// Returns the outcome of each step, once each request has its reply.
    pub(crate) fn finished(self) -> Vec<FinishedStep> {
        let mut replies = self.requests.into_iter().filter_map(|it| it.reply);
        let finished = self.steps.into_iter().map(|mut it| {
            let told: Vec<MapReply> = replies.by_ref().take(it.count).collect();
            let told = it.told(told);
            if it.kind != StepKind::Change {
                return FinishedStep::Told(it.step.work, Ok(told));
            }
            let requests = it.step.work.decide(told);
            match (NotDone::if_too_large(&requests), requests.is_empty()) {
                (Some(why), _) => FinishedStep::Told(it.step.work, Err(why)),
                (None, true) => FinishedStep::Told(it.step.work, Ok(Vec::new())),
                (None, false) => FinishedStep::Decided(DecidedChange {
                    origin: it.origin,
                    step: it.step,
                    requests,
                }),
            }
        });
        finished.collect()
    }

    /// Returns the outcome of each step, if no request without a reply was made or will be.
    pub(crate) fn aborted(self) -> Vec<AbortedStep> {
        let requests = self.requests;
        let aborted = self.steps.into_iter().map(|mut it| {
            let replies =
                replies_of(&requests[it.first..][..it.count]).map(|replies| it.told(replies));
            match (replies.filter(|_| it.kind != StepKind::Change), it.ends) {
                (Some(replies), _) => AbortedStep::Told(it.step.work, Ok(replies)),
                (None, Some(why)) => AbortedStep::Told(it.step.work, Err(why)),
                (None, None) => AbortedStep::Again(it.origin, it.step),
            }
        });
        aborted.collect()
    }

    /// Returns its works with their outcomes, if it goes no further. Steps with replies have these, and all others
    /// aren't done.
    pub(crate) fn given_up(self, why: &NotDone) -> Vec<(Box<dyn Work>, WorkOutcome)> {
        let requests = self.requests;
        let told = self.steps.into_iter().map(|mut it| {
            let replies =
                replies_of(&requests[it.first..][..it.count]).map(|replies| it.told(replies));
            let outcome = match replies.filter(|_| it.kind != StepKind::Change) {
                Some(replies) => Ok(replies),
                None => Err(why.clone()),
            };
            (it.step.work, outcome)
        });
        told.collect()
    }
}

/// Returns the replies to these requests, if each has one.
fn replies_of(requests: &[RoundRequest]) -> Option<Vec<MapReply>> {
    requests.iter().map(|it| it.reply.clone()).collect()
}

#[cfg(test)]
#[allow(clippy::disallowed_methods)]
mod tests {
    use super::*;
    use crate::key_list::Found;

    struct Counting;

    impl Work for Counting {
        fn decide(&mut self, _held: Vec<MapReply>) -> Vec<MapRequest> {
            Vec::new()
        }

        fn is_wanted(&self) -> bool {
            true
        }

        fn spell(&self) -> Vec<u8> {
            Vec::new()
        }

        fn answered(self: Box<Self>, _answer: &[u8]) {}

        fn end(self: Box<Self>, _outcome: WorkOutcome) {}
    }

    /// Returns whether a round for which server 1 has listed lists again, if the server is read again and has the same
    /// head.
    fn lists_anew_once_read_again(may_be_made: bool) -> bool {
        let (since, logged) = (Instant::now(), Revision(1));
        let mut round = Round::new(1, 1, MOST_BYTES, since);
        let (begin, work) = (Begin::Count, Box::new(Counting));
        let (run, came) = (1, None);
        let listed = KeyList::new(1, logged, Found::Count(7));
        round.add_list(
            WorkStep { begin, work },
            Origin { run, since, came },
            Some(listed),
        );
        round.requests[0].waits_at = Some(1);
        assert!(!round.is_listed_elsewhere(|_| Some(logged)));
        round.may_be_made = may_be_made;
        round.take_back(1);
        assert_eq!(round.requests[0].waits_at, None);
        round.requests[0].waits_at = Some(1);
        round.is_listed_elsewhere(|_| Some(logged))
    }

    #[test]
    fn a_round_lists_anew_once_its_server_is_read_again_unless_it_may_be_made() {
        assert!(lists_anew_once_read_again(false));
        assert!(!lists_anew_once_read_again(true));
    }
}
