use crate::call_set::CallSet;
use crate::events::Events;
use crate::linearizable::Verdict;
use crate::{Call, Model};
use std::collections::HashMap;
use std::time::Instant;

/// After how many steps the search looks whether it is time to give up.
const STEPS: u64 = 1_024;

/// A call that may come next.
#[derive(Clone, Copy)]
enum Candidate {
    /// A call with an answer, by its beginning among the events.
    Answered(usize),
    /// A call without an answer, by its number.
    Open(usize),
}

/// A call without an answer.
struct Open<'a, I> {
    input: &'a I,
    began: u64,
    /// The call before it that asks the same.
    twin: Option<usize>,
}

/// A point that the search met: the calls with an answer that are in the order, and the state after it.
type Met<S> = ((usize, Box<[u64]>), S);

/// A search for an order, which tries calls with an answer first.
pub(crate) struct Search<'a, M: Model> {
    answered: Vec<&'a Call<M::Input, M::Output>>,
    open: Vec<Open<'a, M::Input>>,
    events: Events,
    state: M::State,
    taken: CallSet,
    open_taken: CallSet,
    /// The points that were met, each with the fewest calls without an answer that led there. No such call must be
    /// made, so if an order goes on from a point with more of them, it also goes on with fewer.
    seen: HashMap<Met<M::State>, Vec<Box<[u64]>>>,
    /// How many points were met, with repetitions.
    met: usize,
    /// The calls in the order, with the state before each.
    order: Vec<(Candidate, M::State)>,
}

impl<'a, M: Model> Search<'a, M> {
    pub(crate) fn new(calls: &'a [Call<M::Input, M::Output>]) -> Search<'a, M> {
        let (mut answered, mut without): (Vec<_>, Vec<_>) =
            calls.iter().partition(|it| it.output.is_some());
        // In this order, calls that are taken lie close together.
        answered.sort_by_key(|it| it.began);
        without.sort_by_key(|it| it.began);
        let open: Vec<_> = without
            .iter()
            .enumerate()
            .map(|(at, it)| Open {
                input: &it.input,
                began: it.began,
                twin: without[..at]
                    .iter()
                    .rposition(|other| other.input == it.input),
            })
            .collect();
        Search {
            events: Events::new(answered.iter().copied()),
            taken: CallSet::new(answered.len()),
            open_taken: CallSet::new(open.len()),
            answered,
            open,
            state: M::State::default(),
            seen: HashMap::new(),
            met: 0,
            order: Vec::new(),
        }
    }

    /// Searches. Gives up after this many points, or at this moment.
    pub(crate) fn result(mut self, most: usize, end: Option<Instant>) -> Verdict {
        let (mut next, mut steps) = (self.first(), 0);
        while !self.events.is_empty() {
            let is_late = steps % STEPS == 0 && end.is_some_and(|it| Instant::now() >= it);
            if is_late || self.met >= most {
                return Verdict::Undecided;
            }
            steps += 1;
            next = match next {
                Some(it) if self.take(it) => self.first(),
                Some(it) => self.after(it),
                None => match self.take_back() {
                    Some(last) => self.after(last),
                    None => return Verdict::Wrong,
                },
            };
        }
        Verdict::Linearizable
    }

    fn first(&self) -> Option<Candidate> {
        let answered = self.events.first().map(Candidate::Answered);
        answered.or_else(|| self.open_from(0))
    }

    /// Returns the candidate that is tried if this one can't come next.
    fn after(&self, last: Candidate) -> Option<Candidate> {
        match last {
            Candidate::Answered(at) => self
                .events
                .next(at)
                .map(Candidate::Answered)
                .or_else(|| self.open_from(0)),
            Candidate::Open(number) => self.open_from(number + 1),
        }
    }

    /// Returns a call without an answer, from this number on, that has begun, and that is the first among those that
    /// ask the same.
    fn open_from(&self, number: usize) -> Option<Candidate> {
        let end = self.events.first_end();
        (number..self.open.len())
            .take_while(|it| self.open[*it].began <= end)
            .find(|it| {
                let is_first = self.open[*it].twin.is_none_or(|it| self.open_taken.has(it));
                is_first && !self.open_taken.has(*it)
            })
            .map(Candidate::Open)
    }

    /// Puts this call next, if its answer and the points met before allow it.
    fn take(&mut self, next: Candidate) -> bool {
        let (input, output) = match next {
            Candidate::Answered(at) => {
                let call = self.answered[self.events.call(at)];
                (&call.input, call.output.as_ref())
            }
            Candidate::Open(number) => (self.open[number].input, None),
        };
        let (state, found) = M::step(&self.state, input);
        if output.map_or(state == self.state, |it| *it != found) {
            // It was answered with something else, or it has no answer and does nothing.
            return false;
        }
        if self.is_tried_otherwise(next, (input, output), &state) {
            return false;
        }
        self.mark(next, true);
        if !self.is_new(&state) {
            self.mark(next, false);
            return false;
        }
        self.order
            .push((next, std::mem::replace(&mut self.state, state)));
        if let Candidate::Answered(at) = next {
            self.events.take(at);
        }
        true
    }

    /// Notes the point of the order, with this state. Returns whether the point is new, or was met only with more calls
    /// without an answer.
    fn is_new(&mut self, state: &M::State) -> bool {
        let met = self
            .seen
            .entry((self.taken.key(), state.clone()))
            .or_default();
        let open = self.open_taken.bits();
        if met.iter().any(|it| is_part(it, open)) {
            return false;
        }
        met.retain(|it| !is_part(open, it));
        met.push(open.into());
        self.met += 1;
        true
    }

    /// Returns whether the last call of the order has no answer, and this one comes to the same state without it, which
    /// leaves more calls, or before it: then that order is tried too. So such a call comes as late as it may, and if
    /// several calls make no difference to each other, the first of them comes first.
    fn is_tried_otherwise(
        &self,
        next: Candidate,
        (input, output): (&M::Input, Option<&M::Output>),
        state: &M::State,
    ) -> bool {
        let Some((Candidate::Open(last), before)) = self.order.last() else {
            return false;
        };
        let (without, found) = M::step(before, input);
        if output.is_some_and(|it| *it != found) {
            return false;
        }
        let may_come_before = match next {
            Candidate::Answered(_) => true,
            Candidate::Open(number) => number < *last,
        };
        without == *state
            || may_come_before && M::step(&without, self.open[*last].input).0 == *state
    }

    /// Takes the last call of the order back.
    fn take_back(&mut self) -> Option<Candidate> {
        let (last, state) = self.order.pop()?;
        self.state = state;
        self.mark(last, false);
        if let Candidate::Answered(at) = last {
            self.events.put_back(at);
        }
        Some(last)
    }

    fn mark(&mut self, next: Candidate, is_taken: bool) {
        let (set, number) = match next {
            Candidate::Answered(at) => (&mut self.taken, self.events.call(at)),
            Candidate::Open(number) => (&mut self.open_taken, number),
        };
        match is_taken {
            true => set.add(number),
            false => set.remove(number),
        }
    }
}

/// Returns whether all of these calls are among the others.
fn is_part(some: &[u64], others: &[u64]) -> bool {
    some.iter().zip(others).all(|(it, other)| it & !other == 0)
}
