use crate::Call;

/// The beginning or the end of a call with an answer.
struct Event {
    call: usize,
    moment: u64,
    is_end: bool,
    before: usize,
    after: usize,
}

/// The list begins and ends here.
const HEAD: usize = 0;

/// The beginnings and ends of all calls with an answer that aren't in the order yet, in the order of their moments.
pub(crate) struct Events {
    events: Vec<Event>,
    /// By beginning, the place of its end.
    ends: Vec<usize>,
    left: usize,
}

impl Events {
    /// Returns the events of these calls, which must all have an answer.
    pub(crate) fn new<'a, I: 'a, O: 'a>(calls: impl Iterator<Item = &'a Call<I, O>>) -> Events {
        let mut moments: Vec<_> = calls
            .enumerate()
            .flat_map(|(call, it)| [(it.began, false, call), (it.ended, true, call)])
            .collect();
        // Of the events at one moment, beginnings come first, because calls that may overlap do overlap.
        moments.sort_unstable();
        let count = moments.len();
        let mut events = vec![Event {
            call: usize::MAX,
            moment: u64::MAX,
            is_end: true,
            before: count,
            after: 1 % (count + 1),
        }];
        let mut end_of = vec![HEAD; count / 2];
        for (at, &(moment, is_end, call)) in moments.iter().enumerate() {
            if is_end {
                end_of[call] = at + 1;
            }
            let after = (at + 2) % (count + 1);
            events.push(Event {
                call,
                moment,
                is_end,
                before: at,
                after,
            });
        }
        let ends = events
            .iter()
            .map(|it| end_of.get(it.call).copied().unwrap_or(HEAD))
            .collect();
        Events {
            events,
            ends,
            left: count / 2,
        }
    }

    /// Returns whether all calls are in the order.
    pub(crate) fn is_empty(&self) -> bool {
        self.left == 0
    }

    /// Returns the first beginning, if it comes before each end.
    pub(crate) fn first(&self) -> Option<usize> {
        self.next(HEAD)
    }

    /// Returns the next beginning, if it comes before each end.
    pub(crate) fn next(&self, at: usize) -> Option<usize> {
        let after = self.events[at].after;
        (!self.events[after].is_end).then_some(after)
    }

    /// Returns the call of a beginning.
    pub(crate) fn call(&self, at: usize) -> usize {
        self.events[at].call
    }

    /// Returns the moment of the first end. The next call in the order began before it.
    pub(crate) fn first_end(&self) -> u64 {
        let mut at = self.events[HEAD].after;
        while !self.events[at].is_end {
            at = self.events[at].after;
        }
        self.events[at].moment
    }

    /// Puts the call of this beginning into the order.
    pub(crate) fn take(&mut self, at: usize) {
        self.unlink(at);
        self.unlink(self.ends[at]);
        self.left -= 1;
    }

    /// Takes the call that was taken last out of the order again.
    pub(crate) fn put_back(&mut self, at: usize) {
        self.link(self.ends[at]);
        self.link(at);
        self.left += 1;
    }

    fn unlink(&mut self, at: usize) {
        let Event { before, after, .. } = self.events[at];
        self.events[before].after = after;
        self.events[after].before = before;
    }

    fn link(&mut self, at: usize) {
        let Event { before, after, .. } = self.events[at];
        self.events[before].after = at;
        self.events[after].before = at;
    }
}
