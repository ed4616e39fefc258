//! The watches of a store. Each is at a member, and is followed as the store's client would.
use crate::etcd::{Heard, RangeQuery, Reached};
use crate::fault::Fault;
use crate::simulated_store::SimulatedStore;
use crate::told;
use durkenzo_store::{KeyChange, Reading, Revision, Seen, Watcher};
use std::collections::{BTreeMap, VecDeque};

/// How many revisions may be told at once.
const MOST_AT_ONCE: u64 = 3;

/// The next thing that a watch tells.
enum Next {
    /// The values at the watch's beginning.
    First(Reading),
    /// The values as they are now, because changes may have been missed.
    Anew,
    Changes,
}

/// A watch, and the changes that it hasn't told yet.
struct Followed {
    prefix: Vec<u8>,
    /// The number of its route to the members.
    route: usize,
    /// It is `None` while the watch tells something.
    watcher: Option<Watcher>,
    /// The revision up to which the watch has told everything.
    moment: u64,
    next: Next,
    /// The changes that come after the next thing to tell, by their revisions.
    untold: VecDeque<(u64, Vec<KeyChange>)>,
}

impl Followed {
    fn range(&self) -> RangeQuery {
        RangeQuery {
            end: end_of(&self.prefix),
            ..RangeQuery::of_key(&self.prefix)
        }
    }

    fn note(&mut self, revision: u64, changes: &[KeyChange]) {
        let heard = changes.iter().filter(|it| it.key.starts_with(&self.prefix));
        let heard: Vec<KeyChange> = heard.cloned().collect();
        if !heard.is_empty() {
            self.untold.push_back((revision, heard));
        }
    }

    /// Returns whether the watch has something to tell. `told` is the revision up to which its member tells changes.
    fn has_more(&self, told: Option<u64>) -> bool {
        match self.next {
            Next::First(_) | Next::Anew => true,
            Next::Changes => {
                let first = self.untold.front();
                first.is_some_and(|it| told.is_some_and(|told| it.0 <= told))
            }
        }
    }

    /// Returns the next changes up to the revision `told`, from at most `most` revisions.
    fn changes(&mut self, told: u64, most: u64) -> Option<Seen> {
        let mut all = Vec::new();
        for _ in 0..most {
            if self.untold.front().is_none_or(|it| it.0 > told) {
                break;
            }
            if let Some((revision, changes)) = self.untold.pop_front() {
                self.moment = revision;
                all.extend(changes);
            }
        }
        (!all.is_empty()).then_some(Seen::Changes(Revision(self.moment), all))
    }
}

/// Returns the first key after all keys with this prefix.
fn end_of(prefix: &[u8]) -> Vec<u8> {
    match prefix.iter().rposition(|it| *it < u8::MAX) {
        Some(at) => [&prefix[..at], &[prefix[at] + 1]].concat(),
        None => vec![0],
    }
}

/// The watches of a store, by their numbers.
#[derive(Default)]
pub struct Watches {
    followed: BTreeMap<u64, Followed>,
    /// How many watches there were.
    count: u64,
}

impl Watches {
    /// Makes each watch tell the changes of this revision later.
    pub fn note(&mut self, revision: u64, changes: &[KeyChange]) {
        let followed = self.followed.values_mut();
        followed.for_each(|it| it.note(revision, changes));
    }

    /// Returns how many watches there are.
    pub fn len(&self) -> usize {
        self.followed.len()
    }
}

impl SimulatedStore {
    /// Begins a watch, and returns its number.
    pub fn watch(&mut self, prefix: &[u8], watcher: Watcher, route: usize) -> u64 {
        let all = self.range(prefix, |it| it.starts_with(prefix), usize::MAX);
        let followed = Followed {
            prefix: prefix.to_vec(),
            route,
            watcher: Some(watcher),
            moment: all.revision.0,
            next: Next::First(all),
            untold: VecDeque::new(),
        };
        self.watches.count += 1;
        self.watches.followed.insert(self.watches.count, followed);
        self.watches.count
    }

    /// Ends a watch.
    pub fn unwatch(&mut self, number: u64) {
        self.watches.followed.remove(&number);
    }

    /// Returns the revision up to which the current member of this route tells changes. Returns `None` if it tells
    /// nothing.
    fn told_by(&self, route: usize) -> Option<u64> {
        let (now, revision) = (self.time.passed(), self.revision());
        match self.is_calm {
            true => Some(revision),
            false => self
                .members
                .told(self.routes[route].current(), now, revision),
        }
    }

    /// Returns a random watch that has something to tell, and the thing that it tells.
    pub fn hear(&mut self) -> Option<(u64, Watcher, Seen)> {
        self.leave_a_member();
        let has_more = |it: &(&u64, &Followed)| it.1.has_more(self.told_by(it.1.route));
        let followed = self.watches.followed.iter();
        let numbers: Vec<u64> = followed.filter(has_more).map(|it| *it.0).collect();
        let at = self.chance.below(numbers.len().max(1) as u64) as usize;
        let number = *numbers.get(at)?;
        let column = self.column_of(self.watches.followed.get(&number)?.route);
        if self.fails(Fault::WatchBreaks, 16, column) {
            self.ask_anew(number);
        }
        let (watcher, seen) = self.next_of(number)?;
        let seen = self.misheard(seen);
        self.timeline.note(column, || told::seen(&seen));
        Some((number, watcher, seen))
    }

    /// Makes a watch whose member is silent leave it for the next member of its route, by chance.
    fn leave_a_member(&mut self) {
        if self.is_calm {
            return;
        }
        let is_silent = |it: &(&u64, &Followed)| self.told_by(it.1.route).is_none();
        let silent = self.watches.followed.iter().find(is_silent);
        let Some(number) = silent.map(|it| *it.0) else {
            return;
        };
        if self.chance.is_true(1, 4) {
            self.ask_anew(number);
        }
    }

    /// Makes a watch begin again at the next member of its route, from its moment on. So it hears whether changes after
    /// that moment were compacted.
    fn ask_anew(&mut self, number: u64) {
        let Some(followed) = self.watches.followed.get_mut(&number) else {
            return;
        };
        self.routes[followed.route].pass_over();
        if !matches!(followed.next, Next::Changes) {
            return;
        }
        match self.keyspace.heard(&followed.range(), followed.moment) {
            Heard::Compacted(_) => followed.next = Next::Anew,
            Heard::Changes(changes) => {
                followed.untold.clear();
                let later = changes.iter().filter(|it| it.revision.0 > followed.moment);
                for change in later {
                    match followed.untold.back_mut() {
                        Some(last) if last.0 == change.revision.0 => last.1.push(change.clone()),
                        _ => followed
                            .untold
                            .push_back((change.revision.0, vec![change.clone()])),
                    }
                }
            }
        }
    }

    /// Returns the next thing that the watch tells, if it can tell anything.
    fn next_of(&mut self, number: u64) -> Option<(Watcher, Seen)> {
        let followed = self.watches.followed.get(&number)?;
        let (route, prefix) = (followed.route, followed.prefix.clone());
        let told = self.told_by(route);
        let most = match self.chance.is_true(1, 4) {
            true => 1 + self.chance.below(MOST_AT_ONCE),
            false => 1,
        };
        let is_anew = matches!(followed.next, Next::Anew);
        if is_anew && self.reached(route) != Reached::Answers {
            return None;
        }
        let all = is_anew.then(|| self.range(&prefix, |it| it.starts_with(&prefix), usize::MAX));
        let followed = self.watches.followed.get_mut(&number)?;
        // If the watch is telling something now, it must finish that first.
        let watcher = followed.watcher.take()?;
        let seen = match (std::mem::replace(&mut followed.next, Next::Changes), all) {
            (Next::First(first), _) => Some(Seen::All(first)),
            (Next::Anew, Some(all)) => {
                followed.moment = all.revision.0;
                followed.untold.clear();
                Some(Seen::All(all))
            }
            (Next::Anew | Next::Changes, _) => followed.changes(told.unwrap_or(0), most),
        };
        match seen {
            Some(seen) => Some((watcher, seen)),
            None => {
                followed.watcher = Some(watcher);
                None
            }
        }
    }

    /// Makes a watch go on after it has told something.
    pub fn heard(&mut self, number: u64, watcher: Watcher) {
        if let Some(followed) = self.watches.followed.get_mut(&number) {
            followed.watcher = Some(watcher);
        }
    }
}
