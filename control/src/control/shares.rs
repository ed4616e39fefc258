use super::controller::Controller;
use super::Refusal;
use durkenzo::Stand;
use durkenzo_driver::ServerState;
use std::collections::{BTreeMap, BTreeSet};

/// How many shards each server has that is up and there, and isn't and wasn't drained for good. A shard on its way
/// counts at its destination.
#[derive(Debug, Default)]
pub(super) struct Shares(BTreeMap<u16, Share>);

/// The shards of a server that may move, and how many others it has or gets.
#[derive(Debug, Default)]
struct Share {
    movable: Vec<u16>,
    others: usize,
}

impl Share {
    fn len(&self) -> usize {
        self.movable.len() + self.others
    }
}

impl Shares {
    /// Counts them.
    ///
    /// # Errors
    ///
    /// If the store can't be read.
    pub(super) fn of(control: &mut Controller) -> Result<Shares, Refusal> {
        let mut shares = Shares::default();
        for server in 1..=control.backend.servers() {
            let is_up = control.backend.state_of(server)? == ServerState::Up;
            if is_up && control.is_there(server) && !control.is_kept_empty(server) {
                shares.0.insert(server, Share::default());
            }
        }
        for shard in 0..control.backend.shards() {
            match control.backend.record(shard)?.map(|it| it.stand) {
                Some(Stand::Serving(owner)) => {
                    let share = shares.0.entry(owner);
                    share.and_modify(|it| it.movable.push(shard));
                }
                Some(Stand::Prepared { next, .. } | Stand::Forwarding { next, .. }) => {
                    shares.add(next);
                }
                Some(Stand::Taken { owner, .. } | Stand::Paused(owner)) => shares.add(owner),
                Some(Stand::Vacant) | None => {}
            }
        }
        Ok(shares)
    }

    /// Notes that the server has one shard more.
    pub(super) fn add(&mut self, server: u16) {
        self.0.entry(server).and_modify(|it| it.others += 1);
    }

    /// Notes that these shards don't move.
    pub(super) fn hold(&mut self, shards: &BTreeSet<u16>) {
        for share in self.0.values_mut() {
            let before = share.movable.len();
            share.movable.retain(|it| !shards.contains(it));
            share.others += before - share.movable.len();
        }
    }

    /// Notes that the server gets no shard.
    pub(super) fn remove(&mut self, server: u16) {
        self.0.remove(&server);
    }

    /// Returns the server with the fewest shards, except for these. If several have the fewest, it is the first one.
    fn least(&self, full: &BTreeSet<u16>) -> Option<u16> {
        let takers = self.0.iter().filter(|it| !full.contains(it.0));
        takers.min_by_key(|it| it.1.len()).map(|it| *it.0)
    }

    /// Returns the server with the fewest shards, except for those without any: such a server was drained, or is new.
    /// If several have the fewest, it is the first one.
    pub(super) fn least_of_some(&self) -> Option<u16> {
        let some = self.0.iter().filter(|it| it.1.len() > 0);
        some.min_by_key(|it| it.1.len()).map(|it| *it.0)
    }

    /// Returns the next shard to move, and its destination: from the server with the most shards to the one with the
    /// fewest, except for full servers, until they differ by at most one. The shard counts at its destination from then
    /// on.
    pub(super) fn next(&mut self, full: &BTreeSet<u16>) -> Option<(u16, u16)> {
        let movable = self.0.iter().filter(|it| !it.1.movable.is_empty());
        let (from, most) = movable.max_by_key(|it| it.1.len())?;
        let (from, most, to) = (*from, most.len(), self.least(full)?);
        if most <= self.0.get(&to)?.len() + 1 {
            return None;
        }
        let shard = self.0.get_mut(&from)?.movable.pop()?;
        self.add(to);
        Some((shard, to))
    }
}

#[cfg(test)]
mod tests {
    use super::super::plain_backend::PlainBackend;
    use super::*;

    fn shares(counts: [u16; 3]) -> Shares {
        let share = |count| Share {
            movable: (0..count).collect(),
            others: 0,
        };
        let rows = (1..).zip(counts);
        Shares(rows.map(|it| (it.0, share(it.1))).collect())
    }

    #[test]
    fn shards_go_from_who_has_most_to_who_has_least() {
        let (none, second) = (BTreeSet::new(), BTreeSet::from([2]));
        assert_eq!(Shares::default().next(&none), None);
        assert_eq!(shares([2, 0, 5]).next(&none), Some((4, 2)));
        assert_eq!(shares([2, 0, 5]).next(&second), Some((4, 1)));
        assert_eq!(shares([4, 0, 5]).next(&second), None);
        assert_eq!(shares([3, 3, 4]).next(&none), None);
        // A shard on its way counts at its destination.
        let mut shares = shares([0, 0, 6]);
        let planned: Vec<_> = std::iter::from_fn(|| shares.next(&none)).collect();
        assert_eq!(planned, [(5, 1), (4, 2), (3, 1), (2, 2)]);
    }

    #[test]
    fn a_shard_on_its_way_counts_where_it_goes() {
        let backend = PlainBackend::of(4, Stand::Serving(1));
        backend.plain().stands[0] = Stand::Prepared { owner: 1, next: 2 };
        let mut found = Shares::of(&mut backend.control()).unwrap();
        assert_eq!(found.next(&BTreeSet::new()), Some((3, 2)));
        assert_eq!(found.next(&BTreeSet::new()), None);
    }

    #[test]
    fn who_was_drained_gets_no_shard_of_another_one() {
        let backend = PlainBackend::of(4, Stand::Serving(1));
        backend.plain().stands[0] = Stand::Serving(2);
        let mut control = backend.control();
        let least = |control: &mut Controller| Shares::of(control).unwrap().least_of_some();
        assert_eq!(least(&mut control), Some(2));
        control.kept_empty.insert(2);
        assert_eq!(least(&mut control), Some(1));
    }

    #[test]
    fn who_has_no_shard_or_takes_none_gets_none_of_another_one() {
        let mut shares = shares([2, 1, 0]);
        assert_eq!(shares.least_of_some(), Some(2));
        shares.add(2);
        assert_eq!(shares.least_of_some(), Some(1));
        shares.remove(1);
        assert_eq!(shares.least_of_some(), Some(2));
        shares.remove(2);
        assert_eq!(shares.least_of_some(), None);
    }
}
