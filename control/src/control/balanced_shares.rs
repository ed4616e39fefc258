//! Which shard a balancer moves next. Proved code decides whether it may move.
use super::controller::Controller;
use super::Refusal;
use durkenzo::Stand;
use durkenzo_driver::ServerState;
use std::collections::{BTreeMap, BTreeSet};

/// A server is uneven if its weight differs from the mean by more than this part of the mean, in percent.
const UNEVEN: u128 = 20;
/// Once shards move, they do until no server's weight differs from the mean by more than this.
const EVEN: u128 = 10;
/// After a move its destination's weight must be less than that of the other server before, by at least this part of
/// the mean, in percent. So a shard doesn't move back once its weight changes a little.
const GAIN: u128 = 5;
/// A shard moves only if its weight is at least this part of the mean of shards, in percent: a lighter one gains too
/// little for a move.
const WORTH: u128 = 25;
/// The most servers between which moves are looked for, from those with the greatest and the least weight on.
const MOST_LOOKED_AT: usize = 64;

/// The weights of the shards of each server that is up and there, and that isn't kept empty. A shard on its way counts
/// at its destination.
#[derive(Debug, Default)]
pub(super) struct BalancedShares(BTreeMap<u16, BalancedShare>);

/// The shards of a server that may move, with their weights, and the number and the weight of all its shards.
#[derive(Debug, Default)]
struct BalancedShare {
    movable: Vec<(u16, u64)>,
    count: usize,
    weight: u64,
}

/// A move that makes two servers more even.
#[derive(Clone, Copy, Debug, PartialEq, Eq)]
pub(super) struct EveningMove {
    pub(super) shard: u16,
    pub(super) from: u16,
    pub(super) to: u16,
    /// The weights of the shard, and of both servers before the move.
    pub(super) weight: u64,
    pub(super) from_weight: u64,
    pub(super) to_weight: u64,
}

/// What can't move, or takes no shard.
#[derive(Debug, Default)]
pub(super) struct LeftOut {
    pub(super) shards: BTreeSet<u16>,
    pub(super) servers: BTreeSet<u16>,
}

impl BalancedShares {
    /// Adds the weights up. Shards that come home to a server that is away stay where they are.
    ///
    /// # Errors
    ///
    /// If the store can't be read.
    pub(super) fn of(control: &mut Controller) -> Result<BalancedShares, Refusal> {
        let mut shares = BalancedShares::default();
        for server in 1..=control.backend.servers() {
            let is_up = control.backend.state_of(server)? == ServerState::Up;
            if is_up && control.is_there(server) && !control.is_kept_empty(server) {
                shares.0.insert(server, BalancedShare::default());
            }
        }
        for shard in 0..control.backend.shards() {
            let weight = control
                .loads
                .get(&shard)
                .copied()
                .unwrap_or_default()
                .weight();
            let stand = control.backend.record(shard)?.map(|it| it.stand);
            let at = match stand {
                Some(Stand::Prepared { next, .. } | Stand::Forwarding { next, .. }) => next,
                Some(Stand::Serving(owner) | Stand::Paused(owner) | Stand::Taken { owner, .. }) => {
                    owner
                }
                Some(Stand::Vacant) | None => continue,
            };
            let may_move = matches!(stand, Some(Stand::Serving(_)));
            let is_home = !control.homes.contains_key(&shard);
            if let Some(share) = shares.0.get_mut(&at) {
                share.weight = share.weight.saturating_add(weight);
                share.count += 1;
                if may_move && is_home {
                    share.movable.push((shard, weight));
                }
            }
        }
        Ok(shares)
    }

    /// Returns whether a server's weight differs much from the mean; or, once shards move, not little.
    pub(super) fn is_uneven(&self, is_evening: bool) -> bool {
        let part = if is_evening { EVEN } else { UNEVEN };
        self.0.values().any(|it| self.differs(it.weight, part))
    }

    /// Returns whether the weight differs from the mean by more than this part of it, in percent.
    fn differs(&self, weight: u64, part: u128) -> bool {
        let (sum, count) = (self.sum(), self.0.len() as u128);
        let times = 100 * count * u128::from(weight);
        times > (100 + part) * sum || times < (100 - part) * sum
    }

    fn sum(&self) -> u128 {
        self.0.values().map(|it| u128::from(it.weight)).sum()
    }

    /// Returns the number of shards.
    fn count(&self) -> u128 {
        self.0.values().map(|it| it.count as u128).sum()
    }

    /// Returns the next move: of those from a server with a great weight to one with a small one, the first by which
    /// the two become as even as they can. The shard counts at its destination from then on.
    pub(super) fn next(&mut self, left_out: &LeftOut) -> Option<EveningMove> {
        let mut servers: Vec<(u64, u16)> = self.0.iter().map(|it| (it.1.weight, *it.0)).collect();
        servers.sort_unstable();
        let heaviest = servers.iter().rev().take(MOST_LOOKED_AT);
        let lightest = servers.iter().take(MOST_LOOKED_AT);
        let lightest = lightest.filter(|it| !left_out.servers.contains(&it.1));
        let found = heaviest
            .flat_map(|from| lightest.clone().map(move |to| (from.1, to.1)))
            .find_map(|(from, to)| self.between(from, to, &left_out.shards))?;
        self.note(&found);
        Some(found)
    }

    /// Returns the move between these servers that makes them as even as possible, if one of them differs from the mean
    /// and the move gains enough.
    fn between(&self, from: u16, to: u16, held: &BTreeSet<u16>) -> Option<EveningMove> {
        let (giver, taker) = (self.0.get(&from)?, self.0.get(&to)?);
        let is_due = self.differs(giver.weight, EVEN) || self.differs(taker.weight, EVEN);
        if !is_due || giver.weight <= taker.weight {
            return None;
        }
        let greater =
            |weight: u64| (giver.weight - weight).max(taker.weight.saturating_add(weight));
        let (sum, servers) = (self.sum(), self.0.len() as u128);
        let is_worth = |weight: u64| 100 * self.count() * u128::from(weight) >= WORTH * sum;
        let movable = giver.movable.iter();
        let movable = movable.filter(|it| !held.contains(&it.0) && is_worth(it.1));
        let (shard, weight) = *movable.min_by_key(|it| greater(it.1))?;
        let after = taker.weight.saturating_add(weight);
        let left = u128::from(giver.weight.checked_sub(after)?);
        let gains = left > 0 && 100 * left * servers >= GAIN * sum;
        gains.then_some(EveningMove {
            shard,
            from,
            to,
            weight,
            from_weight: giver.weight,
            to_weight: taker.weight,
        })
    }

    fn note(&mut self, moved: &EveningMove) {
        if let Some(giver) = self.0.get_mut(&moved.from) {
            giver.movable.retain(|it| it.0 != moved.shard);
            giver.weight -= moved.weight;
            giver.count -= 1;
        }
        if let Some(taker) = self.0.get_mut(&moved.to) {
            taker.weight = taker.weight.saturating_add(moved.weight);
            taker.count += 1;
        }
    }
}

#[cfg(test)]
mod tests {
    use super::super::plain_backend::PlainBackend;
    use super::*;

    /// Returns the shares of servers whose shards have these weights. Shards are numbered through.
    fn shares<const N: usize>(weights: [&[u64]; N]) -> BalancedShares {
        let mut numbers = 0..;
        let rows = (1..).zip(weights).map(|(server, weights)| {
            let movable: Vec<_> = numbers.by_ref().zip(weights.iter().copied()).collect();
            let share = BalancedShare {
                movable,
                count: weights.len(),
                weight: weights.iter().sum(),
            };
            (server, share)
        });
        BalancedShares(rows.collect())
    }

    fn moves(mut shares: BalancedShares, left_out: &LeftOut) -> Vec<(u16, u16)> {
        let moves = std::iter::from_fn(|| shares.next(left_out));
        moves.map(|it| (it.shard, it.to)).collect()
    }

    #[test]
    fn little_differences_stay() {
        let even = shares([&[1; 22], &[1; 21], &[1; 21]]);
        assert!(!even.is_uneven(false) && !even.is_uneven(true));
        assert_eq!(moves(even, &LeftOut::default()), []);
        let less = shares([&[1; 23], &[1; 23], &[1; 18]]);
        assert!(!less.is_uneven(false) && less.is_uneven(true));
        // Two shards on three servers are as even as they can be.
        let two = shares([&[1], &[1], &[]]);
        assert!(two.is_uneven(false));
        assert_eq!(moves(two, &LeftOut::default()), []);
        assert!(!BalancedShares::default().is_uneven(true));
        assert!(!shares([&[0], &[]]).is_uneven(false));
    }

    #[test]
    fn the_shard_moves_that_evens_out_best() {
        let heavy = [8, 5, 3, 1];
        assert_eq!(moves(shares([&heavy, &[]]), &LeftOut::default()), [(0, 2)]);
        let left_out = LeftOut {
            shards: [0].into(),
            servers: [3].into(),
        };
        let moved = moves(shares([&heavy, &[1], &[]]), &left_out);
        assert_eq!(moved, [(1, 2), (2, 2)]);
    }

    #[test]
    fn one_heavy_shard_stays_and_others_leave_its_server() {
        let mut weights = vec![100];
        weights.extend([10; 5]);
        let moved = moves(shares([&weights, &[10; 5], &[10; 5]]), &LeftOut::default());
        assert_eq!(moved.len(), 5);
        assert!(!moved.iter().any(|it| it.0 == 0), "{moved:?}");
    }

    #[test]
    fn shards_that_come_home_later_and_servers_that_are_kept_empty_are_left_alone() {
        let backend = PlainBackend::of(4, Stand::Serving(1));
        let mut control = backend.control();
        control.homes.extend([(0, 2), (1, 2), (2, 2)]);
        let mut found = BalancedShares::of(&mut control).unwrap();
        let moved = found.next(&LeftOut::default()).unwrap();
        assert_eq!((moved.shard, moved.from, moved.to), (3, 1, 2));
        assert_eq!((moved.from_weight, moved.to_weight), (4, 0));
        assert_eq!(found.next(&LeftOut::default()), None);
        control.kept_empty.insert(2);
        let mut found = BalancedShares::of(&mut control).unwrap();
        assert_eq!(found.next(&LeftOut::default()), None);
    }

    #[test]
    fn a_shard_on_its_way_counts_where_it_goes() {
        let backend = PlainBackend::of(4, Stand::Serving(1));
        backend.plain().stands[..2].fill(Stand::Prepared { owner: 1, next: 2 });
        let mut found = BalancedShares::of(&mut backend.control()).unwrap();
        assert!(!found.is_uneven(true));
        assert_eq!(found.next(&LeftOut::default()), None);
    }
}
