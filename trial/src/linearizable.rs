use crate::search::Search;
use crate::{Call, Model};
use std::time::Instant;

/// The result of the search for an order.
#[derive(Clone, Copy, Debug, PartialEq, Eq)]
pub enum Verdict {
    /// An order of one thread explains all answers.
    Linearizable,
    /// No order explains them.
    Wrong,
    /// No order was found before the search was given up.
    Undecided,
}

/// How many sets of calls, with their states, a search meets before it is given up.
const MOST_SEEN: usize = 2_000_000;

/// Returns whether an order of these calls explains all answers. In the order, each call lies between its beginning and
/// its end; a call without an answer lies anywhere after its beginning, or isn't in it.
pub fn judge<M: Model>(calls: &[Call<M::Input, M::Output>]) -> Verdict {
    Search::<M>::new(calls).result(MOST_SEEN, None)
}

/// Does the same as [`judge`], but gives up the search at this moment.
pub fn judge_until<M: Model>(calls: &[Call<M::Input, M::Output>], end: Instant) -> Verdict {
    Search::<M>::new(calls).result(MOST_SEEN, Some(end))
}

/// Returns whether [`judge`] finds such an order.
pub fn is_linearizable<M: Model>(calls: &[Call<M::Input, M::Output>]) -> bool {
    judge::<M>(calls) == Verdict::Linearizable
}
