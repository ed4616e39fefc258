use std::hash::Hash;

/// The answers that one thread would give.
pub trait Model {
    /// Its state.
    type State: Clone + Default + Eq + Hash;
    /// Its requests.
    type Input: PartialEq;
    /// Its answers.
    type Output: PartialEq;

    /// Returns the state after this request, and the answer.
    fn step(state: &Self::State, input: &Self::Input) -> (Self::State, Self::Output);
}
