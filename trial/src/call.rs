/// A call that a client made, with the moments of its beginning and its end.
#[derive(Clone, Debug, PartialEq, Eq)]
pub struct Call<I, O> {
    /// The request of the call.
    pub input: I,
    /// The answer, or none if the client can't know whether the request was done.
    pub output: Option<O>,
    /// A moment before it was sent.
    pub began: u64,
    /// A moment after its answer came. For a call without an answer it means nothing.
    pub ended: u64,
}
