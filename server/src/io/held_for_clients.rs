/// How much a thread holds for its clients.
#[derive(Clone, Copy, Debug, Default, PartialEq, Eq)]
pub struct HeldForClients {
    /// How many connections it has.
    pub connections: usize,
    /// How many turns are due or put off.
    pub queued: usize,
    /// How many connections wait although their clients may have left.
    pub half_closed: usize,
    /// The most bytes of answers that a connection holds.
    pub most_unsent: usize,
}
