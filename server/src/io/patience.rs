/// How long a thread may wait for events.
#[derive(Clone, Copy, Debug, PartialEq, Eq)]
pub enum Patience {
    /// Not at all, because connections have turns.
    Turns,
    /// Not at all, but everything waits for shards that other threads have, so these should go on first.
    Races,
    /// For a short time, because commands wait or the process stops.
    Tick,
    /// Until something is due, because nothing is under way.
    Idle,
}
