use durkenzo_store::{Done, Outcome, Transaction, WriteError};

/// The outcome of a transaction.
pub type Became = Result<Outcome, WriteError>;

/// A transaction on its way to the store, or its outcome on the way back.
pub struct Flight {
    /// How many transactions had been sent when this flight began, including its own.
    pub number: u64,
    pub transaction: Transaction,
    /// The number of the route on which it was sent.
    pub route: usize,
    /// Tells the sender the outcome. It is `None` if nobody waits for that: for a copy, or once the sender was told
    /// that the outcome is unknown.
    pub done: Option<Done>,
    /// The outcome, once the store has made the transaction.
    pub became: Option<Became>,
}
