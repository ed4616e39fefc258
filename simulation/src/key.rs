//! The keys of the store. The simulator reads them by itself, without the driver's code.
use durkenzo_store::Transaction;

#[derive(Clone, Copy, Debug, PartialEq, Eq, PartialOrd, Ord, Hash)]
pub enum DecodedKey {
    /// How many processes have begun.
    Process,
    Leader,
    /// The process that sent the latest command.
    Commands,
    Settings,
    Record(u16),
    /// The progress of a server's restart.
    State(u16),
    /// The process that runs this server, and the revision up to which it has read.
    Server(u16),
    /// The process that last executed by permits as this server.
    Ran(u16),
    /// A server's ack for a shard.
    Ack(u16, u16),
    /// The drain of a server, and the home of a shard.
    Drain(u16),
    Home(u16),
    /// That a server was drained, and the loads that a server tells.
    Drained(u16),
    Load(u16),
    /// The lowest number under which a server's process still has requests.
    Lowest(u16),
    Head(u16),
    Batch(u16, u64),
    /// A part of a shard's base: how many batches the base stands for, and the part's place.
    Part(u16, u64, u64),
}

impl DecodedKey {
    /// Reads a key from these bytes. Returns `None` if the bytes aren't a key.
    pub fn of(bytes: &[u8]) -> Option<DecodedKey> {
        let mut words = std::str::from_utf8(bytes).ok()?.split('/');
        let name = words.next()?;
        let numbers: Vec<u64> = words.map(|it| it.parse().ok()).collect::<Option<_>>()?;
        let place = |at: usize| u16::try_from(numbers[at]).ok();
        Some(match (name, numbers.len()) {
            ("process", 0) => DecodedKey::Process,
            ("leader", 0) => DecodedKey::Leader,
            ("commands", 0) => DecodedKey::Commands,
            ("settings", 0) => DecodedKey::Settings,
            ("record", 1) => DecodedKey::Record(place(0)?),
            ("state", 1) => DecodedKey::State(place(0)?),
            ("server", 1) => DecodedKey::Server(place(0)?),
            ("ran", 1) => DecodedKey::Ran(place(0)?),
            ("ack", 2) => DecodedKey::Ack(place(0)?, place(1)?),
            ("drain", 1) => DecodedKey::Drain(place(0)?),
            ("home", 1) => DecodedKey::Home(place(0)?),
            ("drained", 1) => DecodedKey::Drained(place(0)?),
            ("load", 1) => DecodedKey::Load(place(0)?),
            ("lowest", 1) => DecodedKey::Lowest(place(0)?),
            ("head", 1) => DecodedKey::Head(place(0)?),
            ("batch", 2) => DecodedKey::Batch(place(0)?, numbers[1]),
            ("base", 3) => DecodedKey::Part(place(0)?, numbers[1], numbers[2]),
            _ => return None,
        })
    }

    /// Returns whether the key holds an intent: work that the leader goes on with, whichever process leads.
    pub fn is_intent(self) -> bool {
        matches!(self, DecodedKey::Drain(_) | DecodedKey::Home(_))
    }
}

/// The compares, the writes and the deletions of a transaction.
#[derive(Clone, Debug)]
pub struct Written {
    pub compares: Vec<(DecodedKey, u64)>,
    pub puts: Vec<(DecodedKey, Vec<u8>)>,
    pub deletes: Vec<DecodedKey>,
}

impl Written {
    /// Reads the transaction. Returns `None` if it writes or deletes a key that can't be read.
    pub fn of(transaction: &Transaction) -> Option<Written> {
        let puts = transaction.puts.iter();
        let deletes = transaction.deletes.iter();
        let compares = transaction.compares.iter();
        Some(Written {
            compares: compares
                .filter_map(|it| Some((DecodedKey::of(&it.key)?, it.revision.0)))
                .collect(),
            puts: puts
                .map(|it| Some((DecodedKey::of(&it.key)?, it.value.clone())))
                .collect::<Option<_>>()?,
            deletes: deletes
                .map(|it| DecodedKey::of(it))
                .collect::<Option<_>>()?,
        })
    }

    /// Returns whether this transaction makes a head name another base.
    pub fn names_base(&self) -> bool {
        matches!(self.puts[..], [(DecodedKey::Head(_), _)])
    }
}
