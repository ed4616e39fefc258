//! Bugs that can be planted. Most of them change the transactions, the readings or the answers of the driver, as if the
//! driver had the bug. Some are wrong rules of a fleet.
use crate::part::Part;

#[derive(Clone, Copy, Debug, PartialEq, Eq)]
pub enum Bug {
    /// A batch doesn't compare the shard's record. The simulator drops the compare.
    NoRecordCompare,
    /// A batch doesn't compare the head of the shard's log. The simulator drops the compare.
    NoHeadCompare,
    /// A control's command doesn't compare the leader's key. The simulator drops the compare.
    NoLeaderCompare,
    /// A control's command doesn't compare the key of all commands. The simulator drops the compare.
    NoCommandsCompare,
    /// A control marks a server as failed without a look at the server's key. The simulator drops the compare.
    NoServerCompare,
    /// A control assumes that all servers have read its records. The simulator makes it read servers' keys that say so.
    EarlyDrop,
    /// A control takes an ack for the ack of a later record. The simulator changes the generation in each ack that it
    /// hears.
    EarlyAck,
    /// A server acks even if another process has taken its name. The simulator drops the compare of the server's key.
    NoTellingCompare,
    /// A control reads the records at one moment and the key of all commands at another. The simulator returns a
    /// reading of both moments.
    TornRecords,
    /// A server sends replies before the store has made its transaction. The simulator tells it too early that the
    /// store has.
    EarlyReply,
    /// A client asks again under a new number.
    NewNumber,
    /// A server takes an unknown outcome as not made, and says so. The simulator tells it that the store refused.
    UnknownAsLost,
    /// A server takes an unknown outcome for compares that didn't hold. The simulator tells it that they didn't.
    UnknownAsUnheld,
    /// A server takes an unknown outcome as made. The simulator tells it that the transaction is made.
    UnknownAsMade,
    /// A server takes compares that didn't hold as made. The simulator tells it that the transaction is made.
    LostAsMade,
    /// A server answers reads without a transaction. If a transaction only compares, the simulator tells the server
    /// that it is made, before it arrives at the store.
    UnsentRead,
    /// A server goes on from a head of one moment with the batches of another. The simulator takes a batch from the
    /// head that it reads.
    TornReading,
    /// A server appends after a head of one moment, but compares the head's revision of another. The simulator returns
    /// an earlier value of the head with its present revision.
    WrongHead,
    /// A server deletes the batches of a base before the head names the base. The simulator sends that deletion with
    /// each part of a base.
    EarlyDeletion,
    /// A base is named for one batch more than it holds. The simulator changes the keys of its parts, and the head that
    /// names it.
    ShortBase,
    /// A control forgets a command instead of passing it on to the leader.
    ForgottenCommand,
    /// A leader believes that servers are there though they are gone. The simulator makes it read the keys that they
    /// had.
    BlindLeader,
    /// A process doesn't notice that there is no leader any more. The simulator doesn't tell it that the leader's key
    /// is gone.
    DeafFollower,
    /// A leader keeps its intents after they are done. The simulator doesn't delete their keys.
    KeptIntent,
    /// A leader doesn't mark servers as up again. The simulator tells it that the store doesn't take that.
    NoReturn,
    /// A control with work under way waits until somebody asks. The simulator takes the control's wait as endless.
    EndlessWait,
    /// A link takes the answer that a connection lost for the answer to a request on the next connection. The simulator
    /// gives that request the lost answer.
    StaleAnswer,
    /// A link sends requests without a number again after their answer was lost, although they may have been made. The
    /// simulator tells the link that they change nothing.
    SentAgain,
    /// The requests that another process gives back are dropped. The simulator doesn't tell the host about them.
    DroppedReturn,
    /// A link takes a frame as unsent though a part of it was sent. The simulator tells the link so.
    TornFrame,
    /// A link never finds out that the other machine is gone, because its system doesn't probe the connection.
    NoKeepAlive,
    /// A service trusts a lease for its whole length, even if its clock is slow.
    WholeLease,
    /// A process acks a record as soon as it sees the next one, although its service may still execute by the old one.
    EarlyLetGo,
    /// The next owner of a shard begins a new body, instead of waiting for the body of the old owner.
    NextBeginsAnew,
    /// The owner of a shard still executes after it has handed the shard over.
    OwnerExecutesOn,
    /// A process of a fleet trusts its records without a lease.
    NoLease,
    /// The owner of a shard acks before the next owner has the body.
    AckBeforeBody,
}

impl Bug {
    /// Returns whether the bug is one of the control that ships.
    pub fn is_of_control(self) -> bool {
        BUGS[FIRST_OF_CONTROL..FIRST_OF_LINKS].contains(&self) || self == Bug::NoKeepAlive
    }

    /// Returns whether the bug is one of the links that ship.
    pub fn is_of_links(self) -> bool {
        BUGS[FIRST_OF_LINKS..FIRST_OF_FLEETS].contains(&self)
    }

    /// Returns whether the bug is one of a fleet.
    pub fn is_of_fleets(self) -> bool {
        BUGS[FIRST_OF_FLEETS..].contains(&self)
    }

    /// Returns the part of a seed that finds the bug.
    pub fn part(self) -> Part {
        match self.is_of_fleets() {
            true => Part::Fleet,
            false => Part::Processes,
        }
    }

    /// Returns the bug's name as a rule of `durkenzo-fleet`. Returns `None` if it isn't a rule there.
    pub fn rule(self) -> Option<&'static str> {
        match self {
            Bug::NextBeginsAnew => Some("next-begins-anew"),
            Bug::OwnerExecutesOn => Some("owner-executes-on"),
            Bug::NoLease => Some("no-lease"),
            Bug::AckBeforeBody => Some("early-ack"),
            _ => None,
        }
    }
}

/// The index of the first bug of the control that ships.
const FIRST_OF_CONTROL: usize = 20;
/// The index of the first bug of the links that ship.
const FIRST_OF_LINKS: usize = 26;
/// The index of the first bug of a fleet.
const FIRST_OF_FLEETS: usize = 31;

pub const BUGS: [Bug; 37] = [
    Bug::NoRecordCompare,
    Bug::NoHeadCompare,
    Bug::NoLeaderCompare,
    Bug::NoCommandsCompare,
    Bug::NoServerCompare,
    Bug::EarlyDrop,
    Bug::EarlyAck,
    Bug::NoTellingCompare,
    Bug::TornRecords,
    Bug::EarlyReply,
    Bug::NewNumber,
    Bug::UnknownAsLost,
    Bug::UnknownAsUnheld,
    Bug::UnknownAsMade,
    Bug::LostAsMade,
    Bug::UnsentRead,
    Bug::TornReading,
    Bug::WrongHead,
    Bug::EarlyDeletion,
    Bug::ShortBase,
    Bug::ForgottenCommand,
    Bug::BlindLeader,
    Bug::DeafFollower,
    Bug::KeptIntent,
    Bug::NoReturn,
    Bug::EndlessWait,
    Bug::StaleAnswer,
    Bug::SentAgain,
    Bug::DroppedReturn,
    Bug::TornFrame,
    Bug::NoKeepAlive,
    Bug::WholeLease,
    Bug::EarlyLetGo,
    Bug::NextBeginsAnew,
    Bug::OwnerExecutesOn,
    Bug::NoLease,
    Bug::AckBeforeBody,
];
