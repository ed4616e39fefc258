use std::fmt;

/// A random fault.
#[derive(Clone, Copy, Debug, PartialEq, Eq, PartialOrd, Ord)]
pub enum Fault {
    /// A member of the store takes calls, but doesn't answer them.
    MemberHangs,
    /// A member of the store can't be reached.
    MemberGone,
    /// A member of the store learns late of changes.
    MemberLags,
    /// Another member leads.
    LeaderChange,
    /// The store has reached its quota. It takes no puts and grants no leases.
    StoreFull,
    /// The store drops its history, or most of it.
    Compaction,
    /// A watch breaks, and continues at another member.
    WatchBreaks,
    /// A sender stops waiting for its transaction, which may be made later or never.
    SentInVain,
    /// A transaction arrives twice.
    SentTwice,
    /// The sender learns the outcome of a transaction late.
    AnswerLate,
    /// The sender doesn't learn the outcome of a transaction.
    AnswerLost,
    /// The store refuses a transaction for now.
    WriteRefused,
    /// The store has no room for a transaction.
    WriteFull,
    /// A transaction is larger than the store accepts.
    WriteTooLarge,
    /// A transaction or a compaction isn't answered although its sender waits for it.
    CallLost,
    /// A read isn't answered.
    ReadLost,
    /// A call about a lease isn't answered.
    LeaseCallLost,
    /// The store reports that there is little room left.
    RoomScarce,
    /// A process learns late of the values that it has read.
    ReadLate,
    /// A process stops and forgets everything.
    Crash,
    /// A process does nothing for a while.
    Pause,
    /// A process is asked to stop, or finishes its stop.
    Stop,
    /// Steps between processes, or their answers, are lost.
    StepsLost,
    /// A command between processes, or its answer, is lost.
    CommandLost,
    /// A process can't reach another one.
    DialFails,
    /// A place can't reach another one for a while.
    PlaceBlocked,
    /// One or both directions of a connection carry nothing, for a while or forever.
    ConnectionCut,
    /// A connection breaks.
    ConnectionBreaks,
    /// The machine is gone together with the process, so nobody is told that the process ended.
    MachineGone,
    /// The answer of a member is cut off.
    AnswerCut,
    /// The store says that it had no room for a transaction, although it made the transaction.
    FullThoughMade,
    /// A disk writes nothing, or only a part.
    DiskWriteFails,
    /// A disk doesn't keep data that it was told to keep.
    DiskSyncFails,
    /// A disk fails to read.
    DiskReadFails,
    /// A disk refuses another call.
    DiskCallFails,
    /// Other programs use nearly all of the disk's room.
    DiskFull,
    /// A machine loses power, so its disk loses the data that it wasn't told to keep.
    PowerLost,
    /// The connection of a client to a server is reset.
    ClientCut,
    /// A client sends no more, whatever it still expects.
    ClientEnds,
    /// A client reads none of its answers for a while.
    ClientStalls,
}

impl Fault {
    /// All kinds, in their order.
    pub const ALL: [Fault; 40] = [
        Fault::MemberHangs,
        Fault::MemberGone,
        Fault::MemberLags,
        Fault::LeaderChange,
        Fault::StoreFull,
        Fault::Compaction,
        Fault::WatchBreaks,
        Fault::SentInVain,
        Fault::SentTwice,
        Fault::AnswerLate,
        Fault::AnswerLost,
        Fault::WriteRefused,
        Fault::WriteFull,
        Fault::WriteTooLarge,
        Fault::CallLost,
        Fault::ReadLost,
        Fault::LeaseCallLost,
        Fault::RoomScarce,
        Fault::ReadLate,
        Fault::Crash,
        Fault::Pause,
        Fault::Stop,
        Fault::StepsLost,
        Fault::CommandLost,
        Fault::DialFails,
        Fault::PlaceBlocked,
        Fault::ConnectionCut,
        Fault::ConnectionBreaks,
        Fault::MachineGone,
        Fault::AnswerCut,
        Fault::FullThoughMade,
        Fault::DiskWriteFails,
        Fault::DiskSyncFails,
        Fault::DiskReadFails,
        Fault::DiskCallFails,
        Fault::DiskFull,
        Fault::PowerLost,
        Fault::ClientCut,
        Fault::ClientEnds,
        Fault::ClientStalls,
    ];

    /// Returns the fault's name in timelines and counts.
    pub fn name(self) -> &'static str {
        match self {
            Fault::MemberHangs => "member-hangs",
            Fault::MemberGone => "member-gone",
            Fault::MemberLags => "member-lags",
            Fault::LeaderChange => "leader-change",
            Fault::StoreFull => "store-full",
            Fault::Compaction => "compaction",
            Fault::WatchBreaks => "watch-breaks",
            Fault::SentInVain => "sent-in-vain",
            Fault::SentTwice => "sent-twice",
            Fault::AnswerLate => "answer-late",
            Fault::AnswerLost => "answer-lost",
            Fault::WriteRefused => "write-refused",
            Fault::WriteFull => "write-full",
            Fault::WriteTooLarge => "write-too-large",
            Fault::CallLost => "call-lost",
            Fault::ReadLost => "read-lost",
            Fault::LeaseCallLost => "lease-call-lost",
            Fault::RoomScarce => "room-scarce",
            Fault::ReadLate => "read-late",
            Fault::Crash => "crash",
            Fault::Pause => "pause",
            Fault::Stop => "stop",
            Fault::StepsLost => "steps-lost",
            Fault::CommandLost => "command-lost",
            Fault::DialFails => "dial-fails",
            Fault::PlaceBlocked => "place-blocked",
            Fault::ConnectionCut => "connection-cut",
            Fault::ConnectionBreaks => "connection-breaks",
            Fault::MachineGone => "machine-gone",
            Fault::AnswerCut => "answer-cut",
            Fault::FullThoughMade => "full-though-made",
            Fault::DiskWriteFails => "disk-write-fails",
            Fault::DiskSyncFails => "disk-sync-fails",
            Fault::DiskReadFails => "disk-read-fails",
            Fault::DiskCallFails => "disk-call-fails",
            Fault::DiskFull => "disk-full",
            Fault::PowerLost => "power-lost",
            Fault::ClientCut => "client-cut",
            Fault::ClientEnds => "client-ends",
            Fault::ClientStalls => "client-stalls",
        }
    }
}

/// A fault with its number. The first fault of its kind in a schedule has number 1.
#[derive(Clone, Copy, Debug, PartialEq, Eq, PartialOrd, Ord)]
pub struct NumberedFault {
    pub fault: Fault,
    pub number: u32,
}

impl fmt::Display for NumberedFault {
    fn fmt(&self, f: &mut fmt::Formatter<'_>) -> fmt::Result {
        write!(f, "{} {}", self.fault.name(), self.number)
    }
}
