use crate::claim::{Claim, Said};
use crate::fault::Fault;
use crate::fault_counts::FaultCounts;
use crate::key::{DecodedKey, Written};
use std::fmt;

/// How often each event happened. It shows runs in which nothing happens.
#[derive(Clone, Copy, Default, Debug, PartialEq, Eq)]
pub struct Tally {
    pub events: u64,
    pub made: u64,
    pub lost: u64,
    pub replied: u64,
    pub read: u64,
    pub passed: u64,
    pub refused: u64,
    pub unknown: u64,
    pub forwarded: u64,
    pub starts: u64,
    pub renewed: u64,
    pub elections: u64,
    /// How often a leader compacted history.
    pub compactions: u64,
    /// How many shards leaders moved to even out servers.
    pub balanced: u64,
    pub changes: u64,
    pub bases: u64,
    pub deleted: u64,
    pub by_lease: u64,
    /// The turns of the controls that ship, how many commands operators gave, how many were answered, and how many were
    /// done.
    pub turns: u64,
    pub operated: u64,
    pub told: u64,
    pub done: u64,
    /// How many connections between processes were made, and how many broke.
    pub reached: u64,
    pub broken: u64,
    /// How often a permit moved to another process.
    pub permits: u64,
    /// The calls of a fleet's clients, and their outcomes.
    pub calls: u64,
    pub answered: u64,
    pub hopped: u64,
    pub unsure: u64,
    pub not_made: u64,
    /// How many commands of a server's clients were made before an earlier one of their pipeline.
    pub overtaken: u64,
    /// How many bodies moved to another process, and how many were lost with the processes that had them.
    pub handed: u64,
    pub bodies_lost: u64,
    /// How many frames arrived.
    pub frames: u64,
    /// How much time passed, in milliseconds.
    pub passed_time: u64,
    /// How many faults of each kind struck.
    pub faults: FaultCounts,
}

impl Tally {
    /// Adds the counts of another schedule.
    pub fn add(&mut self, more: &Tally) {
        self.events += more.events;
        self.made += more.made;
        self.lost += more.lost;
        self.replied += more.replied;
        self.read += more.read;
        self.passed += more.passed;
        self.refused += more.refused;
        self.unknown += more.unknown;
        self.forwarded += more.forwarded;
        self.starts += more.starts;
        self.renewed += more.renewed;
        self.elections += more.elections;
        self.compactions += more.compactions;
        self.balanced += more.balanced;
        self.changes += more.changes;
        self.bases += more.bases;
        self.deleted += more.deleted;
        self.by_lease += more.by_lease;
        self.turns += more.turns;
        self.operated += more.operated;
        self.told += more.told;
        self.done += more.done;
        self.reached += more.reached;
        self.broken += more.broken;
        self.permits += more.permits;
        self.calls += more.calls;
        self.answered += more.answered;
        self.hopped += more.hopped;
        self.unsure += more.unsure;
        self.not_made += more.not_made;
        self.overtaken += more.overtaken;
        self.handed += more.handed;
        self.bodies_lost += more.bodies_lost;
        self.frames += more.frames;
        self.passed_time += more.passed_time;
        self.faults.add(&more.faults);
    }

    /// Counts the writes of a transaction.
    pub fn note_made(&mut self, written: &Written) {
        let puts = |is_such: fn(&DecodedKey) -> bool| written.puts.iter().any(|it| is_such(&it.0));
        let is_behind =
            |it: &&DecodedKey| matches!(it, DecodedKey::Batch(..) | DecodedKey::Part(..));
        self.made += 1;
        self.changes += u64::from(puts(|it| {
            matches!(it, DecodedKey::Record(_) | DecodedKey::State(_))
        }));
        self.renewed += u64::from(puts(|it| matches!(it, DecodedKey::Lowest(_))));
        self.elections += u64::from(puts(|it| *it == DecodedKey::Leader));
        self.deleted += written.deletes.iter().filter(is_behind).count() as u64;
        self.bases += u64::from(written.names_base());
    }

    /// Counts a claim.
    pub fn note_told(&mut self, claim: &Claim) {
        *match claim.said {
            Said::Made { .. } => &mut self.replied,
            Said::Read { .. } => &mut self.read,
            Said::Passed => &mut self.passed,
            Said::NotMade { .. } | Said::Damaged(_) => &mut self.refused,
            Said::Unknown { .. } => &mut self.unknown,
        } += 1;
    }
}

/// Writes the counts that aren't 0. Counts of faults are written with the faults' names.
impl fmt::Display for Tally {
    fn fmt(&self, f: &mut fmt::Formatter<'_>) -> fmt::Result {
        let counts = [
            ("events", self.events),
            ("made", self.made),
            ("lost", self.lost),
            ("replied", self.replied),
            ("read", self.read),
            ("passed", self.passed),
            ("refused", self.refused),
            ("unknown", self.unknown),
            ("forwarded", self.forwarded),
            ("starts", self.starts),
            ("renewed", self.renewed),
            ("elections", self.elections),
            ("compactions by leaders", self.compactions),
            ("balanced by leaders", self.balanced),
            ("changes", self.changes),
            ("bases", self.bases),
            ("deleted", self.deleted),
            ("by lease", self.by_lease),
            ("turns", self.turns),
            ("operated", self.operated),
            ("told", self.told),
            ("done", self.done),
            ("reached", self.reached),
            ("broken", self.broken),
            ("permits", self.permits),
            ("calls", self.calls),
            ("answered", self.answered),
            ("hopped", self.hopped),
            ("unsure", self.unsure),
            ("not made", self.not_made),
            ("overtaken", self.overtaken),
            ("handed", self.handed),
            ("bodies lost", self.bodies_lost),
            ("frames", self.frames),
        ];
        let faults = Fault::ALL
            .iter()
            .map(|it| (it.name(), self.faults.count(*it)));
        let counts = counts.into_iter().chain(faults).filter(|it| it.1 > 0);
        let counts: Vec<String> = counts.map(|it| format!("{} {}", it.1, it.0)).collect();
        f.write_str(&counts.join(", "))
    }
}
