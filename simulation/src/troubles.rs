//! The troubles of the store's members. They come by chance, and end by themselves.
use crate::chance::Chance;
use crate::etcd::{Trouble, MEMBERS};
use crate::fault::Fault;
use crate::simulated_store::SimulatedStore;
use std::time::Duration;

/// The longest times, in milliseconds, for which a member is in trouble, no member leads, and there is no room.
const TROUBLE: u64 = 900;
const ELECTION: u64 = 400;
const FULLNESS: u64 = 700;
/// A compaction keeps fewer revisions than this.
const LEFT: u64 = 20;
/// A fault strikes `harshness` times in this many draws, or half as often if it is a full store.
const SELDOM: u64 = 12;

fn milliseconds(chance: &mut Chance, most: u64) -> Duration {
    Duration::from_millis(1 + chance.below(most))
}

impl SimulatedStore {
    /// Draws the faults that strike the store now.
    pub fn come_into_trouble(&mut self) {
        let of_members = [
            (Fault::MemberHangs, Trouble::Hangs),
            (Fault::MemberGone, Trouble::IsGone),
            (Fault::MemberLags, Trouble::Lags),
        ];
        for (fault, trouble) in of_members {
            if let Some(mut chance) = self.struck(fault, SELDOM) {
                self.strike_member(trouble, &mut chance);
            }
        }
        if let Some(mut chance) = self.struck(Fault::LeaderChange, SELDOM) {
            self.change_leader(&mut chance);
        }
        if let Some(mut chance) = self.struck(Fault::StoreFull, 2 * SELDOM) {
            self.full_until = self.time.passed() + milliseconds(&mut chance, FULLNESS);
        }
        if let Some(mut chance) = self.struck(Fault::Compaction, SELDOM) {
            let revision = self.revision().saturating_sub(chance.below(LEFT));
            // If an earlier compaction went further, this one fails and changes nothing.
            let _ = self.keyspace.compact(revision);
        }
    }

    fn strike_member(&mut self, trouble: Trouble, chance: &mut Chance) {
        let (now, member) = (self.time.passed(), chance.below(MEMBERS as u64) as usize);
        let until = now + milliseconds(chance, TROUBLE);
        let revision = self.revision();
        self.members.strike(member, trouble, until, revision);
        if self.members.leader(now).is_none() {
            self.change_leader(chance);
        }
    }

    /// Makes another member lead soon. From then on each lease lasts for at least its whole length.
    fn change_leader(&mut self, chance: &mut Chance) {
        let now = self.time.passed();
        let since = now + milliseconds(chance, ELECTION);
        self.members.elect(now, since);
        self.keyspace.extend_leases(since);
    }
}
