use std::time::Duration;

/// The number of members.
pub const MEMBERS: usize = 3;

/// The trouble of a member.
#[derive(Clone, Copy, Debug, PartialEq, Eq)]
pub enum Trouble {
    /// The member takes calls, but answers none. It doesn't learn of changes.
    Hangs,
    /// The member can't be reached, and doesn't learn of changes.
    IsGone,
    /// The member answers, but learns late of changes. It asks the leader before it answers, except for watches and, by
    /// its gateway, for transactions that only compare.
    Lags,
}

/// The outcome of a call to a member.
#[derive(Clone, Copy, Debug, PartialEq, Eq)]
pub enum Reached {
    /// The member answers.
    Answers,
    /// The member takes the call, and answers later or never. It hangs, or it reaches no leader.
    Hangs,
    /// The member doesn't take the call.
    IsGone,
}

/// The trouble of a member, the time at which it ends, and the last revision of which the member knew before.
#[derive(Clone, Copy)]
struct Troubled {
    trouble: Trouble,
    until: Duration,
    revision: u64,
}

/// The members of an etcd, and the one that leads.
pub struct Members {
    troubled: [Option<Troubled>; MEMBERS],
    leader: usize,
    /// The time from which on the leader leads. Nobody leads before.
    leads_since: Duration,
}

impl Default for Members {
    fn default() -> Members {
        Members {
            troubled: [None; MEMBERS],
            leader: 0,
            leads_since: Duration::ZERO,
        }
    }
}

impl Members {
    fn trouble(&self, member: usize, now: Duration) -> Option<Troubled> {
        self.troubled[member].filter(|it| now < it.until)
    }

    /// Returns whether the member takes part when members agree. If it hangs or is gone, it doesn't.
    fn takes_part(&self, member: usize, now: Duration) -> bool {
        match self.trouble(member, now).map(|it| it.trouble) {
            None | Some(Trouble::Lags) => true,
            Some(Trouble::Hangs | Trouble::IsGone) => false,
        }
    }

    /// Puts a member in trouble until this time. If the member lags, it knows only of the changes up to this revision.
    pub fn strike(&mut self, member: usize, trouble: Trouble, until: Duration, revision: u64) {
        self.troubled[member] = Some(Troubled {
            trouble,
            until,
            revision,
        });
    }

    /// Returns the leader, if it takes part.
    pub fn leader(&self, now: Duration) -> Option<usize> {
        self.takes_part(self.leader, now).then_some(self.leader)
    }

    /// Elects the next member that takes part. It leads from `since` on. If no member takes part, nothing changes.
    pub fn elect(&mut self, now: Duration, since: Duration) {
        let others = (1..=MEMBERS).map(|it| (self.leader + it) % MEMBERS);
        let mut able = others.filter(|it| self.takes_part(*it, now));
        if let Some(next) = able.next() {
            (self.leader, self.leads_since) = (next, since);
        }
    }

    /// Returns whether most members take part, and the leader is one of them.
    pub fn serve(&self, now: Duration) -> bool {
        let able = (0..MEMBERS).filter(|it| self.takes_part(*it, now)).count();
        let leads = now >= self.leads_since && self.leader(now).is_some();
        leads && able > MEMBERS / 2
    }

    /// Returns the outcome of a call to this member. If the member answers, it answers by the state on which most
    /// members agree.
    pub fn reached(&self, member: usize, now: Duration) -> Reached {
        match self.trouble(member, now).map(|it| it.trouble) {
            Some(Trouble::IsGone) => Reached::IsGone,
            Some(Trouble::Hangs) => Reached::Hangs,
            None | Some(Trouble::Lags) if self.serve(now) => Reached::Answers,
            None | Some(Trouble::Lags) => Reached::Hangs,
        }
    }

    /// Returns the revision up to which this member tells watches of changes. Returns `None` if it tells nothing.
    pub fn told(&self, member: usize, now: Duration, revision: u64) -> Option<u64> {
        match self.trouble(member, now) {
            None => Some(revision),
            Some(it) if it.trouble == Trouble::Lags => Some(it.revision),
            Some(_) => None,
        }
    }
}
