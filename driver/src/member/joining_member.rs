use super::key_write::{KeyWrite, Lying, Taken};
use super::member_inner::MemberInner;
use super::notifier::Notifier;
use super::pending_write::PendingWrite;
use super::{Member, PAUSE};
use crate::lease_clock::Moment;
use crate::{keys, JoinFault};
use durkenzo_store::{LeaseId, Revision, WriteError};
use std::fmt;
use std::sync::{Arc, Mutex};
use std::time::{Duration, Instant};

/// How much later than they should leases may end.
const LATE: Duration = Duration::from_secs(2);

/// A server that is joining. It takes its key once nobody else has it.
pub struct JoiningMember {
    inner: Arc<MemberInner>,
    lease: LeaseId,
    /// When the lease was last granted or kept.
    kept: Moment,
    /// Until when it waits for another process's key to go.
    end: Instant,
    stage: Stage,
}

/// The present stage of joining.
enum Stage {
    /// It waits for the outcome of a write.
    Write(PendingWrite),
    /// It waits for the time of the next write.
    Pause(Instant),
}

/// The result of a turn of a server that is joining.
pub enum JoinStep {
    /// The server is there.
    Joined(Member),
    /// Nothing is due for so long, unless the store tells something.
    Waits(JoiningMember, Duration),
    /// The server isn't there, and won't be.
    Failed(JoinFault),
}

impl JoiningMember {
    /// Takes the lease under which the key will lie.
    pub(super) fn new(inner: MemberInner) -> Result<JoiningMember, JoinFault> {
        let kept = inner.lease_clock.now();
        let lease = inner.store.grant(inner.length)?;
        let now = inner.clock.now();
        Ok(JoiningMember {
            end: now + inner.length + LATE,
            inner: Arc::new(inner),
            lease,
            kept,
            stage: Stage::Pause(now),
        })
    }

    /// Does the work that is due. The server's thread calls it again at once when the store has told the outcome of a
    /// write.
    pub fn turn(mut self) -> JoinStep {
        loop {
            let now = self.inner.clock.now();
            let stepped = match &self.stage {
                Stage::Pause(until) if *until <= now => self.write(now),
                Stage::Pause(until) => {
                    let most = until.saturating_duration_since(now);
                    return JoinStep::Waits(self, most);
                }
                Stage::Write(pending) => match pending.outcome(now) {
                    Some(outcome) => {
                        let judged = pending.write.judged(outcome);
                        self.go_on(judged, now)
                    }
                    None => {
                        let most = pending.end().saturating_duration_since(now);
                        return JoinStep::Waits(self, most);
                    }
                },
            };
            match stepped {
                Ok(None) => {}
                Ok(Some(member)) => return JoinStep::Joined(member),
                Err(fault) => return JoinStep::Failed(fault),
            }
        }
    }

    /// Sends the key.
    fn write(&mut self, now: Instant) -> Result<Option<Member>, JoinFault> {
        let inner = &self.inner;
        let write = KeyWrite {
            server: inner.server,
            live: inner.live(Revision::NEVER),
            acks: Vec::new(),
            before: Revision::NEVER,
            created: Revision::NEVER,
        };
        let (transaction, end) = (write.transaction(self.lease), now + inner.length + LATE);
        let (pending, done) = PendingWrite::new(write, end, &inner.notifier);
        self.stage = Stage::Write(pending);
        inner.store.submit(transaction, done);
        Ok(None)
    }

    /// Goes on by the state of the key: the server is there, or tries again and keeps its lease.
    fn go_on(
        &mut self,
        judged: Result<Result<Lying, Taken>, WriteError>,
        now: Instant,
    ) -> Result<Option<Member>, JoinFault> {
        match judged {
            Ok(Ok(lying)) => {
                let mut state = self.inner.state();
                state.lease = Some(self.lease);
                (state.written, state.joined) = (lying.revision, lying.created);
                (state.kept, state.keep_due) = (self.kept, self.kept.after(self.inner.keeping()));
                drop(state);
                return self.joined().map(Some);
            }
            Ok(Err(taken)) if now >= self.end => {
                // Its own lease holds nothing.
                let _ = self.inner.store.revoke(self.lease);
                return Err(JoinFault::Running(self.inner.server, taken.by));
            }
            // The next attempt finds out whether it was made.
            Ok(Err(_)) | Err(WriteError::Unknown(_)) => {}
            Err(error) => return Err(error.into()),
        }
        self.stage = Stage::Pause(now + PAUSE);
        self.kept = self.inner.lease_clock.now();
        self.inner.store.keep(self.lease)?;
        Ok(None)
    }

    /// Returns the server, whose key is there.
    fn joined(&self) -> Result<Member, JoinFault> {
        let was_away = self.inner.is_away()?;
        let prefixes = [keys::SERVERS, keys::LEADER, keys::LOWESTS, keys::ACKS];
        let watches = prefixes.map(|it| self.inner.watch(it));
        let watches = watches.into_iter().collect::<Result<_, _>>()?;
        Ok(Member {
            inner: self.inner.clone(),
            watches: Mutex::new(watches),
            was_away,
        })
    }

    pub(super) fn notifier(&self) -> &Notifier {
        &self.inner.notifier
    }
}

impl fmt::Debug for JoiningMember {
    fn fmt(&self, f: &mut fmt::Formatter<'_>) -> fmt::Result {
        f.debug_struct("JoiningMember")
            .field("server", &self.inner.server)
            .finish_non_exhaustive()
    }
}
