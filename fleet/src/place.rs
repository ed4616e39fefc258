use crate::body_lock::{BodyInUse, BodyLock};
use crate::incoming_body::IncomingBody;
use crate::outgoing_copy::OutgoingCopy;
use crate::queue::Queue;
use durkenzo::{word, Record, Stand};
use durkenzo_driver::{Ownership, ShardSnapshot};
use durkenzo_store::Revision;
use durkenzo_store_sys::{Code, HandOver, ShardView};
use std::sync::{Mutex, MutexGuard, PoisonError};
use std::time::Instant;

/// The least number of changes in which a paused shard goes to another server and back: that server executes, the shard
/// is paused again, and it comes back. If another server is the owner, this number is enough too, because that server
/// executes once the migration is given up. If this server is the owner and the shard isn't paused, one change more is
/// needed to pause it first.
const PAUSED_AWAY_AND_BACK: u64 = 3;

/// A shard in this process: the facts that are known of it, its body, and the calls that wait for it.
///
/// Whoever needs several locks must take the body first, then the incoming body, then the known facts. A call holds the
/// body while it is executed, but locks the known facts only for a moment. So a new reading is taken at once, and a
/// process lets go of a record only after the call that is under way.
pub(crate) struct Place<B> {
    known: Mutex<Known>,
    body: BodyLock<B>,
    incoming: Mutex<Option<IncomingBody<B>>>,
    pub(crate) queue: Queue,
}

/// The facts that this process knows of a shard.
pub(crate) struct Known {
    /// The server that this process runs as.
    server: u16,
    /// The proved view, which judges who executes.
    pub(crate) view: ShardView,
    /// Since when no other process of this server has executed, as of the view's lease.
    pub(crate) tenure: u64,
    /// The revision of this server's state when the record was read.
    stated: u64,
    /// The word of the record that was read last, and the revision at which that record was written.
    pub(crate) word: u64,
    pub(crate) stood: u64,
    /// The facts that had been seen when the record was read.
    pub(crate) basis: Option<Basis>,
    /// The hand-over to this process.
    pub(crate) hand: Option<HandOver>,
    /// The generation of the record under which the next owner has got everything that this process handed over.
    pub(crate) handed: u64,
    /// The greatest generation up to which this process has let go, under any lease.
    pub(crate) let_go: u64,
    /// The greatest generation of a record that this process has acked without a hand-over. It doesn't execute under
    /// that record.
    pub(crate) acked: u64,
    /// The copy that goes to the next owner.
    pub(crate) copy: Option<OutgoingCopy>,
    /// The bytes that the service's `hand_over` returned under the record of this generation, until the next owner has
    /// them.
    pub(crate) spelled: Option<(u64, Vec<u8>)>,
    pub(crate) prepared: Preparation,
    /// How the body is held at this moment, if it may be used. Otherwise no call uses the body, and the settler drops
    /// it.
    pub(crate) body_is_of: Option<Holding>,
    /// Whether this process has ever had a body of the shard.
    pub(crate) had_body: bool,
    /// How often the service has failed to add the shard since it last did.
    pub(crate) failed_adds: u64,
    /// Whether a thread is settling the shard now, as the record asks.
    pub(crate) settles: bool,
    /// The state for which the shard was settled last.
    pub(crate) settled: Option<Settled>,
}

/// The progress of this process as it prepares for a shard.
#[derive(Clone, Copy, Debug)]
pub(crate) struct Preparation {
    /// The generation of the record under which it prepares.
    pub(crate) generation: u64,
    /// How often it has failed to get a copy since then.
    pub(crate) failures: u32,
    /// When it asks again for a body that was too long.
    pub(crate) again: Option<Instant>,
}

impl Preparation {
    pub(crate) fn new(generation: u64) -> Preparation {
        Preparation {
            generation,
            failures: 0,
            again: None,
        }
    }
}

/// The facts that are seen of a shard without a reading. If they change, the shard must be read again.
#[derive(Clone, Copy, Debug, PartialEq, Eq)]
pub(crate) struct Basis {
    pub(crate) stood: Revision,
    pub(crate) ownership: Ownership,
    pub(crate) joined: Revision,
    pub(crate) is_away: bool,
    pub(crate) owner_joined: Option<Revision>,
    pub(crate) owner_is_away: bool,
}

/// The state that decides which work a record asks for: its word, the lease, and whether the previous owner had let go.
#[derive(Clone, Copy, Debug, PartialEq, Eq)]
pub(crate) struct Settled {
    word: u64,
    joined: u64,
    pub(crate) is_freed: bool,
}

/// How this process holds a body: the facts that tell later whether the body may still be used.
#[derive(Clone, Copy, Debug, PartialEq, Eq)]
pub(crate) struct Holding {
    /// Since when no other process of this server has executed.
    tenure: u64,
    /// The lease, and the revision of the server's state. There are none if the server has failed.
    stands: Option<(u64, u64)>,
    pub(crate) generation: u64,
    /// The least number of changes in which the shard goes to another server and back.
    away_and_back: u64,
}

impl Holding {
    /// Returns whether the server hasn't failed since then: its state is the same, or its key was always there.
    fn has_stood_since(&self, before: Holding) -> bool {
        match (self.stands, before.stands) {
            (Some((joined, stated)), Some((joined_before, stated_before))) => {
                joined == joined_before || stated == stated_before
            }
            (None, _) | (_, None) => false,
        }
    }
}

impl<B> Place<B> {
    /// Returns a shard of which the process of this server knows only the view.
    pub(crate) fn new(server: u16, view: ShardView) -> Place<B> {
        let known = Known {
            server,
            view,
            tenure: 0,
            stated: 0,
            word: 0,
            stood: 0,
            basis: None,
            hand: None,
            handed: 0,
            let_go: 0,
            acked: 0,
            copy: None,
            spelled: None,
            prepared: Preparation::new(0),
            body_is_of: None,
            had_body: false,
            failed_adds: 0,
            settles: false,
            settled: None,
        };
        Place {
            known: Mutex::new(known),
            body: BodyLock::new(),
            incoming: Mutex::new(None),
            queue: Queue::default(),
        }
    }

    pub(crate) fn known(&self) -> MutexGuard<'_, Known> {
        self.known.lock().unwrap_or_else(PoisonError::into_inner)
    }

    /// Locks the body, after the call that is under way. If a callback panicked while it used the body, the body may be
    /// half changed. In that case it was dropped, and the shard begins again without it.
    pub(crate) async fn body(&self) -> BodyInUse<'_, B> {
        let (body, is_lost) = self.body.lock().await;
        self.note_lost(is_lost);
        body
    }

    /// Locks the body as [`Place::body`] does, if nobody uses it or waits for it.
    pub(crate) fn free_body(&self) -> Option<BodyInUse<'_, B>> {
        let (body, is_lost) = self.body.try_lock()?;
        self.note_lost(is_lost);
        Some(body)
    }

    /// Returns whether a call uses the body, or whether it is being handed over.
    pub(crate) fn is_in_use(&self) -> bool {
        self.body.is_in_use()
    }

    /// Returns whether nobody uses the body, and no task waits for it.
    #[cfg(any(feature = "simulated", all(test, feature = "tokio")))]
    pub(crate) fn is_free(&self) -> bool {
        self.body.is_free()
    }

    /// Returns whether a task waits for the body.
    #[cfg(all(test, feature = "tokio"))]
    pub(crate) fn has_task(&self) -> bool {
        self.body.has_task()
    }

    fn note_lost(&self, is_lost: bool) {
        if is_lost {
            let mut known = self.known();
            (known.body_is_of, known.settled) = (None, None);
            (known.copy, known.spelled) = (None, None);
        }
    }

    /// Locks the incoming body. If a callback panicked while it added a piece, drops all of the incoming body.
    pub(crate) fn incoming(&self) -> MutexGuard<'_, Option<IncomingBody<B>>> {
        self.incoming.lock().unwrap_or_else(|poisoned| {
            self.incoming.clear_poison();
            let mut incoming = poisoned.into_inner();
            *incoming = None;
            incoming
        })
    }
}

impl Known {
    /// Returns the record that was read last.
    pub(crate) fn record(&self) -> Record {
        // Only the words of records are kept.
        word::record(self.word)
            .unwrap_or_else(|| word::record(0).expect("the word of a vacant shard"))
    }

    /// Returns whether the process may execute a call from this sender at this time.
    pub(crate) fn may_execute(&self, from: u16, time: u64) -> bool {
        self.view.may_execute(from, time).unwrap_or(false)
    }

    /// Takes a reading into the view. Tells the new view again of the hand-over to this process. If this process has
    /// let go of the record, tells the view that too.
    pub(crate) fn take(&mut self, reading: &ShardSnapshot, basis: Basis) -> Result<(), Code> {
        let word = reading.stored.word().unwrap_or(0);
        let read = durkenzo_store_sys::ShardReading {
            revision: reading.revision.0,
            word,
            owner_joined: reading.owner_joined.0,
            failed: reading.failed,
            owner_failed: reading.owner_failed,
        };
        let mut view = self.view.read(&read)?;
        (self.word, self.stood) = (word, reading.stored.revision().0);
        if let Some(hand) = &self.hand {
            // The hand-over counts only under the record of its generation, and only if it is from the process that was
            // read.
            view = view.handed(hand)?;
        }
        if self.let_go >= self.record().generation {
            view = view.let_go()?;
        }
        (self.view, self.basis) = (view, Some(basis));
        self.stated = reading.stated.0;
        self.body_is_of = self.body_is_of.and_then(|it| self.held_on(it));
        Ok(())
    }

    /// Returns whether a record that was read, with this owner and revision, must wait until it is seen too. That is so
    /// if this process has a body, and if changes may have been made that didn't wait for this process. Only all of
    /// these changes together tell whether the body is still held.
    pub(crate) fn waits_to_see(&self, read: (Option<u16>, Revision), basis: &Basis) -> bool {
        let (Some(before), (owner, stood)) = (self.body_is_of, read) else {
            return false;
        };
        let is_same_lease = before.stands.is_some_and(|it| it.0 == basis.joined.0);
        let are_awaited = is_same_lease && self.acked < before.generation;
        owner == Some(self.server) && !are_awaited && stood > basis.stood
    }

    /// Returns the state that now decides which work the record asks for.
    pub(crate) fn to_settle(&self) -> Settled {
        Settled {
            word: self.word,
            joined: self.view.joined(),
            is_freed: self.view.is_freed(),
        }
    }

    /// Returns the fencing token: the revision of the record or of the server's key, whichever is later. Another
    /// process executes only under a later record or a later key.
    pub(crate) fn fence(&self) -> u64 {
        self.stood.max(self.view.joined())
    }

    /// Returns how this process would hold a body of the shard that it gets now.
    pub(crate) fn holding(&self) -> Holding {
        let record = self.record();
        let is_paused = matches!(record.stand, Stand::Paused(_));
        let is_owner = record.owner() == Some(self.server);
        Holding {
            tenure: self.tenure,
            stands: Some((self.view.joined(), self.stated)).filter(|_| !self.view.reading().failed),
            generation: record.generation,
            away_and_back: PAUSED_AWAY_AND_BACK + u64::from(is_owner && !is_paused),
        }
    }

    /// Returns how a body is held now that was held in this way before. Returns nothing if anybody else may have
    /// executed in between. The reasons are:
    ///
    /// - No other process of this server has executed if the [tenure](durkenzo_driver::KeptLease::since) is the same.
    /// - If a record forwards calls to a server, that server has executed none of them unless it got the body.
    /// - If the record is the same, no other server has executed under it.
    /// - If this server is the owner under the present record, no other one has executed if there were fewer changes in
    ///   between than lead to another server and back.
    /// - If this server hasn't failed in between, all changes have waited for this process. Then no other server has
    ///   executed unless this process acked a record.
    /// - If each record in between was seen, and this server was the owner under all of them, no other one has
    ///   executed.
    pub(crate) fn held_on(&self, before: Holding) -> Option<Holding> {
        let (now, record) = (self.holding(), self.record());
        let is_same_record = now.generation == before.generation;
        let changes = now.generation.saturating_sub(before.generation);
        let is_near = changes < before.away_and_back;
        let is_owner = record.owner() == Some(self.server);
        let is_awaited = now.has_stood_since(before) && self.acked < before.generation;
        let generations = (before.generation, now.generation);
        let is_seen = |it: Basis| it.ownership.covers(self.server, generations);
        let is_owned = self.basis.is_some_and(is_seen);
        let stays = is_same_record || (is_near && is_owner) || is_awaited || is_owned;
        let is_handed = self.handed >= before.generation;
        // The body is of use as long as the next owner may say that it hasn't got it.
        let is_given = is_handed && !(is_same_record && now.stands == before.stands);
        (now.tenure == before.tenure && stays && !is_given).then_some(now)
    }

    /// Returns whether a shard that begins here by this record was never begun before. A process that joined after the
    /// record was written can't know that.
    pub(crate) fn is_new(&self) -> bool {
        self.record().generation == 1 && self.stood > self.view.joined() && !self.had_body
    }

    /// Lets go of the record.
    pub(crate) fn let_go(&mut self) -> Result<(), Code> {
        self.view = self.view.let_go()?;
        self.let_go = self.let_go.max(self.record().generation);
        Ok(())
    }
}

#[cfg(test)]
mod tests {
    use super::*;

    /// Returns the facts known under a lease of this revision, after a record of this generation was read. Server 1
    /// executes under it.
    fn known(joined: u64, generation: u64) -> Known {
        known_by(joined, (Stand::Serving(1), generation))
    }

    fn known_by(joined: u64, (stand, generation): (Stand, u64)) -> Known {
        let view = ShardView::new(1, joined, 100).unwrap();
        let mut known = Place::<()>::new(1, view).known.into_inner().unwrap();
        let mut record = word::record(0).unwrap();
        (record.stand, record.generation) = (stand, generation);
        known.word = word::of(&record).unwrap();
        known.tenure = 5;
        known
    }

    /// Returns whether a body that was held in this way is still held.
    fn is_held_on(known: &Known, before: Holding) -> bool {
        let held = known.held_on(before);
        assert!(held.is_none_or(|it| it == known.holding()));
        held.is_some()
    }

    #[test]
    fn a_body_is_held_on_until_another_process_may_have_executed() {
        let before = known(5, 7).holding();
        // In four changes the shard may have been another server's, if this server may have failed in between.
        for (joined, generation, stated, holds) in [
            (5, 11, 3, true),
            (6, 7, 3, true),
            (6, 10, 3, true),
            (6, 11, 0, true),
            (6, 11, 3, false),
        ] {
            let mut known = known(joined, generation);
            known.stated = stated;
            assert_eq!(is_held_on(&known, before), holds);
        }
        // Another process of this server has executed.
        for generation in [7, 8] {
            let mut known = known(6, generation);
            known.tenure = 6;
            assert!(!is_held_on(&known, before));
        }
        // Another server is the owner, or was.
        let mut failed = known_by(6, (Stand::Serving(2), 9));
        failed.stated = 3;
        assert!(!is_held_on(&failed, before));
    }

    #[test]
    fn a_body_is_held_on_unless_the_next_owner_has_it() {
        let before = known(5, 7).holding();
        let forwarding = (Stand::Forwarding { owner: 1, next: 2 }, 8);
        let mut known = known_by(5, forwarding);
        assert!(is_held_on(&known, before));
        let letting_go = known.holding();
        known.handed = 8;
        assert!(is_held_on(&known, letting_go));
        // The shard stays here, or the process has another lease.
        let mut stays = known_by(5, (Stand::Serving(1), 9));
        let mut later = known_by(6, forwarding);
        (stays.handed, later.handed) = (8, 8);
        assert!(!is_held_on(&stays, letting_go) && !is_held_on(&later, letting_go));
        assert!(is_held_on(&known_by(6, forwarding), letting_go));
    }

    #[test]
    fn a_body_is_not_held_on_once_the_shard_may_have_been_away() {
        let paused = known_by(5, (Stand::Paused(1), 8)).holding();
        for (acked, generation, holds) in [(8, 10, true), (8, 11, false), (7, 11, true)] {
            let mut known = known(5, generation);
            known.acked = acked;
            assert_eq!(is_held_on(&known, paused), holds);
        }
        // The next owner's body is older than the answers of the owner, once the migration is given up.
        let forwarded = known_by(5, (Stand::Forwarding { owner: 2, next: 1 }, 8)).holding();
        for (generation, holds) in [(9, true), (10, true), (11, false)] {
            let mut known = known(6, generation);
            known.stated = 3;
            assert_eq!(is_held_on(&known, forwarded), holds);
        }
        // If the server has failed, the control doesn't wait for it.
        let failed = durkenzo_store_sys::ShardReading {
            revision: 9,
            word: known(6, 8).word,
            owner_joined: 6,
            failed: true,
            owner_failed: true,
        };
        let mut before = known(6, 8);
        before.view = before.view.read(&failed).unwrap();
        assert!(is_held_on(&before, known(5, 7).holding()));
        assert!(is_held_on(&known(6, 11), before.holding()));
        assert!(!is_held_on(&known(6, 12), before.holding()));
    }

    /// Returns the facts seen under a lease of this revision, when a record was written at revision `stood`. Server 1
    /// was seen to be the owner under the records of all these generations.
    fn seen(joined: u64, generations: std::ops::RangeInclusive<u64>, stood: u64) -> Basis {
        let serving = |generation| Record {
            stand: Stand::Serving(1),
            generation,
            ..word::record(0).unwrap()
        };
        let ownership = generations.fold(Ownership::default(), |it, generation| {
            it.seen(&serving(generation))
        });
        Basis {
            stood: Revision(stood),
            ownership,
            joined: Revision(joined),
            is_away: false,
            owner_joined: None,
            owner_is_away: false,
        }
    }

    #[test]
    fn a_body_is_held_on_over_any_changes_that_were_all_seen() {
        let before = known(5, 7).holding();
        // The server's state was written in between, so the server may have failed.
        for (generations, holds) in [(7..=17, true), (8..=17, false), (7..=16, false)] {
            let mut known = known(6, 17);
            (known.stated, known.basis) = (3, Some(seen(6, generations, 9)));
            assert_eq!(is_held_on(&known, before), holds);
            known.tenure = 6;
            assert!(!is_held_on(&known, before));
        }
    }

    #[test]
    fn what_was_read_waits_to_be_seen_if_a_body_may_be_lost_by_it() {
        let mut known = known(5, 7);
        let waits = |known: &Known, owner, joined, stood| {
            known.waits_to_see((Some(owner), Revision(stood)), &seen(joined, 7..=7, 9))
        };
        assert!(!waits(&known, 1, 6, 10));
        known.body_is_of = Some(known.holding());
        assert!(waits(&known, 1, 6, 10) && !waits(&known, 1, 6, 9));
        // Another server is the owner, or all changes have waited for this process.
        assert!(!waits(&known, 2, 6, 10) && !waits(&known, 1, 5, 10));
        known.acked = 7;
        assert!(waits(&known, 1, 5, 10));
    }

    #[test]
    fn fences_tell_processes_of_a_server_apart_and_only_a_first_record_is_new() {
        let (mut first, mut second) = (known(5, 1), known(9, 1));
        (first.stood, second.stood) = (7, 7);
        assert!(first.fence() < second.fence());
        assert!(first.is_new() && !second.is_new());
        first.had_body = true;
        assert!(!first.is_new());
        second.stood = 12;
        assert_eq!(second.fence(), 12);
    }
}
