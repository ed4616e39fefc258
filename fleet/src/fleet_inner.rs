use crate::body_lock::BodyInUse;
use crate::copy_name::CopyName;
use crate::environment::Environment;
use crate::permit::BodyGuard;
use crate::place::{Known, Place};
use crate::{
    Destination, Enter, JoinError, Mode, Options, Permit, Refused, Service, Shard, Sharding,
};
use durkenzo::word;
use durkenzo_control::control::Asked;
use durkenzo_driver::{takes_part, Acks, Addresses, Durable, Member, NotDone, Own};
use durkenzo_store_sys::ShardView;
use std::sync::atomic::{AtomicBool, AtomicU64, Ordering};
use std::sync::mpsc::Sender;
use std::sync::{Arc, Mutex};
use std::time::Duration;
use tokio::sync::Semaphore;

/// A process of a fleet, without its threads and sockets. It gets the time from its environment, and waits only for
/// that.
pub(crate) struct FleetInner<S: Service> {
    pub(crate) service: S,
    pub(crate) options: Options,
    pub(crate) sharding: Sharding,
    pub(crate) settings: String,
    pub(crate) member: Arc<Member>,
    pub(crate) durable: Arc<Durable>,
    pub(crate) places: Box<[Place<S::Body>]>,
    pub(crate) environment: Arc<dyn Environment>,
    /// The room for bodies that come to this process.
    pub(crate) moves: Arc<Semaphore>,
    /// How many copies this process has named.
    copies: AtomicU64,
    /// The control of this process. There is none once the process has left.
    pub(crate) control: Mutex<Option<Sender<Asked>>>,
    pub(crate) stopping: Arc<AtomicBool>,
    /// Whether this process takes no more calls.
    pub(crate) closing: AtomicBool,
    /// Whether the process must leave at once, with the shards that it still has.
    pub(crate) leaves_at_once: AtomicBool,
    /// Whether the last message about the lease was that this process is sure of it.
    pub(crate) is_sure: AtomicBool,
}

impl<S: Service> FleetInner<S> {
    /// Returns the process that follows these records as this member, under these settings.
    pub(crate) fn new(
        (service, options): (S, Options),
        (settings, sharding): (String, Sharding),
        (member, durable): (Arc<Member>, Arc<Durable>),
        environment: Arc<dyn Environment>,
    ) -> Result<FleetInner<S>, JoinError> {
        let unread = ShardView::new(options.name, 0, 0);
        let unread = unread.map_err(|it| JoinError::Options(it.to_string()))?;
        let shards = 0..sharding.shards();
        member.have_tenure();
        Ok(FleetInner {
            service,
            places: shards.map(|_| Place::new(options.name, unread)).collect(),
            environment,
            member,
            durable,
            moves: Arc::new(Semaphore::new(usize::from(options.moves))),
            copies: AtomicU64::new(0),
            options,
            sharding,
            settings,
            control: Mutex::default(),
            stopping: Arc::default(),
            closing: AtomicBool::new(false),
            leaves_at_once: AtomicBool::new(false),
            is_sure: AtomicBool::new(false),
        })
    }

    pub(crate) fn server(&self) -> u16 {
        self.member.server()
    }

    /// Returns a name for a copy, later than each name before it. `joined` is the revision of this process's key.
    pub(crate) fn named_copy(&self, joined: u64) -> CopyName {
        CopyName {
            server: self.server(),
            joined,
            count: self.copies.fetch_add(1, Ordering::Relaxed),
        }
    }

    pub(crate) fn is_stopping(&self) -> bool {
        self.stopping.load(Ordering::Acquire)
    }

    /// Returns whether this server executes or takes part in a migration, under any of the records that were read last.
    pub(crate) fn is_named(&self) -> bool {
        let own = self.server();
        let mut places = self.places.iter();
        places.any(|it| takes_part(it.known().record().stand, own))
    }

    /// Ends all views. Calls that are under way then find that their permits don't hold any more.
    pub(crate) fn end_views(&self) {
        for place in &self.places {
            let mut known = place.known();
            if let Ok(ended) = known.view.kept(0) {
                known.view = ended;
            }
        }
    }

    /// Returns this moment, in nanoseconds of the clock that judges the lease.
    pub(crate) fn now(&self) -> u64 {
        #[cfg(any(test, feature = "plants", feature = "simulated"))]
        if self.options.plant == Some(crate::plant::Plant::NoLease) {
            return 0;
        }
        nanoseconds(self.by_clock(self.member.time()))
    }

    /// Returns the reading of the clock that judges the lease at this time. A trial may make that clock slow.
    pub(crate) fn by_clock(&self, time: Duration) -> Duration {
        #[cfg(any(test, feature = "plants", feature = "simulated"))]
        let time = time.mul_f64(1.0 - f64::from(self.options.slow_clock) / 1_000.0);
        time
    }

    pub(crate) async fn enter(&self, shard: u16, mode: Mode) -> Enter<'_, S> {
        match self.entered_at_once(shard, mode) {
            Ok(decided) => decided,
            Err((place, from)) => self.entered((shard, from), place, place.body().await),
        }
    }

    /// Returns the decision on the call. If this process may execute the call once the body is free, returns the
    /// shard's place and the sender instead.
    pub(crate) fn entered_at_once(
        &self,
        shard: u16,
        mode: Mode,
    ) -> Result<Enter<'_, S>, (&Place<S::Body>, u16)> {
        let (place, from) = match self.place_of(shard, mode) {
            Ok(found) => found,
            Err(why) => return Ok(Enter::Refused(why)),
        };
        // If the body is free, the call needs to be judged only once.
        if let Some(body) = place.free_body() {
            return Ok(self.entered((shard, from), place, body));
        }
        let known = place.known();
        match self.may_execute(&known, from) {
            true => Err((place, from)),
            false => Ok(self.onward(&known, from)),
        }
    }

    /// Returns the place of the shard, and the sender of the call.
    fn place_of(&self, shard: u16, mode: Mode) -> Result<(&Place<S::Body>, u16), Refused> {
        let place = self.places.get(usize::from(shard));
        let place = place.ok_or(Refused::UnknownShard)?;
        match mode {
            Mode::Direct => Ok((place, 0)),
            Mode::Forwarded(server) => Ok((place, server.get())),
        }
    }

    /// Decides on the call with the body locked. The call before it is over by now.
    pub(crate) fn entered<'a>(
        &'a self,
        (shard, from): (u16, u16),
        place: &'a Place<S::Body>,
        body: BodyInUse<'a, S::Body>,
    ) -> Enter<'a, S> {
        let known = place.known();
        if !self.may_execute(&known, from) {
            // The body is unlocked at once for those who wait for it.
            drop(body);
            return self.onward(&known, from);
        }
        match BodyGuard::new(body).filter(|_| known.body_is_of.is_some()) {
            Some(body) => {
                self.durable.count_request(shard);
                Enter::Here(Permit {
                    fleet: self,
                    body,
                    view: known.view,
                    from,
                    shard: Shard::new(shard, known.fence()),
                })
            }
            None if known.failed_adds > 0 => {
                Enter::Wait("the service fails to add the shard, as its process tells")
            }
            None => Enter::Wait("what the previous owner kept of the shard is on its way"),
        }
    }

    fn may_execute(&self, known: &Known, from: u16) -> bool {
        #[cfg(any(test, feature = "plants", feature = "simulated"))]
        if self.is_planted_in(known, from) {
            return true;
        }
        known.may_execute(from, self.now())
    }

    /// Returns the server to which a call goes that this process doesn't execute, or the reason to wait.
    fn onward(&self, known: &Known, from: u16) -> Enter<'_, S> {
        let (own, record) = (self.server(), known.record());
        if let Some(next) = word::forward(known.word, own) {
            return match self.has_let_go(known, record) {
                true => Enter::Forward(self.destination(next, known.stood)),
                false => Enter::Wait("the shard goes to its next owner"),
            };
        }
        match record.owner() {
            Some(owner) if owner != own && from == 0 => {
                Enter::Elsewhere(self.destination(owner, known.stood))
            }
            Some(owner) if owner != own => Enter::Wait("another server executes for the shard"),
            Some(_) if word::executor(known.word).is_none() => Enter::Wait("the shard is paused"),
            Some(_) => Enter::Wait("this process isn't sure of its lease, or has read nothing yet"),
            None => Enter::Wait("nobody owns the shard yet"),
        }
    }

    /// Returns whether the next owner has got everything that this process handed over, or is the owner already.
    fn has_let_go(&self, known: &Known, record: durkenzo::Record) -> bool {
        #[cfg(any(test, feature = "plants", feature = "simulated"))]
        if self.options.plant == Some(crate::plant::Plant::NextBeginsAnew) {
            return true;
        }
        record.owner() != Some(self.server()) || known.handed >= record.generation
    }

    /// Returns the owner of the shard by the record that was read last.
    pub(crate) fn owner(&self, shard: u16) -> Option<Destination> {
        let place = self.places.get(usize::from(shard))?;
        let (owner, stood) = {
            let known = place.known();
            (known.record().owner()?, known.stood)
        };
        Some(self.destination(owner, stood))
    }

    fn destination(&self, server: u16, revision: u64) -> Destination {
        let addresses = self.addresses_of(server);
        Destination {
            server,
            address: addresses.clone().map(|it| it.servers),
            clients: addresses.map(|it| it.clients),
            revision,
        }
    }

    pub(crate) fn address_of(&self, server: u16) -> Option<String> {
        self.addresses_of(server).map(|it| it.servers)
    }

    fn addresses_of(&self, server: u16) -> Option<Addresses> {
        let members = self.member.members();
        members.get(&server).map(|it| it.addresses.clone())
    }

    /// Returns whether the permit still holds. This is judged by the facts that were known when it was given, and by
    /// the time until which the lease was kept since.
    pub(crate) fn still_holds(&self, permit: &Permit<'_, S>) -> bool {
        let latest = self.places[usize::from(permit.shard.number())].known().view;
        let view = match latest.joined() == permit.view.joined() {
            true => permit.view.kept(latest.until()),
            false => Ok(permit.view),
        };
        #[cfg(any(test, feature = "plants", feature = "simulated"))]
        if self.options.plant == Some(crate::plant::Plant::OwnerExecutesOn) {
            return true;
        }
        view.and_then(|it| it.may_execute(permit.from, self.now()))
            .unwrap_or(false)
    }

    /// Returns whether a permit that doesn't hold now may hold again. It may if this process still has the permit's
    /// lease, as far as it knows.
    pub(crate) fn may_hold_again(&self, permit: &Permit<'_, S>) -> bool {
        let kept = self.member.kept_lease();
        !self.is_stopping() && kept.is_some_and(|it| it.joined.0 == permit.view.joined())
    }

    /// Returns whether a planted wrong rule makes this process execute the call.
    #[cfg(any(test, feature = "plants", feature = "simulated"))]
    fn is_planted_in(&self, known: &Known, from: u16) -> bool {
        use crate::plant::Plant;
        let (own, stand) = (self.server(), known.record().stand);
        match (self.options.plant, stand) {
            (Some(Plant::OwnerExecutesOn), durkenzo::Stand::Forwarding { owner, .. }) => {
                owner == own
            }
            (Some(Plant::NextBeginsAnew), durkenzo::Stand::Forwarding { owner, next }) => {
                next == own && from == owner
            }
            _ => false,
        }
    }
}

/// Returns the member in whose name the records are followed. The requests of such a service never go through a log.
pub(crate) fn own(member: &Arc<Member>) -> Own {
    Own {
        member: member.clone(),
        elsewhere: Box::new(|_, steps| {
            let ended = steps.into_iter();
            ended.for_each(|it| it.work.end(Err(NotDone::Busy)));
        }),
        acks: Acks::ByService,
    }
}

pub(crate) fn nanoseconds(time: Duration) -> u64 {
    u64::try_from(time.as_nanos()).unwrap_or(u64::MAX)
}
