use super::book::locked;
use super::frames::Asker;
use super::running_fleet::FleetShape;
use super::FleetEnvironment;
use crate::chance::Chance;
use crate::machine_clock::{Clocks, MachineClock};
use crate::tasks::Tasks;
use crate::time::Time;
use crate::timeline::{Column, Timeline};
use durkenzo_driver::RouteMap;
use durkenzo_fleet::simulated::FleetClient;
use durkenzo_fleet::Retry;
use std::cell::RefCell;
use std::rc::Rc;
use std::sync::Arc;
use std::time::Duration;

const CALLERS: usize = 3;

/// The fleet as a client knows it, once the client has got the map.
type Known = Rc<RefCell<Option<Rc<FleetClient>>>>;

/// A client of the fleet.
struct Caller {
    environment: Arc<FleetEnvironment>,
    known: Known,
    /// Whether the client is asking for the map.
    asks: Rc<RefCell<bool>>,
}

/// The clients of a fleet, and their calls.
pub struct Callers {
    all: Vec<Caller>,
    pub tasks: Tasks,
    timeline: Timeline,
}

impl Callers {
    /// Returns clients that don't know the fleet yet.
    pub fn new(shape: &FleetShape, time: &Time, timeline: &Timeline) -> Callers {
        let caller = |place: usize| {
            let clock: MachineClock = Clocks::Exact.of_machine(&mut Chance::new(0), time);
            let environment = FleetEnvironment {
                frames: shape.frames.clone(),
                asker: Asker::Client(place),
                clock,
            };
            Caller {
                environment: Arc::new(environment),
                known: Known::default(),
                asks: Rc::default(),
            }
        };
        Callers {
            all: (0..CALLERS).map(caller).collect(),
            tasks: Tasks::default(),
            timeline: timeline.clone(),
        }
    }

    /// Makes the first client go by this map of the store.
    pub fn watch(&mut self, shape: &FleetShape, map: RouteMap) {
        let caller = &self.all[0];
        let client = FleetClient::of_store(caller.environment.clone(), &shape.options, map);
        let client = client.expect("options are within their bounds");
        *caller.known.borrow_mut() = Some(Rc::new(client));
    }

    /// Returns how many clients there are.
    pub fn count(&self) -> usize {
        self.all.len()
    }

    /// Makes a client call some key. If the client doesn't know the fleet, it asks this server for the map instead.
    pub fn call(&mut self, at: usize, (chance, shape): (&mut Chance, &FleetShape), server: &str) {
        let (retry, key) = (retry(chance), chance.drawn());
        if !self.call_by(at, shape, key, retry) {
            self.learn(at, server);
        }
    }

    /// Makes a client call this key, if the client knows the fleet. Returns whether it does.
    pub fn call_by(&mut self, at: usize, shape: &FleetShape, key: u64, retry: Retry) -> bool {
        let known = self.all[at].known.borrow().clone();
        let Some(client) = known else {
            return false;
        };
        let (book, timeline) = (shape.book.clone(), self.timeline.clone());
        let call = locked(&book).begin_call();
        let key = key.to_be_bytes();
        let shard = client.sharding().shard_of(&key);
        let calls = || format!("client {at} calls {call} of shard {shard}");
        timeline.note(Column::Store, calls);
        self.tasks.add(async move {
            let told = client.call(&key, &call.to_be_bytes(), retry).await;
            let shown = || match &told {
                Ok(answer) => format!("client {at} is answered {call} by {}", answer.server),
                Err(error) => format!("client {at} is told of {call}: {error}"),
            };
            timeline.note(Column::Store, shown);
            locked(&book).tell((call, shard), &told);
        });
        true
    }

    /// Makes a client ask this server for the map, unless the client knows the fleet or is asking already.
    pub fn learn(&mut self, at: usize, server: &str) {
        let caller = &self.all[at];
        if caller.known.borrow().is_some() || caller.asks.replace(true) {
            return;
        }
        let (known, asks) = (caller.known.clone(), caller.asks.clone());
        let (environment, server) = (caller.environment.clone(), server.to_owned());
        self.tasks.add(async move {
            let client = FleetClient::of_server(environment, &server).await;
            *known.borrow_mut() = client.ok().map(Rc::new);
            asks.replace(false);
        });
    }

    /// Returns whether a client knows the fleet.
    pub fn knows(&self, at: usize) -> bool {
        self.all[at].known.borrow().is_some()
    }

    /// Returns whether any client is still asking for the map.
    pub fn learn_still(&self) -> bool {
        self.all.iter().any(|it| *it.asks.borrow())
    }

    /// Makes all clients but the first forget the fleet, because servers told them the routes.
    pub fn forget(&mut self) {
        for caller in &self.all[1..] {
            *caller.known.borrow_mut() = None;
        }
    }
}

/// Returns by chance how long a call may take, and whether it is tried only once.
fn retry(chance: &mut Chance) -> Retry {
    let most = [30, 300, 1_500, 6_000][chance.below(4) as usize];
    let budget = Duration::from_millis(1 + chance.below(most));
    match chance.is_true(1, 4) {
        true => Retry::Once(budget),
        false => Retry::Until(budget),
    }
}
