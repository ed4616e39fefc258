//! The clients' process. It calls until standard input ends, which also tells it of faults.
use crate::client::{Chance, Client, Shared};
use crate::message::now;
use crate::{moves, tally::Sums};
use clap::Parser;
use durkenzo_fleet::{Retry, Router};
use durkenzo_store::{Access, Etcd};
use std::error::Error;
use std::io;
use std::process::ExitCode;
use std::sync::atomic::Ordering;
use std::sync::Arc;
use std::thread::{self, JoinHandle};
use std::time::{Duration, Instant};

/// How often the process looks whether all shards are answered.
const LOOK: Duration = Duration::from_millis(2);

/// The process of the clients, and how they call.
#[derive(Debug, Parser)]
pub struct ClientProcess {
    /// Addresses of etcd's members
    #[arg(long, value_delimiter = ',')]
    etcd: Vec<String>,

    /// Addresses of the servers
    #[arg(long, value_delimiter = ',')]
    servers: Vec<String>,

    /// Number of clients that call
    #[arg(long, default_value_t = 8)]
    clients: u32,

    /// Number of keys that each client counts with
    #[arg(long, default_value_t = 24)]
    keys: u32,

    /// Milliseconds that a client rests between two calls
    #[arg(long, default_value_t = 3)]
    rest: u64,

    /// Seconds for which a call is tried
    #[arg(long, default_value_t = 5)]
    patience: u64,

    /// Seconds within which all shards must be answered after a fault
    #[arg(long, default_value_t = 60)]
    bound: u64,

    /// Milliseconds between two migrations; 0 makes none
    #[arg(long, default_value_t = 0)]
    moves: u64,

    #[arg(long, default_value_t = 1)]
    seed: u64,
}

/// The faults that begin and end with the lines of standard input.
struct Faults<'a> {
    process: &'a ClientProcess,
    shared: &'a Shared,
    /// The fault that is under way, when it began, and the sums at that time.
    current: Option<(String, Instant, Sums)>,
}

impl ClientProcess {
    /// Calls until standard input ends. Returns status 1 if anything is wrong.
    pub fn run(&self) -> Result<ExitCode, Box<dyn Error>> {
        let store = Etcd::new(Access::new(self.etcd.iter()))?;
        let watching = Arc::new(self.watching(&store)?);
        let first = self.servers.first().ok_or("--servers names none")?;
        let routers = [watching.clone(), Arc::new(Router::of(first)?)];
        let times = [
            Duration::from_secs(self.patience),
            Duration::from_millis(self.rest),
        ];
        let shards = watching.sharding().shards();
        let keys = self.clients * self.keys;
        let shared = Arc::new(Shared::new(shards, keys, times.into()));
        self.await_owners(&watching)?;
        shared.calm.store(1, Ordering::SeqCst);
        let clients = self.clients(&shared, &routers);
        let moves = self.moves(&shared, &watching);
        let mut faults = Faults {
            process: self,
            shared: &shared,
            current: None,
        };
        println!("begun");
        for line in io::stdin().lines() {
            faults.take(&line?);
        }
        shared.is_over.store(true, Ordering::SeqCst);
        for it in clients {
            it.join().map_err(|_| "a client has panicked")?;
        }
        if let Some(moves) = moves {
            let refused = moves.join().map_err(|_| "the mover has panicked")?;
            println!("commands refused: {refused:?}");
        }
        let sums = shared.tally.sums();
        println!("sums: {sums}, {} ms is the longest", shared.tally.longest());
        Ok(ExitCode::from(u8::from(sums.wrong > 0)))
    }

    /// Watches the map of the fleet, as soon as its first process has written the settings.
    fn watching(&self, store: &Etcd) -> Result<Router, Box<dyn Error>> {
        let end = Instant::now() + Duration::from_secs(self.bound);
        loop {
            match Router::watch(store) {
                Err(_) if Instant::now() < end => thread::sleep(LOOK),
                watched => return Ok(watched?),
            }
        }
    }

    /// Waits until each shard is answered.
    fn await_owners(&self, router: &Router) -> Result<(), Box<dyn Error>> {
        let retry = Retry::Until(Duration::from_secs(self.bound));
        for key in 0..self.clients * self.keys {
            let asked = crate::message::Asked { key, number: 0 };
            router.call(key.to_string().as_bytes(), &asked.bytes(), retry)?;
        }
        Ok(())
    }

    fn clients(&self, shared: &Arc<Shared>, routers: &[Arc<Router>; 2]) -> Vec<JoinHandle<()>> {
        let one = |number: u32| {
            let client = Client {
                shared: shared.clone(),
                routers: routers.clone(),
                chance: Chance::new(self.seed * 1_000 + u64::from(number)),
                first: number * self.keys,
                keys: (0..self.keys).map(|_| Default::default()).collect(),
            };
            thread::spawn(move || client.run())
        };
        (0..self.clients).map(one).collect()
    }

    fn moves(
        &self,
        shared: &Arc<Shared>,
        router: &Arc<Router>,
    ) -> Option<JoinHandle<std::collections::BTreeMap<String, u64>>> {
        let (shared, router) = (shared.clone(), router.clone());
        let how = (self.servers.len() as u64, Duration::from_millis(self.moves));
        let chance = Chance::new(self.seed);
        (self.moves > 0).then(|| thread::spawn(move || moves::run(&shared, &router, chance, how)))
    }
}

impl Faults<'_> {
    /// Takes a line. A fault begins, or it is over, or there was no fault at all.
    fn take(&mut self, line: &str) {
        match line.split_once(' ') {
            Some(("fault", name)) => {
                self.shared.begin_fault();
                println!("begun: {name}");
                let sums = self.shared.tally.sums();
                self.current = Some((name.to_owned(), Instant::now(), sums));
            }
            Some((_, _)) | None => self.heal(),
        }
    }

    /// Waits until all shards are answered, and prints the results of the fault.
    fn heal(&mut self) {
        let Some((name, began, before)) = self.current.take() else {
            return;
        };
        let (lasted, healed) = (began.elapsed(), now());
        let waits = self.await_answers(healed);
        let took = (now() - healed) / 1_000_000;
        if !waits.is_empty() {
            let what = format!("after {name} shards aren't answered: {waits:?}");
            self.shared.tally.wrong(what);
        }
        let sums = self.shared.tally.sums().since(before);
        let lasted = lasted.as_secs_f64();
        println!("fault: {name}: {lasted:.1} s, all answered {took} ms later; {sums}");
        self.shared.end_fault();
    }

    /// Waits until each shard has answered a call that began after this time. Returns the shards that haven't.
    fn await_answers(&self, since: u64) -> Vec<usize> {
        let end = Instant::now() + Duration::from_secs(self.process.bound);
        loop {
            let answered = self.shared.answered.iter().enumerate();
            let late = answered.filter(|it| it.1.load(Ordering::SeqCst) < since);
            let late: Vec<usize> = late.map(|it| it.0).collect();
            if late.is_empty() || Instant::now() > end {
                return late;
            }
            thread::sleep(LOOK);
        }
    }
}
