//! Tests in which the leader dies after each of its commands in turn, or in which its store fails for a while then. The
//! next leader must finish the work that was under way.
use super::{Asked, Campaigner, ClusterHost, Controller, StoreBackend, Words};
use crate::cluster::Cluster;
use crate::configuration::Configuration;
use crate::io::ReplyAddress;
use crate::keyspace::Rule;
use crate::settings;
use crate::storage::{InFolder, OnEtcd, Storage};
use crate::works::Peers;
use durkenzo::Stand;
use durkenzo_control::control::{FIRST_WAIT, TURN};
use durkenzo_control::links::{Admission, Identity, Terms};
use durkenzo_driver::{keys, Acks, Addresses, Durable, DurableControl, Member, Own};
use durkenzo_store::{
    CompactError, Done, Embedded, LeaseError, LeaseId, Pair, ReadError, Reading, Store,
    StoreCounts, Sync as SyncTime, Transaction, Watch, Watcher, WriteError,
};
use std::net::TcpListener;
use std::sync::atomic::{AtomicBool, AtomicI64, Ordering};
use std::sync::mpsc::{self, Receiver, SyncSender};
use std::sync::{Arc, Mutex};
use std::thread;
use std::time::{Duration, Instant};

const SERVERS: u16 = 3;
const SHARDS: u16 = 6;
/// Long enough that no process loses its lease on a machine that is busy with all tests. If a process dies, its lease
/// is ended.
const LEASE: Duration = Duration::from_secs(120);
const PATIENCE: Duration = Duration::from_secs(100);
/// How long a shard's next step comes after the one before, if a server must fail between them.
const PACE: Duration = Duration::from_secs(8);
/// How long a command takes if others must come before it is over.
const SLOW: Duration = Duration::from_millis(400);
/// How long a store that falters can't be reached.
const OUT: Duration = Duration::from_millis(300);

/// What happens after the last of so many commands.
#[derive(Clone, Copy, PartialEq, Eq)]
enum Then {
    /// The process dies.
    Dies,
    /// The store can't be reached for a while. The command's outcome is told, or isn't.
    Falters(bool),
    /// The command isn't made, because the store is full for a while.
    IsFull,
}

/// A process's access to the store. It ends after so many commands of the process, or if the process is killed. Each
/// command takes so long.
struct Way {
    store: Arc<dyn Store>,
    pause: Mutex<Duration>,
    commands: AtomicI64,
    then: Mutex<Then>,
    out: Mutex<Option<Instant>>,
    is_dead: Arc<AtomicBool>,
}

impl Way {
    fn new(store: &Arc<dyn Store>) -> Arc<Way> {
        Arc::new(Way {
            store: store.clone(),
            pause: Mutex::default(),
            commands: AtomicI64::new(i64::MAX),
            then: Mutex::new(Then::Dies),
            out: Mutex::default(),
            is_dead: Arc::default(),
        })
    }

    /// Makes this happen once so many more commands were made.
    fn after(&self, commands: i64, then: Then) {
        *self.then.lock().unwrap() = then;
        self.commands.store(commands, Ordering::Release);
    }

    /// Makes each command take so long from now on.
    fn slow_down(&self, pause: Duration) {
        *self.pause.lock().unwrap() = pause;
    }

    fn is_dead(&self) -> bool {
        self.is_dead.load(Ordering::Acquire)
    }

    fn is_out(&self) -> bool {
        self.out
            .lock()
            .unwrap()
            .is_some_and(|it| Instant::now() < it)
    }

    fn unavailable(&self) -> Result<(), ReadError> {
        let is_full = *self.then.lock().unwrap() == Then::IsFull;
        match self.is_dead() || self.is_out() && !is_full {
            true => Err(ReadError::Unavailable("dead".to_owned())),
            false => Ok(()),
        }
    }

    /// Makes the last command, or doesn't.
    fn submit_last(&self, transaction: Transaction, done: Done) {
        let unknown = || Err(WriteError::Unknown("dead".to_owned()));
        let then = *self.then.lock().unwrap();
        match then {
            Then::Dies => self.is_dead.store(true, Ordering::Release),
            Then::Falters(_) | Then::IsFull => {
                *self.out.lock().unwrap() = Some(Instant::now() + OUT);
            }
        }
        match then {
            Then::Falters(true) => self.store.submit(transaction, done),
            Then::IsFull => done(Err(WriteError::Full("a test".to_owned()))),
            _ => self
                .store
                .submit(transaction, Box::new(move |_| done(unknown()))),
        }
    }

    fn no_lease(&self) -> Result<(), LeaseError> {
        match self.is_dead() {
            true => Err(LeaseError::Unavailable("dead".to_owned())),
            false => Ok(()),
        }
    }
}

impl Store for Way {
    fn submit(&self, transaction: Transaction, done: Done) {
        let unknown = || Err(WriteError::Unknown("dead".to_owned()));
        if self.is_dead() {
            thread::spawn(move || done(unknown()));
            return;
        }
        let is_command = transaction.puts.iter().any(|it| it.key == keys::COMMANDS);
        if is_command {
            let pause = *self.pause.lock().unwrap();
            thread::sleep(pause);
        }
        if is_command && self.commands.fetch_sub(1, Ordering::AcqRel) == 1 {
            return self.submit_last(transaction, done);
        }
        if is_command && self.is_out() {
            let refused = match *self.then.lock().unwrap() {
                Then::IsFull => WriteError::Full("a test".to_owned()),
                _ => WriteError::Unavailable("a test".to_owned()),
            };
            thread::spawn(move || done(Err(refused)));
            return;
        }
        self.store.submit(transaction, done);
    }

    fn read(&self, keys: &[&[u8]]) -> Result<Reading, ReadError> {
        self.unavailable()?;
        self.store.read(keys)
    }

    fn read_all(&self, prefix: &[u8]) -> Result<Reading, ReadError> {
        self.unavailable()?;
        self.store.read_all(prefix)
    }

    fn read_range(&self, from: &[u8], end: &[u8], most: usize) -> Result<Reading, ReadError> {
        self.unavailable()?;
        self.store.read_range(from, end, most)
    }

    fn watch(&self, prefix: &[u8], mut watcher: Watcher) -> Result<Watch, ReadError> {
        let is_dead = self.is_dead.clone();
        let hears = move |seen| {
            if !is_dead.load(Ordering::Acquire) {
                watcher(seen);
            }
        };
        self.store.watch(prefix, Box::new(hears))
    }

    fn grant(&self, length: Duration) -> Result<LeaseId, LeaseError> {
        self.no_lease()?;
        self.store.grant(length)
    }

    fn keep(&self, lease: LeaseId) -> Result<(), LeaseError> {
        self.no_lease()?;
        self.store.keep(lease)
    }

    fn revoke(&self, lease: LeaseId) -> Result<(), LeaseError> {
        self.no_lease()?;
        self.store.revoke(lease)
    }

    fn compact(&self) -> Result<(), CompactError> {
        self.store.compact()
    }
}

/// A process of the cluster, in a thread.
struct Process {
    way: Arc<Way>,
    cluster: Arc<Cluster>,
    durable: Arc<Durable>,
    peers: Arc<Peers>,
    control: SyncSender<Asked>,
}

impl Process {
    fn begin(store: &Arc<dyn Store>, server: u16, configuration: &Configuration) -> Process {
        let way = Way::new(store);
        let listener = TcpListener::bind("127.0.0.1:0").unwrap();
        let addresses = Addresses {
            servers: listener.local_addr().unwrap().to_string(),
            clients: String::new(),
        };
        let member = Member::join(way.clone(), server, addresses, LEASE, Box::new(|| {}));
        let member = Arc::new(member.unwrap());
        let terms = Terms {
            identity: Identity {
                server,
                settings: 0,
                process: member.process(),
                table: 1,
            },
            secret: None,
            tls: None,
            admits: Admission::Processes,
        };
        let peers = Arc::new(Peers::new(terms, member.clone(), configuration.wait));
        let elsewhere = peers.hand_over();
        let own = Own {
            member,
            elsewhere,
            acks: Acks::AsRead,
        };
        let (shards, shard_options) = (configuration.rule.shards(), configuration.shard_options());
        let durable = Durable::open_one(way.clone(), shards, shard_options, own, Box::new(|| {}));
        let durable = Arc::new(durable.unwrap());
        let storage = Storage::Etcd(OnEtcd::new(durable.clone(), peers.clone(), uncounted()));
        let cluster = Arc::new(Cluster::new(configuration.clone(), storage));
        let (control, asked) = mpsc::sync_channel(9);
        let begun = peers.begin(listener, &durable, &cluster, control.clone());
        drop(begun.unwrap());
        let line = settings::line(configuration);
        let host = Arc::new(ClusterHost::new(cluster.clone()).unwrap());
        let campaigner = Campaigner::new(host, durable.clone(), peers.clone(), line, true);
        thread::spawn(move || campaigner.run(asked));
        Process {
            way,
            cluster,
            durable,
            peers,
            control,
        }
    }

    fn server(&self) -> u16 {
        self.peers.member().server()
    }

    /// Makes it like a process that was killed and whose lease has ended.
    fn kill(&self) {
        self.way.is_dead.store(true, Ordering::Release);
        self.cluster.stop();
        let lease = self.peers.member().lease();
        self.peers.leave();
        // If it was killed before, the lease has ended already.
        let _ = lease.map(|it| self.way.store.revoke(it));
    }

    /// Makes it die once it has made so many more commands.
    fn dies_after(&self, commands: i64) {
        self.way.after(commands, Then::Dies);
    }

    /// Asks its control, and returns the receiver of the answer.
    fn ask(&self, words: &[&str]) -> Receiver<Vec<u8>> {
        ask(&self.control, words)
    }

    fn stand(&self, shard: u16) -> Stand {
        let standing = self.durable.standing(shard).unwrap();
        standing.record().unwrap().stand
    }

    fn stands(&self) -> Vec<Stand> {
        let shards = 0..self.durable.shards();
        shards.map(|it| self.stand(it)).collect()
    }

    fn leads(&self) -> bool {
        self.peers.leader() == Some(self.server())
    }
}

impl Drop for Process {
    fn drop(&mut self) {
        self.kill();
    }
}

/// Asks a control, and returns the receiver of the answer.
fn ask(control: &SyncSender<Asked>, words: &[&str]) -> Receiver<Vec<u8>> {
    let (tell, told) = mpsc::channel();
    let reply_to = ReplyAddress::process(move |answer| {
        // A process that dies isn't told.
        let _ = tell.send(answer);
    });
    let asked = Asked {
        words: Words::of(words),
        reply_to: Box::new(reply_to),
    };
    control.send(asked).unwrap();
    told
}

fn wait_until(what: &str, is_so: impl Fn() -> bool) {
    let end = Instant::now() + PATIENCE;
    while !is_so() {
        assert!(Instant::now() < end, "in vain: {what}");
        thread::sleep(Duration::from_millis(5));
    }
}

/// Three processes. The first one leads. Their servers have two shards each, or have room for only these.
struct Three {
    store: Arc<dyn Store>,
    configuration: Configuration,
    first: Process,
    second: Process,
    third: Process,
}

impl Three {
    fn begin(is_full: bool) -> Three {
        let store: Arc<dyn Store> = Arc::new(Embedded::in_memory());
        let mut configuration = Configuration {
            servers: SERVERS,
            ..Configuration::new(Rule::Hash(SHARDS))
        };
        if is_full {
            let each = format!("\"capacity\":{}", SHARDS / SERVERS);
            let much = format!("\"capacity\":{}", u32::MAX);
            let line = settings::line(&configuration).replace(&much, &each);
            configuration.settings = Some(line.into());
        }
        let start = |it| Process::begin(&store, it, &configuration);
        let first = start(1);
        wait_until("the first leads", || first.leads());
        let three = Three {
            second: start(2),
            third: start(3),
            first,
            configuration: configuration.clone(),
            store: store.clone(),
        };
        wait_until("all see the shards assigned", || {
            let all = [&three.first, &three.second, &three.third];
            all.iter().all(|it| it.stands() == owned())
        });
        three
    }

    fn start(&self, server: u16) -> Process {
        Process::begin(&self.store, server, &self.configuration)
    }

    /// Waits until the leader has died.
    fn await_death(&self) {
        wait_until("the leader dies", || self.first.way.is_dead());
        self.first.kill();
    }

    /// Checks that the control intends nothing more.
    fn nothing_is_intended(&self) {
        self.only_homes_are_intended(|_| false);
    }

    /// Checks that the control intends only to bring home the shards that the first process had when it died.
    fn only_homes_of_the_first_are_intended(&self) {
        self.only_homes_are_intended(|server| server == 1);
    }

    fn only_homes_are_intended(&self, may_be: impl Fn(u16) -> bool) {
        // The value is a version, and then the server.
        let home = |it: Pair| u16::from_be_bytes(it.value[1..].try_into().unwrap());
        wait_until("nothing else is intended", || {
            let lying = |prefix| self.store.read_all(prefix).unwrap().pairs;
            lying(keys::DRAINS).is_empty()
                && lying(keys::HOMES).into_iter().all(|it| may_be(home(it)))
        });
    }

    fn stands_become(&self, are_so: impl Fn(&[Stand]) -> bool) {
        wait_until("shards stand so", || are_so(&self.second.stands()));
    }

    /// Checks that everything is as it was at first.
    fn all_is_as_it_was(&self) {
        wait_until("all is as it was", || {
            let is_away = |it| self.second.durable.is_away(it);
            self.second.stands() == owned() && !(1..=SERVERS).any(is_away)
        });
    }
}

/// Returns the stands of the shards at first.
fn owned() -> Vec<Stand> {
    (0..SHARDS)
        .map(|it| Stand::Serving(it % SERVERS + 1))
        .collect()
}

/// Returns whether the shards of server 3 stand as at first, and the other shards have owners.
fn of_third(stands: &[Stand]) -> bool {
    let are_home = [2, 5].iter().all(|it| stands[*it] == Stand::Serving(3));
    are_home && stands.iter().all(|it| matches!(it, Stand::Serving(_)))
}

/// Makes the leader die after each of so many commands, each time in a new cluster.
fn at_each(commands: i64, dies: impl Fn(i64) + Sync) {
    thread::scope(|scope| {
        let dies = &dies;
        for number in 1..=commands {
            scope.spawn(move || dies(number));
        }
    });
}

#[test]
fn a_reassignment_is_ended_by_the_next_leader() {
    // Server 3 has failed. Its shards are paused, and go to other servers.
    at_each(5, |number| {
        let three = Three::begin(false);
        three.first.dies_after(number);
        three.third.kill();
        three.await_death();
        three.stands_become(|them| them.iter().all(|it| *it == Stand::Serving(2)));
    });
}

#[test]
fn a_server_fails_though_shards_wait_for_owners() {
    // The leader dies after it has given owners to so many of six shards. The first of these is its own.
    at_each(5, |number| {
        let store: Arc<dyn Store> = Arc::new(Embedded::in_memory());
        let configuration = Configuration {
            servers: SERVERS,
            ..Configuration::new(Rule::Hash(SHARDS))
        };
        let start = |it| Process::begin(&store, it, &configuration);
        let first = start(1);
        wait_until("the first leads", || first.leads());
        first.dies_after(number);
        let (second, third) = (start(2), start(3));
        wait_until("the leader dies", || first.way.is_dead());
        first.kill();
        let leads = || second.leads() || third.leads();
        wait_until("another one leads", leads);
        let led = Instant::now();
        wait_until("its first shard goes on", || {
            matches!(second.stand(0), Stand::Serving(2 | 3))
        });
        assert!(led.elapsed() < FIRST_WAIT);
    });
}

#[test]
fn shards_that_fit_nowhere_are_resumed_by_the_next_leader() {
    // Server 3 is back, and its two shards go on.
    at_each(3, |number| {
        let three = Three::begin(true);
        three.third.kill();
        three.stands_become(|them| [2, 5].iter().all(|it| them[*it] == Stand::Paused(3)));
        three.first.dies_after(number);
        let third = three.start(3);
        three.await_death();
        let first = three.start(1);
        three.all_is_as_it_was();
        drop((first, third));
    });
}

#[test]
fn a_drain_for_a_restart_is_ended_by_the_next_leader() {
    // The restart is asked for and approved, both shards take four steps, and the server is stopped.
    at_each(11, |number| {
        let three = Three::begin(false);
        three.first.dies_after(number);
        three.first.ask(&["SM", "RESTART", "3"]);
        three.await_death();
        // No second server may be away while one has failed.
        let first = three.start(1);
        let second = &three.second;
        wait_until("server 3 is stopped", || second.durable.is_away(3));
        three.third.kill();
        let third = three.start(3);
        wait_until("all are up", || {
            !(1..=SERVERS).any(|it| second.durable.is_away(it))
        });
        three.stands_become(of_third);
        three.nothing_is_intended();
        drop((first, third));
    });
}

#[test]
fn shards_come_home_by_the_next_leader() {
    // The server was drained and stopped by eleven commands. It is up again, and both shards take four steps each.
    at_each(9, |number| {
        let three = Three::begin(false);
        three.first.dies_after(11 + number);
        three.first.ask(&["SM", "RESTART", "3"]);
        wait_until("server 3 is stopped", || three.second.durable.is_away(3));
        three.third.kill();
        let third = three.start(3);
        three.await_death();
        three.stands_become(of_third);
        three.only_homes_of_the_first_are_intended();
        three.stands_become(|them| them.iter().all(|it| matches!(it, Stand::Serving(2 | 3))));
        drop(third);
    });
}

#[test]
fn a_drain_is_ended_by_the_next_leader() {
    // Both shards of server 3 take four steps.
    at_each(8, |number| {
        let three = Three::begin(false);
        three.first.dies_after(number);
        three.first.ask(&["SM", "DRAIN", "3"]);
        three.await_death();
        three.stands_become(|them| them.iter().all(|it| *it == Stand::Serving(2)));
        three.only_homes_of_the_first_are_intended();
    });
}

#[test]
fn a_spread_is_ended_by_the_next_leader() {
    // Server 3 was drained, and gets two shards of server 1, which take four steps.
    at_each(8, |number| {
        let three = Three::begin(false);
        let drained = three.first.ask(&["SM", "DRAIN", "3"]);
        drained.recv_timeout(PATIENCE).unwrap();
        three.first.dies_after(number);
        three.first.ask(&["SM", "SPREAD"]);
        three.await_death();
        three.stands_become(|them| {
            let has = |server| {
                them.iter()
                    .filter(|it| **it == Stand::Serving(server))
                    .count()
            };
            (has(2), has(3)) == (3, 3)
        });
        three.only_homes_of_the_first_are_intended();
    });
}

#[test]
fn shards_of_a_server_that_failed_come_home() {
    let three = Three::begin(false);
    three.third.kill();
    three.stands_become(|them| them.iter().all(|it| matches!(it, Stand::Serving(1 | 2))));
    let third = three.start(3);
    three.all_is_as_it_was();
    three.nothing_is_intended();
    drop(third);
}

#[test]
fn shards_of_a_leader_that_died_come_home() {
    let three = Three::begin(false);
    three.first.kill();
    three.stands_become(|them| them.iter().all(|it| matches!(it, Stand::Serving(2 | 3))));
    let first = three.start(1);
    three.all_is_as_it_was();
    three.nothing_is_intended();
    drop(first);
}

#[test]
fn a_shard_that_somebody_moved_does_not_come_home() {
    let three = Three::begin(false);
    three.third.kill();
    three.stands_become(|them| them.iter().all(|it| matches!(it, Stand::Serving(1 | 2))));
    let other = match three.first.stand(2) {
        Stand::Serving(1) => "2",
        _ => "1",
    };
    let told = three.first.ask(&["SM", "MIGRATE", "2", other]);
    assert_eq!(told.recv_timeout(PATIENCE).unwrap(), b"+OK\r\n");
    let third = three.start(3);
    three.stands_become(|them| them[5] == Stand::Serving(3));
    three.nothing_is_intended();
    assert!(matches!(three.second.stand(2), Stand::Serving(1 | 2)));
    drop(third);
}

#[test]
fn who_drains_a_server_is_told_where_its_shards_went() {
    let three = Three::begin(false);
    let told = |words: &[&str]| three.first.ask(words).recv_timeout(PATIENCE).unwrap();
    assert_eq!(
        told(&["SM", "DRAIN", "3"]),
        b"*2\r\n$3\r\n2>1\r\n$3\r\n5>1\r\n"
    );
    assert_eq!(told(&["SM", "DRAIN", "3"]), b"*0\r\n");
    three.nothing_is_intended();
}

/// Returns counters that nothing adds to.
fn uncounted() -> Arc<StoreCounts> {
    Arc::new(StoreCounts::new(Instant::now()))
}

/// Makes three processes with these settings. The first one leads.
fn three_of(configuration: Configuration) -> [Process; 3] {
    let store: Arc<dyn Store> = Arc::new(Embedded::in_memory());
    let start = |it| Process::begin(&store, it, &configuration);
    let first = start(1);
    wait_until("the first leads", || first.leads());
    let (second, third) = (start(2), start(3));
    wait_until("all have owners", || second.stands() == owned());
    [first, second, third]
}

#[test]
fn who_moves_a_shard_to_a_server_that_fails_is_told_so() {
    // The server has failed before the next step.
    let configuration = Configuration {
        servers: SERVERS,
        pace: PACE,
        ..Configuration::new(Rule::Hash(SHARDS))
    };
    let [first, second, third] = three_of(configuration);
    let moved = first.ask(&["SM", "MIGRATE", "0", "3"]);
    wait_until("it begins", || second.stand(0) != Stand::Serving(1));
    third.kill();
    let told = moved.recv_timeout(PATIENCE).unwrap();
    assert!(told.starts_with(b"-REFUSED NotMoved: "), "{told:?}");
    wait_until("it stays", || second.stand(0) == Stand::Serving(1));
}

#[test]
fn a_shard_that_somebody_has_stay_is_not_told_as_moved() {
    let configuration = Configuration {
        servers: SERVERS,
        ..Configuration::new(Rule::Hash(SHARDS))
    };
    let [first, second, _third] = three_of(configuration);
    // Each command takes longer than the time after which others have their turn.
    first.way.slow_down(SLOW.max(2 * TURN));
    let told = |it: Receiver<Vec<u8>>| it.recv_timeout(PATIENCE).unwrap();
    let moved = first.ask(&["SM", "MIGRATE", "0", "3"]);
    assert_eq!(told(first.ask(&["SM", "CANCEL", "0"])), b"+OK\r\n");
    let moved = told(moved);
    assert!(moved.starts_with(b"-REFUSED NotMoved: "), "{moved:?}");
    wait_until("it stays", || second.stand(0) == Stand::Serving(1));
    let drained = first.ask(&["SM", "DRAIN", "3"]);
    assert_eq!(told(first.ask(&["SM", "CANCEL", "2"])), b"+OK\r\n");
    assert_eq!(told(drained), b"*2\r\n$3\r\n2>1\r\n$3\r\n5>1\r\n");
}

#[test]
fn all_processes_are_not_restarted_at_once() {
    let three = Three::begin(false);
    let told = three.first.ask(&["SM", "RESTART"]).recv_timeout(PATIENCE);
    assert!(told.unwrap().starts_with(b"-REFUSED OneByOne: "));
    three.nothing_is_intended();
}

#[test]
fn a_shard_that_somebody_moves_stays_there() {
    // The shard left for a restart, and would come home otherwise.
    let three = Three::begin(false);
    three.first.ask(&["SM", "RESTART", "3"]);
    wait_until("server 3 is stopped", || three.second.durable.is_away(3));
    let moved = three.first.ask(&["SM", "MIGRATE", "5", "2"]);
    assert_eq!(moved.recv_timeout(PATIENCE).unwrap(), b"+OK\r\n");
    three.first.kill();
    let first = three.start(1);
    three.third.kill();
    let third = three.start(3);
    three.stands_become(|them| them[2] == Stand::Serving(3));
    three.nothing_is_intended();
    assert_eq!(three.second.stand(5), Stand::Serving(2));
    drop((first, third));
}

#[test]
fn a_shard_that_somebody_moves_while_nobody_leads_stays_there() {
    // The shard left for a restart, then for a drain, and would come home otherwise.
    let three = Three::begin(false);
    three.first.ask(&["SM", "RESTART", "3"]);
    wait_until("server 3 is stopped", || three.second.durable.is_away(3));
    three.third.kill();
    let drained = three.first.ask(&["SM", "DRAIN", "1"]);
    assert!(drained.recv_timeout(PATIENCE).unwrap().starts_with(b"*"));
    three.first.kill();
    let moved = three.second.ask(&["SM", "MIGRATE", "5", "2"]);
    // The shard is there already. New is that it must stay there.
    let told = moved.recv_timeout(PATIENCE).unwrap();
    assert!(told.starts_with(b"-REFUSED SameServer"));
    let third = three.start(3);
    three.stands_become(|them| them[2] == Stand::Serving(3));
    three.nothing_is_intended();
    assert_eq!(three.second.stand(5), Stand::Serving(2));
    drop(third);
}

#[test]
fn a_restart_without_room_elsewhere_is_ended_by_the_next_leader() {
    // The restart is asked for and approved, both shards pause, the server is stopped and is back, and both shards go
    // on.
    at_each(8, |number| {
        let three = Three::begin(true);
        three.first.dies_after(number);
        three.first.ask(&["SM", "RESTART", "3"]);
        let (second, leader) = (&three.second, &three.first);
        let is_stopped = || second.durable.is_away(3);
        wait_until("it is stopped, or the leader dies", || {
            is_stopped() || leader.way.is_dead()
        });
        let first = leader.way.is_dead().then(|| {
            leader.kill();
            three.start(1)
        });
        wait_until("server 3 is stopped", is_stopped);
        three.third.kill();
        let third = three.start(3);
        let first = first.unwrap_or_else(|| {
            three.await_death();
            three.start(1)
        });
        three.all_is_as_it_was();
        drop((first, third));
    });
}

#[test]
fn a_migration_is_ended_by_the_next_leader() {
    // One is a shard of another server, and one is the leader's own.
    for shard in ["0", "1"] {
        at_each(4, |number| {
            let three = Three::begin(false);
            three.first.dies_after(number);
            three.first.ask(&["SM", "MIGRATE", shard, "3"]);
            three.await_death();
            let shard: usize = shard.parse().unwrap();
            three.stands_become(|them| them[shard] == Stand::Serving(3));
            three.stands_become(|them| them.iter().all(|it| matches!(it, Stand::Serving(2 | 3))));
        });
    }
}

#[test]
fn a_shard_that_somebody_paused_stays_so() {
    let three = Three::begin(false);
    three.first.ask(&["SM", "PAUSE", "1"]);
    three.stands_become(|them| them[1] == Stand::Paused(2));
    three.first.dies_after(1);
    three.first.ask(&["SM", "MIGRATE", "2", "2"]);
    three.await_death();
    three.stands_become(|them| {
        [0, 2, 3]
            .iter()
            .all(|it| matches!(them[*it], Stand::Serving(2 | 3)))
    });
    assert_eq!(three.second.stand(1), Stand::Paused(2));
}

#[test]
fn shards_are_served_again_one_after_another_and_the_leader_answers_meanwhile() {
    let store: Arc<dyn Store> = Arc::new(Embedded::in_memory());
    let configuration = Configuration {
        servers: SERVERS,
        ..Configuration::new(Rule::Hash(240))
    };
    let start = |it| Process::begin(&store, it, &configuration);
    let first = start(1);
    wait_until("the first leads", || first.leads());
    let (second, third) = (start(2), start(3));
    let is_serving = |it: &Stand| matches!(it, Stand::Serving(_));
    wait_until("all have owners", || second.stands().iter().all(is_serving));
    first.way.slow_down(SLOW / 10);
    third.kill();
    let left = || {
        let stands = second.stands();
        let paused = stands.iter().filter(|it| !is_serving(it)).count();
        // Each shard is seen at its own moment.
        assert!(paused <= 10, "{paused} are paused at once");
        let is_of_third = |it: &&Stand| matches!(it, Stand::Serving(3) | Stand::Paused(3));
        stands.iter().filter(is_of_third).count()
    };
    wait_until("the first is served again", || left() < 80);
    let told = first.ask(&["SM", "LOOK", "0"]).recv_timeout(PATIENCE);
    assert!(told.unwrap().starts_with(b"+Serving 1 "));
    assert!(left() > 20, "it answers before it has gone on with all");
    wait_until("all are served again", || left() == 0);
}

/// Makes the store falter after each of so many commands of the leader, with and without the last one's outcome.
fn at_each_falter(commands: i64, goes_on: impl Fn(&Three) + Sync) {
    at_each(commands, |number| {
        for is_told in [false, true] {
            let three = Three::begin(false);
            three.first.way.after(number, Then::Falters(is_told));
            goes_on(&three);
        }
    });
}

#[test]
fn a_leader_whose_store_falters_gives_the_shards_of_a_failed_server_away() {
    at_each_falter(5, |three| {
        three.third.kill();
        three.stands_become(|them| them.iter().all(|it| matches!(it, Stand::Serving(1 | 2))));
    });
}

#[test]
fn a_leader_whose_store_falters_ends_a_migration() {
    at_each_falter(4, |three| {
        three.first.ask(&["SM", "MIGRATE", "0", "3"]);
        three.stands_become(|them| them[0] == Stand::Serving(3));
    });
}

#[test]
fn a_leader_whose_store_falters_ends_a_drain() {
    at_each_falter(8, |three| {
        three.first.ask(&["SM", "DRAIN", "3"]);
        three.stands_become(|them| them.iter().all(|it| matches!(it, Stand::Serving(1 | 2))));
        three.nothing_is_intended();
    });
}

#[test]
fn a_leader_whose_store_falters_stops_the_server_of_a_restart() {
    // The leader's own server is the first of all, and its two shards take four steps each.
    at_each_falter(11, |three| {
        three.first.ask(&["SM", "RESTART", "1"]);
        wait_until("server 1 is stopped", || three.second.durable.is_away(1));
        three.stands_become(|them| them.iter().all(|it| matches!(it, Stand::Serving(2 | 3))));
    });
}

/// Makes a process that has all servers of a store, whose control accesses the store this way.
fn alone() -> (Arc<Way>, Arc<Durable>, SyncSender<Asked>) {
    let store: Arc<dyn Store> = Arc::new(Embedded::in_memory());
    let way = Way::new(&store);
    let configuration = Configuration {
        servers: SERVERS,
        ..Configuration::new(Rule::Hash(SHARDS))
    };
    let shard_options = configuration.shard_options();
    let durable =
        Arc::new(Durable::open(way.clone(), SHARDS, shard_options, Box::new(|| {})).unwrap());
    let storage = Storage::Folder(InFolder::new(durable.clone(), uncounted(), SyncTime::No));
    let line = settings::line(&configuration);
    let cluster = Arc::new(Cluster::new(configuration, storage));
    let control = DurableControl::lead(durable.clone(), &line).unwrap();
    let backend = StoreBackend::alone(control, durable.clone());
    let host = Arc::new(ClusterHost::new(cluster).unwrap());
    let clock = durable.clock().clone();
    let mut controller = Controller::new(host, Box::new(backend), clock);
    controller.begin(true).unwrap();
    let (control, asked) = mpsc::sync_channel(9);
    thread::spawn(move || controller.run(asked));
    (way, durable, control)
}

#[test]
fn a_restart_within_a_process_is_ended_once_the_store_has_room() {
    // The restart is asked for and approved, both shards take four steps, the server is stopped and back, and they come
    // home.
    for words in [&["SM", "RESTART"][..], &["SM", "RESTART", "1"]] {
        at_each(20, |number| {
            let (way, durable, control) = alone();
            way.after(number, Then::IsFull);
            let told = ask(&control, words).recv_timeout(PATIENCE).unwrap();
            assert!(told.starts_with(b"-REFUSED StoreFull"), "{told:?}");
            wait_until("all is as it was", || {
                let stands = (0..SHARDS).map(|it| durable.standing(it).unwrap());
                let owners = stands.map(|it| it.record().unwrap().stand);
                !durable.is_away(1) && owners.eq(owned())
            });
            // Until that restart is over, the next one is refused.
            wait_until("it is restarted again", || {
                let again = ask(&control, &["SM", "RESTART", "1"]).recv_timeout(PATIENCE);
                again.unwrap().starts_with(b"+server 1 is back")
            });
        });
    }
}
