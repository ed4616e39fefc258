//! The common part of the tests of stores.
#![allow(dead_code)]
use durkenzo_store::{Access, Embedded, Etcd, EtcdProtocol, PrefixedStore, ReadError, Store, Sync};
use std::env;
use std::fs;
use std::io::{Read, Write};
use std::net::{TcpListener, TcpStream};
use std::path::{Path, PathBuf};
use std::process::{Child, Command, Stdio};
use std::sync::atomic::{AtomicU32, Ordering};
use std::thread;
use std::time::{Duration, Instant, SystemTime, UNIX_EPOCH};

pub mod plain;
pub mod relay;

/// How often etcd is started, if it ends at once.
const TRIES: u32 = 10;
/// How long to wait for an answer, on a machine that may be busy.
pub const PATIENCE: Duration = Duration::from_secs(30);

/// Makes tests of functions that take the protocol of etcd: one for each protocol.
#[macro_export]
macro_rules! by_each_protocol {
    ($($test:ident),+ $(,)?) => {
        mod in_json {
            $(#[test]
            fn $test() {
                super::$test(durkenzo_store::EtcdProtocol::Json);
            })+
        }

        mod by_grpc {
            $(#[test]
            fn $test() {
                super::$test(durkenzo_store::EtcdProtocol::Grpc);
            })+
        }
    };
}

/// Returns a store in these members.
pub fn store_in(endpoints: &[&str], patience: Duration, protocol: EtcdProtocol) -> Etcd {
    let access = Access {
        patience,
        protocol,
        ..Access::new(endpoints.iter().copied())
    };
    Etcd::new(access).expect("addresses")
}

/// A folder that is removed when it is dropped.
pub struct Folder(PathBuf);

impl Folder {
    pub fn new() -> Folder {
        static NEXT: AtomicU32 = AtomicU32::new(0);
        let name = format!(
            "durkenzo-store-{}-{}",
            std::process::id(),
            NEXT.fetch_add(1, Ordering::Relaxed)
        );
        let path = env::temp_dir().join(name);
        fs::create_dir_all(&path).expect("a folder");
        Folder(path)
    }

    pub fn path(&self) -> &Path {
        &self.0
    }

    pub fn open(&self) -> Embedded {
        Embedded::in_folder(self.path(), Sync::No).expect("a folder of our own")
    }
}

impl Drop for Folder {
    fn drop(&mut self) {
        let _ = fs::remove_dir_all(&self.0);
    }
}

/// Our own member of etcd, on loopback, in a folder.
pub struct Member {
    process: Child,
    folder: Folder,
    options: Vec<String>,
    /// How its stores call it.
    protocol: EtcdProtocol,
    pub endpoint: String,
    peer: String,
}

impl Member {
    /// Starts a member, if etcd is installed.
    pub fn start(protocol: EtcdProtocol, options: &[&str]) -> Option<Member> {
        let member = Member::begin_alone(protocol, "http://127.0.0.1", options)?;
        member.wait_until_up();
        Some(member)
    }

    /// Returns a cluster of so many members, if etcd is installed.
    pub fn start_cluster(protocol: EtcdProtocol, members: usize) -> Option<Vec<Member>> {
        let peers: Vec<_> = (0..members).map(|_| address()).collect();
        let named = peers.iter().enumerate();
        let all: Vec<_> = named.map(|(at, it)| format!("m{at}={it}")).collect();
        let all = all.join(",");
        let begin = |(at, peer): (usize, &String)| {
            let options = ["--name", &format!("m{at}"), "--initial-cluster", &all];
            Member::begin(protocol, address(), peer.clone(), &options)
        };
        let members: Option<Vec<_>> = peers.iter().enumerate().map(begin).collect();
        members.inspect(|it| it.iter().for_each(Member::wait_until_up))
    }

    /// Starts a member that speaks TLS with these options. It listens, and may not be up yet.
    pub fn start_with_tls(protocol: EtcdProtocol, options: &[&str]) -> Option<Member> {
        Member::begin_alone(protocol, "https://localhost", options)
    }

    /// Starts a member that listens at a port of this host. It ends if another program takes one of its ports, so it is
    /// started again at others.
    fn begin_alone(protocol: EtcdProtocol, host: &str, options: &[&str]) -> Option<Member> {
        for _ in 0..TRIES {
            let endpoint = format!("{host}:{}", free_port());
            let mut member = Member::begin(protocol, endpoint, address(), options)?;
            if member.listens() {
                return Some(member);
            }
        }
        panic!("etcd ends as soon as it begins");
    }

    /// Waits until it listens. Returns false if it ended before.
    fn listens(&mut self) -> bool {
        let end = Instant::now() + Duration::from_secs(60);
        let (_, authority) = self.endpoint.split_once("//").expect("a scheme");
        while TcpStream::connect(authority).is_err() {
            assert!(Instant::now() < end, "etcd doesn't begin");
            if self.process.try_wait().expect("its state").is_some() {
                return false;
            }
            thread::sleep(Duration::from_millis(20));
        }
        true
    }

    fn begin(
        protocol: EtcdProtocol,
        endpoint: String,
        peer: String,
        options: &[&str],
    ) -> Option<Member> {
        let folder = Folder::new();
        let options: Vec<_> = options.iter().map(|it| it.to_string()).collect();
        let process = run(&folder, &endpoint, &peer, &options)?;
        Some(Member {
            process,
            folder,
            options,
            protocol,
            endpoint,
            peer,
        })
    }

    /// Kills it, and starts it again over the same folder.
    pub fn begin_again(&mut self) {
        self.kill();
        self.process =
            run(&self.folder, &self.endpoint, &self.peer, &self.options).expect("it began once");
        self.wait_until_up();
    }

    pub fn kill(&mut self) {
        let _ = self.process.kill();
        let _ = self.process.wait();
    }

    /// Makes it hang, with its connections open, from now on, whichever of its threads gets a processor.
    pub fn stop(&self) {
        self.signal("-STOP");
        while !self.is_stopped() {
            thread::sleep(Duration::from_millis(1));
        }
    }

    fn is_stopped(&self) -> bool {
        let tasks = fs::read_dir(format!("/proc/{}/task", self.process.id())).expect("it runs");
        let mut stats =
            tasks.filter_map(|it| fs::read_to_string(it.ok()?.path().join("stat")).ok());
        stats.all(|it| it.contains(") T "))
    }

    /// Lets it go on.
    pub fn go_on(&self) {
        self.signal("-CONT");
    }

    fn signal(&self, signal: &str) {
        let process = self.process.id().to_string();
        let sent = Command::new("kill").args([signal, &process]).status();
        assert!(sent.is_ok_and(|it| it.success()), "it runs");
    }

    fn wait_until_up(&self) {
        let end = Instant::now() + Duration::from_secs(60);
        while let Err(ReadError::Unavailable(reason)) = self.store().read(&[b"up"]) {
            assert!(Instant::now() < end, "etcd doesn't begin: {reason}");
            thread::sleep(Duration::from_millis(100));
        }
    }

    pub fn store(&self) -> Etcd {
        store_in(&[&self.endpoint], PATIENCE, self.protocol)
    }

    /// Returns how many calls with this name of gRPC it got, of its gateway, too.
    pub fn calls(&self, method: &str) -> u64 {
        let told = self.answer("GET", "/metrics", "");
        let named = format!("grpc_server_started_total{{grpc_method=\"{method}\"");
        let mut found = told.lines().filter(|it| it.starts_with(&named));
        let count = found.next().and_then(|it| it.rsplit(' ').next());
        count.and_then(|it| it.parse().ok()).expect("a count")
    }

    /// Calls its gateway.
    pub fn post(&self, path: &str, asked: &str) -> String {
        self.answer("POST", path, asked)
    }

    fn answer(&self, method: &str, path: &str, asked: &str) -> String {
        let mut stream =
            TcpStream::connect(self.endpoint.trim_start_matches("http://")).expect("it listens");
        let length = asked.len();
        let asked = format!("{method} {path} HTTP/1.0\r\nContent-Length: {length}\r\n\r\n{asked}");
        // It is sent in one piece, because the system would delay a second one.
        stream.write_all(asked.as_bytes()).expect("it hears");
        let mut answer = String::new();
        stream.read_to_string(&mut answer).expect("it answers");
        answer
    }
}

fn run(folder: &Folder, endpoint: &str, peer: &str, options: &[String]) -> Option<Child> {
    Command::new("etcd")
        .args(["--data-dir".as_ref(), folder.path().as_os_str()])
        .args([
            "--listen-client-urls",
            endpoint,
            "--advertise-client-urls",
            endpoint,
        ])
        .args([
            "--listen-peer-urls",
            peer,
            "--initial-advertise-peer-urls",
            peer,
        ])
        .args(["--initial-cluster", &format!("default={peer}")])
        .args(options)
        .stdout(Stdio::null())
        .stderr(Stdio::null())
        .spawn()
        .ok()
}

impl Drop for Member {
    fn drop(&mut self) {
        self.kill();
    }
}

/// Returns a free address on loopback.
fn address() -> String {
    format!("http://127.0.0.1:{}", free_port())
}

/// Returns a port at which nobody listens, of those that the system gives to no connection of its own.
pub fn free_port() -> u16 {
    let since = SystemTime::now().duration_since(UNIX_EPOCH);
    let mut chance = Chance(since.expect("a time after 1970").as_nanos() as u64);
    loop {
        let port = 12_000 + chance.below(20_000) as u16;
        if TcpListener::bind(("127.0.0.1", port)).is_ok() {
            return port;
        }
    }
}

/// A stream of pseudo-random numbers from a seed.
pub struct Chance(pub u64);

impl Chance {
    pub fn below(&mut self, bound: u64) -> u64 {
        self.0 = self.0.wrapping_add(0x9e37_79b9_7f4a_7c15);
        let mut mixed = (self.0 ^ (self.0 >> 30)).wrapping_mul(0xbf58_476d_1ce4_e5b9);
        mixed = (mixed ^ (mixed >> 27)).wrapping_mul(0x94d0_49bb_1331_11eb);
        (mixed ^ (mixed >> 31)) % bound
    }
}

/// Runs a test over each store: in memory, in a folder, in etcd if that is installed, and one that isn't ours.
pub fn over_each(test: impl Fn(&dyn Store)) {
    test(&plain::Plain::new());
    test(&Embedded::in_memory());
    test(&PrefixedStore::new(
        Embedded::in_memory(),
        "/part/".parse().expect("it is a prefix"),
    ));
    let folder = Folder::new();
    test(&folder.open());
    for protocol in [EtcdProtocol::Json, EtcdProtocol::Grpc] {
        match Member::start(protocol, &[]) {
            Some(member) => test(&member.store()),
            None => eprintln!("etcd isn't installed: the test isn't run over it"),
        }
    }
}
