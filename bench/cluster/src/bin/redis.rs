//! Moves slots of a Redis Cluster while two clients add to counts. It prints how many INCRs were acknowledged, as many as the counts have
//! (or it fails); the answers MOVED, ASK, TRYAGAIN and errors; and the nanoseconds of the longest request and of the migration.

use std::io::{BufRead, BufReader, Write};
use std::net::TcpStream;
use std::process::{Command, Stdio, exit};
use std::sync::Barrier;
use std::sync::atomic::{AtomicBool, Ordering::SeqCst};
use std::thread;
use std::time::{Duration, Instant};

const KEYS: usize = 20_000;
const SLOTS: usize = 16_384;
const PAUSE: Duration = Duration::from_micros(200);
const KINDS: [&str; 3] = ["MOVED", "ASK", "TRYAGAIN"];

/// A slot, and the name of a key in it.
type SlotKey = (usize, String);

/// A connection to one master.
struct Node {
    port: String,
    stream: BufReader<TcpStream>,
}

impl Node {
    fn new(port: &str) -> Self {
        let stream = TcpStream::connect(format!("127.0.0.1:{port}")).expect("a master");
        stream.set_nodelay(true).expect("a stream without delay");
        Self { port: port.to_string(), stream: BufReader::new(stream) }
    }

    fn ask(&mut self, words: &[&str]) -> Vec<String> {
        self.send(words);
        self.receive().unwrap_or_else(|error| panic!("{words:?} was answered {error}"))
    }

    fn send(&mut self, words: &[&str]) {
        let text = words.iter().fold(format!("*{}\r\n", words.len()), |text, word| text + &format!("${}\r\n{word}\r\n", word.len()));
        self.stream.get_mut().write_all(text.as_bytes()).expect("a master that reads");
    }

    /// The texts and numbers of the next answer, none of which has a line break, or its error.
    fn receive(&mut self) -> Result<Vec<String>, String> {
        let line = self.line();
        match line.split_at(1) {
            ("+" | ":", rest) => Ok(vec![rest.to_string()]),
            ("$", "-1") => Ok(vec![]),
            ("$", _) => Ok(vec![self.line()]),
            ("*", rest) => (0..rest.parse().expect("a number")).map(|_| self.receive()).collect::<Result<Vec<_>, _>>().map(|it| it.concat()),
            (_, rest) => Err(rest.to_string()),
        }
    }

    fn line(&mut self) -> String {
        let mut line = String::new();
        self.stream.read_line(&mut line).expect("a line");
        line.strip_suffix("\r\n").expect("a whole line").to_string()
    }
}

struct ClusterClient {
    nodes: Vec<Node>,
    /// The place in `nodes` of each slot's owner.
    owners: Vec<usize>,
    acked: u64,
    /// How many answers were each of `KINDS`, and other errors.
    counts: [u64; 4],
    /// The longest request while slots moved.
    longest: Duration,
}

impl ClusterClient {
    /// Connects to each master, and takes the map from the first.
    fn new(ports: &[String]) -> Self {
        let nodes = ports.iter().map(|it| Node::new(it)).collect();
        let mut client = Self { nodes, owners: vec![0; SLOTS], acked: 0, counts: [0; 4], longest: Duration::ZERO };
        // Of each range: its first slot and its last, and the host, port and id of its owner.
        for range in client.nodes[0].ask(&["CLUSTER", "SLOTS"]).chunks_exact(5) {
            let [first, last] = [0, 1].map(|it| range[it].parse().expect("a slot"));
            let owner = client.place_of(&range[3]);
            client.owners[first..=last].fill(owner);
        }
        client
    }

    fn place_of(&self, port: &str) -> usize {
        self.nodes.iter().position(|it| it.port == port).expect("the port of a master")
    }

    /// Calls until the result comes, which has to have as many parts as told. MOVED corrects the map for this slot alone.
    fn call(&mut self, slot: usize, words: &[&str], parts: usize) {
        let mut importer: Option<usize> = None;
        loop {
            let node = &mut self.nodes[importer.unwrap_or(self.owners[slot])];
            if importer.take().is_some() {
                node.ask(&["ASKING"]);
            }
            node.send(words);
            let error = match node.receive() {
                Ok(result) => return assert_eq!(result.len(), parts, "{words:?} was answered {result:?}"),
                Err(error) => error,
            };
            let fields: Vec<_> = error.split([' ', ':']).collect();
            let kind = KINDS.iter().position(|it| *it == fields[0]).unwrap_or(KINDS.len());
            self.counts[kind] += 1;
            match kind {
                0 => self.owners[slot] = self.place_of(fields[3]),
                1 => importer = Some(self.place_of(fields[3])),
                _ => thread::sleep(PAUSE),
            }
        }
    }

    fn add(&mut self, (slot, name): &SlotKey) {
        self.call(*slot, &["INCR", name], 1);
        self.acked += 1;
    }

    /// The sum of what a command answers for each key. All are sent before the first answer is read: no slot may move meanwhile.
    fn sum(&mut self, command: &str, keys: &[SlotKey]) -> u64 {
        keys.iter().for_each(|(slot, name)| self.nodes[self.owners[*slot]].send(&[command, name]));
        keys.iter().map(|(slot, _)| self.nodes[self.owners[*slot]].receive().expect("a count")[0].parse::<u64>().expect("a number")).sum()
    }

    /// Calls at any keys until slots have moved, and then once at each slot that has keys.
    fn call_until(&mut self, is_over: &AtomicBool, keys: &[SlotKey], has_pairs: bool, mut state: u64) {
        let mut below = |limit: usize| {
            state = state.wrapping_mul(6_364_136_223_846_793_005).wrapping_add(1_442_695_040_888_963_407);
            (state >> 33) as usize % limit
        };
        while !is_over.load(SeqCst) {
            let one = below(KEYS);
            let other = (one + 1 + below(KEYS - 1)) % KEYS;
            let is_pair = has_pairs && below(2) == 0;
            let start = Instant::now();
            if is_pair { self.call(keys[one].0, &["MGET", &keys[one].1, &keys[other].1], 2) } else { self.add(&keys[one]) }
            self.longest = self.longest.max(start.elapsed());
        }
        keys.chunk_by(|one, other| one.0 == other.0).for_each(|it| self.add(&it[0]));
    }
}

/// The keys by their slots. A slot is the CRC16, as XMODEM has it, of the tag in braces or of the whole name.
fn keys_of(tag: &str) -> Vec<SlotKey> {
    let shifted = |sum: u16, _| sum << 1 ^ if sum & 0x8000 == 0 { 0 } else { 0x1021 };
    let names = (0..KEYS).map(|it| format!("{tag}{it}"));
    let slot_of = |text: &str| text.bytes().fold(0, |sum, byte| (0..8).fold(sum ^ u16::from(byte) << 8, shifted)) as usize % SLOTS;
    let mut keys: Vec<_> = names.map(|it| (slot_of(it.split(['{', '}']).nth(1).unwrap_or(&it)), it)).collect();
    keys.sort();
    keys
}

fn reshard(port: &str, slots: &str, from: &str, to: &str) {
    let master = format!("127.0.0.1:{port}");
    let words = ["--cluster", "reshard", &master, "--cluster-from", from, "--cluster-to", to, "--cluster-slots", slots, "--cluster-yes"];
    let status = Command::new("redis-cli").args(words).stdout(Stdio::null()).status().expect("redis-cli");
    assert!(status.success(), "redis-cli ended with {status}");
}

/// Moves a slot from the first of the masters to the second, ten keys at a time.
fn migrate(nodes: &mut [Node], slot: &str, from: &str, to: &str) {
    let port = nodes[1].port.clone();
    nodes[1].ask(&["CLUSTER", "SETSLOT", slot, "IMPORTING", from]);
    nodes[0].ask(&["CLUSTER", "SETSLOT", slot, "MIGRATING", to]);
    loop {
        let batch = nodes[0].ask(&["CLUSTER", "GETKEYSINSLOT", slot, "10"]);
        if batch.is_empty() {
            break;
        }
        let words = ["MIGRATE", "127.0.0.1", &port, "", "0", "5000", "KEYS"].into_iter().chain(batch.iter().map(String::as_str));
        nodes[0].ask(&words.collect::<Vec<_>>());
    }
    for place in [1, 0, 2] {
        nodes[place].ask(&["CLUSTER", "SETSLOT", slot, "NODE", to]);
    }
}

fn time_under(clients: &mut [ClusterClient], keys: &[SlotKey], has_pairs: bool, change: impl FnOnce()) -> Duration {
    let (is_over, begin) = (&AtomicBool::new(false), &Barrier::new(clients.len() + 1));
    thread::scope(|scope| {
        for (client, seed) in clients.iter_mut().zip(1..) {
            scope.spawn(move || {
                begin.wait();
                client.call_until(is_over, keys, has_pairs, seed);
            });
        }
        begin.wait();
        let start = Instant::now();
        change();
        let time = start.elapsed();
        is_over.store(true, SeqCst);
        time
    })
}

fn main() {
    // A panic ends all threads: the clients would go on for ever after one of the migration.
    std::panic::set_hook(Box::new(|panic| {
        eprintln!("{panic}");
        exit(1);
    }));
    let words: Vec<String> = std::env::args().collect();
    let [_, way, ports @ ..] = &words[..] else { panic!("usage: redis reshard|counts|pairs PORT PORT PORT") };
    let (slots, keys) = if way == "reshard" { (500, keys_of("")) } else { (1, keys_of("{count}")) };
    let ClusterClient { mut nodes, owners, .. } = ClusterClient::new(ports);
    nodes.iter_mut().for_each(|it| drop(it.ask(&["FLUSHALL"])));
    let mut clients = [(); 2].map(|()| ClusterClient::new(ports));
    clients[0].acked = clients[0].sum("INCR", &keys);
    nodes.rotate_left(owners[keys[0].0]);
    let [from, to] = [0, 1].map(|it| nodes[it].ask(&["CLUSTER", "MYID"]).remove(0));
    let (slot, many) = (keys[0].0.to_string(), slots.to_string());
    let change = || if slots == 1 { migrate(&mut nodes, &slot, &from, &to) } else { reshard(&ports[0], &many, &from, &to) };
    let time = time_under(&mut clients, &keys, way == "pairs", change);
    let mut after = ClusterClient::new(ports);
    assert_eq!(owners.iter().zip(&after.owners).filter(|(one, other)| one != other).count(), slots, "slots have another owner");
    let acked: u64 = clients.iter().map(|it| it.acked).sum();
    assert_eq!(acked, after.sum("GET", &keys), "INCRs acknowledged and applied");
    let [moved, asked, retried, failed] = [0, 1, 2, 3].map(|kind| clients.iter().map(|it| it.counts[kind]).sum::<u64>());
    let longest = clients.iter().map(|it| it.longest).max().unwrap_or_default();
    println!("{acked} {moved} {asked} {retried} {failed} {} {}", longest.as_nanos(), time.as_nanos());
}
