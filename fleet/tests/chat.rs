//! Tests the example of chat rooms with three processes. Members hear each line once and in order while their room
//! moves.
mod example_fleet;
mod processes;

use durkenzo_fleet::Retry;
use example_fleet::ExampleFleet;
use processes::{until, PATIENCE};
use std::io::{self, BufRead, BufReader, Write};
use std::net::TcpStream;
use std::path::Path;
use std::sync::atomic::{AtomicBool, Ordering};
use std::thread;
use std::time::{Duration, Instant};

const ROOM: &str = "lobby";
const LINES: usize = 60;
/// How long a member waits for a line, and how long until it asks again.
const SOON: Duration = Duration::from_millis(50);

/// A member of the room. It connects again if it must.
struct Member {
    /// The servers' addresses. The first one is the next to be asked.
    addresses: Vec<String>,
    connection: Option<BufReader<TcpStream>>,
    /// The lines that it heard, with their numbers.
    heard: Vec<(u64, String)>,
}

impl Member {
    fn new(fleet: &ExampleFleet) -> Member {
        Member {
            addresses: fleet.servers.iter().map(|it| it.1.clone()).collect(),
            connection: None,
            heard: Vec::new(),
        }
    }

    /// Sends a line, and returns the answer to it. If the connection is of no use, returns why.
    fn asked(&mut self, line: &str) -> io::Result<String> {
        let connection = self
            .connection
            .as_mut()
            .ok_or(io::ErrorKind::NotConnected)?;
        connection
            .get_ref()
            .write_all(format!("{line}\n").as_bytes())?;
        let end = Instant::now() + PATIENCE;
        while Instant::now() < end {
            match self.next() {
                Ok(Some(answer)) if answer != "!" => return Ok(answer),
                Ok(_) => {}
                Err(error) => return Err(error),
            }
        }
        Err(io::ErrorKind::TimedOut.into())
    }

    /// Returns the next frame that isn't a line of the room, if one has come.
    fn next(&mut self) -> io::Result<Option<String>> {
        let connection = self
            .connection
            .as_mut()
            .ok_or(io::ErrorKind::NotConnected)?;
        let mut frame = String::new();
        match connection.read_line(&mut frame) {
            Ok(0) => return Err(io::ErrorKind::UnexpectedEof.into()),
            Ok(_) => {}
            Err(error) if error.kind() == io::ErrorKind::WouldBlock && frame.is_empty() => {
                return Ok(None)
            }
            Err(error) => return Err(error),
        }
        let frame = frame.trim_end();
        if let Some((number, text)) = frame.strip_prefix("= ").and_then(|it| it.split_once(' ')) {
            self.heard.push((number.parse().unwrap(), text.to_owned()));
            return Ok(None);
        }
        Ok(Some(frame.to_owned()))
    }

    /// Connects to the process that has the room.
    fn join(&mut self) {
        let end = Instant::now() + PATIENCE;
        while Instant::now() < end {
            let stream = TcpStream::connect(&self.addresses[0]);
            self.connection = stream.ok().map(|it| {
                it.set_read_timeout(Some(SOON)).unwrap();
                BufReader::new(it)
            });
            let seen = self.heard.last().map_or(0, |it| it.0);
            match self.asked(&format!("join {ROOM} {seen}")).as_deref() {
                Ok(".") => return,
                Ok(told) => self.follow(told),
                Err(_) => self.addresses.rotate_left(1),
            }
        }
        panic!("the room wasn't joined");
    }

    /// Follows an answer: asks at the address that it names, or waits a little if it names none.
    fn follow(&mut self, told: &str) {
        match told.strip_prefix("> ") {
            Some(there) => {
                self.addresses.retain(|it| it != there);
                self.addresses.insert(0, there.to_owned());
            }
            None => thread::sleep(SOON),
        }
    }

    /// Says the text. Returns whether it surely was said.
    fn say(&mut self, text: &str) -> bool {
        let end = Instant::now() + PATIENCE;
        while Instant::now() < end {
            if self.connection.is_none() {
                self.join();
            }
            match self.asked(&format!("say {ROOM} {text}")).as_deref() {
                Ok(".") => return true,
                Ok("?") | Err(_) => {
                    self.connection = None;
                    return false;
                }
                Ok(told) => {
                    self.follow(told);
                    self.connection = None;
                }
            }
        }
        panic!("{text} wasn't said");
    }

    /// Hears lines until one has this text.
    fn hear(&mut self, text: &str) {
        let end = Instant::now() + PATIENCE;
        while self.heard.last().is_none_or(|it| it.1 != text) {
            assert!(
                Instant::now() < end,
                "{text} wasn't heard: {:?}",
                self.heard
            );
            if self.connection.is_none() {
                self.join();
            } else if !matches!(self.next(), Ok(None)) {
                self.connection = None;
            }
        }
    }
}

#[test]
fn members_hear_each_line_once_and_in_order_while_their_room_moves() {
    let Some(mut fleet) = ExampleFleet::begin("chat", ("DURKENZO_LEASE", Path::new("3"))) else {
        return;
    };
    let shard = fleet.router.sharding().shard_of(ROOM.as_bytes());
    let said: Vec<_> = (0..LINES).map(|it| format!("line {it}")).collect();
    let (mut ada, mut bob) = (Member::new(&fleet), Member::new(&fleet));
    let is_over = AtomicBool::new(false);
    thread::scope(|scope| {
        let moves = scope.spawn(|| {
            let targets = [1, 2, 3].into_iter().cycle();
            for to in targets.take_while(|_| !is_over.load(Ordering::SeqCst)) {
                fleet.migrate(shard.into(), to);
            }
        });
        let hears = scope.spawn(|| bob.hear(&said[LINES - 1]));
        for text in &said {
            assert!(ada.say(text), "{text} is unsure");
            thread::sleep(Duration::from_millis(10));
        }
        hears.join().unwrap();
        is_over.store(true, Ordering::SeqCst);
        moves.join().unwrap();
    });
    let texts: Vec<_> = bob.heard.iter().map(|it| &it.1).collect();
    assert!(
        texts.iter().eq(&said.iter().collect::<Vec<_>>()),
        "{texts:?}"
    );
    let numbers: Vec<_> = bob.heard.iter().map(|it| it.0).collect();
    assert!(
        numbers.windows(2).all(|it| it[1] == it[0] + 1),
        "{numbers:?}"
    );

    let owner = fleet.owner_of_each()[usize::from(shard)];
    drop(fleet.servers.remove(usize::from(owner) - 1));
    until("another server owns the room", || {
        let owners = fleet.owner_of_each();
        owners
            .get(usize::from(shard))
            .is_some_and(|it| *it != owner)
    });
    // The earlier lines are lost with the process. The next line has a greater number.
    while !ada.say("again") {}
    bob.hear("again");
    assert!(bob.heard.is_sorted(), "{:?}", bob.heard);
    let told = fleet
        .router
        .call(ROOM.as_bytes(), ROOM.as_bytes(), Retry::Until(PATIENCE));
    assert!(String::from_utf8_lossy(&told.unwrap().bytes).contains("again"));
}
