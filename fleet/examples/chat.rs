//! Chat rooms: a server with frames of its own, which are lines. Members connect to the process that has their room.
//!
//! ```console
//! $ chat --name 1 --clients 127.0.0.1:7391  # a server; 2 and 3 likewise
//! $ nc 127.0.0.1 7391                       # type: join lobby 0, and then: say lobby hello
//! ```
//! For each line that is said, members get `=`, its number and its text. If the room has moved, they get `!`. In that
//! case they must join again, with the number of the last line that they got.
//! The answer to a member's line is `.` if it was done, and `?` if it may have been done. If it wasn't done, the answer
//! is `~` and the line may be sent again soon, or it is `>` and the address to which the line must be sent.
use durkenzo_fleet::{Call, Came, Enter, Fault, Fleet, Mode, Options, Permit, Service, Shard};
use std::collections::{BTreeMap, VecDeque};
use std::io::{BufRead, BufReader, Read, Write};
use std::net::{Shutdown, TcpStream};
use std::sync::{Arc, Weak};
use std::{error::Error, thread, time::Duration};

/// The most lines that are kept of a room, members that are here, and bytes that one member may send; and the longest
/// time that a member may take to read.
const KEPT: usize = 100;
const MEMBERS: usize = 1_000;
const SENT: u64 = 1 << 20;
const SLOW: Duration = Duration::from_millis(100);

/// The lines of each room, with their numbers, and the members of each room.
type Lines = BTreeMap<String, VecDeque<(u64, String)>>;
type Members = BTreeMap<String, Vec<Member>>;
type Member = Weak<TcpStream>;

struct Chat;

impl Service for Chat {
    type Body = (Lines, Members);

    fn add(&self, _: Shard, came: Came<'_>) -> Result<Self::Body, Fault> {
        let Came::Handed(bytes) = came else {
            return Ok(Self::Body::default());
        };
        Ok((serde_json::from_slice(bytes)?, Members::new()))
    }

    /// Answers a `Router` with the lines of a room.
    fn answer(&self, (lines, _): &mut Self::Body, call: Call<'_>) -> Vec<u8> {
        let lines = lines.get(&*String::from_utf8_lossy(call.request()));
        serde_json::to_vec(&lines).unwrap_or_default()
    }

    fn hand_over(&self, (lines, _): &mut Self::Body) -> Vec<u8> {
        serde_json::to_vec(lines).unwrap_or_default()
    }

    fn dropped(&self, _: Shard, (_, members): Self::Body) {
        members.values().for_each(|it| tell(it, "!"));
    }
}

fn tell(members: &[Member], line: &str) {
    let frame = format!("{line}\n");
    for member in members.iter().filter_map(Weak::upgrade) {
        if (&*member).write_all(frame.as_bytes()).is_err() {
            let _ = member.shutdown(Shutdown::Both);
        }
    }
}

/// Does a member's request for a room that is here. Returns the answer to the member.
fn done(mut permit: Permit<'_, Chat>, own: &[Member; 1], asked: [&str; 3]) -> &'static str {
    let ([verb, room, text], fence) = (asked, permit.fence());
    let (lines, members) = permit.body();
    let lines = lines.entry(room.to_owned()).or_default();
    let members = members.entry(room.to_owned()).or_default();
    if verb == "join" {
        let missed = lines.iter().filter(|it| it.0 > text.parse().unwrap_or(0));
        missed.for_each(|(number, text)| tell(own, &format!("= {number} {text}")));
        members.retain(|it| it.strong_count() > 0 && !it.ptr_eq(&own[0]));
        members.extend_from_slice(own);
        return ".";
    }
    // If a room was lost, it begins with greater numbers, because a fence never goes back.
    let number = 1 + lines.back().map_or(fence << 20, |it| it.0);
    lines.push_back((number, text.to_owned()));
    lines.drain(..lines.len().saturating_sub(KEPT));
    if !permit.holds() {
        return "?";
    }
    tell(&permit.1[room], &format!("= {number} {text}"));
    "."
}

/// Does the requests of a member, line by line. A line has a verb, a room, and a number or a text.
fn serve(fleet: &Fleet<Chat>, stream: Arc<TcpStream>) {
    let own = [Arc::downgrade(&stream)];
    let lines = BufReader::new((&*stream).take(SENT)).lines();
    for line in lines.map_while(Result::ok) {
        let words: Vec<_> = line.splitn(3, ' ').collect();
        let [verb, at, text] = words[..] else { return };
        match fleet.enter(fleet.sharding().shard_of(at.as_bytes()), Mode::Direct) {
            Enter::Here(permit) => tell(&own, done(permit, &own, [verb, at, text])),
            Enter::Elsewhere(to) => tell(&own, &format!("> {}", to.clients.unwrap_or_default())),
            // The next owner takes members as soon as the room is there.
            Enter::Forward(_) => tell(&own, "~ the room moves"),
            Enter::Wait(why) => tell(&own, &format!("~ {why}")),
            Enter::Refused(why) => tell(&own, &format!("~ {why}")),
        }
    }
}

fn main() -> Result<(), Box<dyn Error>> {
    let mut options = Options::parse();
    let listener = options.listen_for_clients()?;
    let fleet = Arc::new(Fleet::join(Chat, options)?);
    println!("server {} at {}", fleet.server(), listener.local_addr()?);
    let serving = fleet.clone();
    thread::spawn(move || {
        for stream in listener.incoming().flatten() {
            let (fleet, stream) = (serving.clone(), Arc::new(stream));
            if stream.set_write_timeout(Some(SLOW)).is_ok() && Arc::strong_count(&fleet) < MEMBERS {
                thread::spawn(move || serve(&fleet, stream));
            }
        }
    });
    Ok(fleet.serve()?)
}
