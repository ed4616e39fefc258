//! Clients of a server. Each client is a thread with one connection, and has one request under way at a time. Half of
//! the requests get a text. The other half add to a count if texts have the usual size, and otherwise put a text.
use crate::client::{command, RedisClient};
use crate::request_choice::RequestChoice;
use crate::round::{self, TimedRound};
use crate::round_result::MOST_TIMES;
use crate::shard_store::KeyRequest;
use crate::sizes::Sizes;
use std::time::Instant;

/// If texts have this size, the requests that write add to a count.
const USUAL: usize = 32;
/// How many bytes of commands are sent at once, before their answers are read.
const ROOM: u64 = 1 << 16;

fn name_of(kind: &str, number: u64) -> Vec<u8> {
    format!("{kind}:{number:010}").into_bytes()
}

/// Writes each text once, because the requests that read must find them all.
fn fill(sizes: &Sizes, text: &[u8]) {
    let mut client = RedisClient::new(sizes.port);
    let all = sizes.shards as u64 * u64::from(sizes.keys);
    let batch = (ROOM / (sizes.text as u64 + 64)).max(1);
    for start in (0..all).step_by(batch as usize) {
        let numbers = start..all.min(start + batch);
        let commands = numbers
            .clone()
            .map(|number| command(&[b"SET", &name_of("text", number), text]));
        client.send(&commands.flatten().collect::<Vec<u8>>());
        numbers.for_each(|_| _ = client.answer());
    }
}

fn request(asked: KeyRequest, sizes: &Sizes, text: &[u8]) -> Vec<u8> {
    let number = asked.shard as u64 * u64::from(sizes.keys) + u64::from(asked.key);
    match (asked.is_write, sizes.text == USUAL) {
        (false, _) => command(&[b"GET", &name_of("text", number)]),
        (true, true) => command(&[b"INCR", &name_of("count", number)]),
        (true, false) => command(&[b"SET", &name_of("text", number), text]),
    }
}

/// Makes one client's requests until the round is over. Returns how many it made, and the times of the first ones.
fn call(sizes: &Sizes, client: usize, text: &[u8], round: &TimedRound) -> (u64, Vec<u64>) {
    let (mut connection, mut choice) = (
        RedisClient::new(sizes.port),
        RequestChoice::new(sizes, client),
    );
    let (mut made, mut times) = (0, Vec::with_capacity(MOST_TIMES));
    round.begin();
    while !round.is_over() {
        let bytes = request(choice.next(), sizes, text);
        let began = Instant::now();
        connection.send(&bytes);
        connection.answer();
        if times.len() < MOST_TIMES {
            times.push(began.elapsed().as_nanos() as u64);
        }
        made += 1;
    }
    (made, times)
}

/// Moves the shards in turn between servers 1 and 2 until the round is over, and returns how often it moved one.
fn migrate(sizes: &Sizes, round: &TimedRound) -> u64 {
    let mut client = RedisClient::new(sizes.port);
    // If a shard is at server 1 already, the move is refused.
    for shard in 0..sizes.shards {
        let _ = client.migrate(shard, 1);
    }
    round.begin();
    round.paced(sizes.migrations, |made| {
        let (shard, turn) = (made as usize % sizes.shards, made as usize / sizes.shards);
        let moved = client.migrate(shard, if turn % 2 == 0 { 2 } else { 1 });
        moved.expect("a server that is up");
    })
}

pub fn run(sizes: &Sizes) {
    let text = &vec![b'x'; sizes.text][..];
    if sizes.filled == 0 {
        fill(sizes, text);
    }
    let call = |client: usize, round: &TimedRound| call(sizes, client, text, round);
    round::run(sizes, sizes.clients, call, |round| migrate(sizes, round)).print("load");
}
