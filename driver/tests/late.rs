//! Three processes over a store whose transactions come late, twice or never, while shards move: nothing is made twice,
//! and no answered request is lost.
mod common;

use common::cluster::{append, assign, campaign, settle, soon, Dice, Net, Node};
use common::late::Late;
use common::withheld::Withheld;
use common::{ask, held, write, Told};
use durkenzo_driver::{
    Begin, ControlCommand, Durable, DurableControl, MapReply, MapRequest, NotDone, Numbered,
};
use durkenzo_store::{Embedded, Store};
use std::sync::atomic::{AtomicBool, Ordering};
use std::sync::{mpsc, Arc};
use std::thread;
use std::time::{Duration, Instant};

const SHARDS: u16 = 3;
const CLIENTS: u64 = 6;
/// The least time for which clients go on, how often each asks, and how much longer they may take for that.
const LASTS: Duration = Duration::from_secs(5);
const TIMES: u64 = 100;
const LATEST: Duration = Duration::from_secs(120);

/// A client's request: its shard, its name, and whether it was answered.
type Asked = (u16, String, bool);

/// Moves shards around as long as it may.
fn migrate(mut control: DurableControl, stops: &AtomicBool) {
    let mut dice = Dice(5);
    while !stops.load(Ordering::Acquire) {
        let (shard, server) = (
            dice.below(u64::from(SHARDS)) as u16,
            dice.below(3) as u16 + 1,
        );
        // If the shard is there already, the command is refused.
        let _ = control.command(ControlCommand::PrepareAddShard(shard, server));
        settle(&mut control, shard);
    }
}

/// Makes a client ask any of the processes, each time with a new name, until the end.
fn client(nodes: &[Node], client: u64, end: Instant) -> Vec<Asked> {
    let (mut dice, mut number, mut asked) = (Dice(client), 0, Vec::new());
    while Instant::now() < end || (number < TIMES && Instant::now() < end + LATEST) {
        number += 1;
        let durable = &nodes[dice.below(3) as usize].durable;
        let shard = dice.below(u64::from(SHARDS)) as u16;
        let kind = ["once", "plain", "word"][dice.below(3) as usize];
        let name = format!("{kind}.{client}.{number}");
        let requests = vec![MapRequest::Add(name.as_bytes().into(), 1)];
        let told = match kind {
            "once" => {
                let numbered = Numbered { client, number };
                ask(durable, shard, Begin::Numbered(numbered, requests), None)
            }
            "plain" => write(durable, shard, requests),
            _ => append(durable, shard, b"words", &name),
        };
        match &told {
            Ok(replies) if kind == "word" => assert!(replies.len() <= 1),
            Ok(replies) => assert_eq!(replies, &[MapReply::Count(1)], "{name}"),
            Err(NotDone::Unknown(_)) => {}
            Err(why) => panic!("{name} wasn't done: {why}"),
        }
        asked.push((shard, name, told.is_ok()));
    }
    asked
}

/// Returns how often the request with this name was made.
fn made(durable: &Durable, shard: u16, name: &str, words: &[String]) -> i64 {
    if name.starts_with("word") {
        return words.iter().filter(|it| *it == name).count() as i64;
    }
    match held(durable, shard, name.as_bytes()).as_deref() {
        Ok([MapReply::Count(count)]) => *count,
        Ok([MapReply::Nothing]) => 0,
        other => panic!("{other:?}"),
    }
}

fn words_of(durable: &Durable, shard: u16) -> Vec<String> {
    let text = match held(durable, shard, b"words").as_deref() {
        Ok([MapReply::Text(text)]) => String::from_utf8(text.clone()).unwrap(),
        Ok([MapReply::Nothing]) => String::new(),
        other => panic!("{other:?}"),
    };
    text.split_whitespace().map(str::to_owned).collect()
}

#[test]
fn nothing_is_made_twice_or_lost_where_copies_come_late() {
    let store: Arc<dyn Store> = Arc::new(Embedded::in_memory());
    let net = Arc::new(Net::default());
    let late = |line| Arc::new(Late::new(line, 11)) as Arc<dyn Store>;
    let start = |it| net.start(&store, it, SHARDS, late);
    let nodes: Vec<_> = (1..=3).map(start).collect();
    let mut control = campaign(&nodes[0]);
    assign(&mut control, SHARDS);
    let (stops, end) = (AtomicBool::new(false), Instant::now() + LASTS);
    let mut asked = Vec::new();
    thread::scope(|scope| {
        let moving = scope.spawn(|| migrate(control, &stops));
        let (nodes, begin) = (&nodes, 1..=CLIENTS);
        let clients: Vec<_> = begin
            .map(|it| scope.spawn(move || client(nodes, it, end)))
            .collect();
        let ended: Vec<_> = clients.into_iter().map(|it| it.join()).collect();
        stops.store(true, Ordering::Release);
        moving.join().unwrap();
        asked.extend(ended.into_iter().flat_map(Result::unwrap));
    });
    // By then each copy has come.
    thread::sleep(Duration::from_millis(100));
    let words: Vec<_> = (0..SHARDS)
        .map(|it| words_of(&nodes[1].durable, it))
        .collect();
    let answered = asked.iter().filter(|it| it.2).count();
    eprintln!("{answered} answered of {}", asked.len());
    assert!(answered > 100);
    for (shard, name, is_answered) in &asked {
        let words = &words[usize::from(*shard)];
        let times = made(&nodes[1].durable, *shard, name, words);
        let is_right = times == 1 || times == 0 && !is_answered;
        assert!(
            is_right,
            "{name}: made {times} times, answered: {is_answered}"
        );
    }
}

/// Makes a request whose transaction is made after its server has looked for it, and before the shard goes to another
/// server. The reading comes before or after that move. Returns the answer.
fn is_made_once(goes_first: bool, ask: impl Fn(&Durable) -> Told + Sync) {
    let store: Arc<dyn Store> = Arc::new(Embedded::in_memory());
    let net = Arc::new(Net::default());
    let (tell, told) = mpsc::channel();
    let withheld = |line| {
        let store = Arc::new(Withheld::new(line));
        tell.send((store.is_armed.clone(), store.reading()))
            .unwrap();
        store as Arc<dyn Store>
    };
    let first = net.start(&store, 1, 1, withheld);
    let second = net.start(&store, 2, 1, |line| Arc::new(line));
    let (is_armed, reading) = told.recv().unwrap();
    let mut control = campaign(&first);
    control.command(ControlCommand::Assign(0, 1)).unwrap();
    write(
        &first.durable,
        0,
        vec![MapRequest::Add(b"a".as_slice().into(), 1)],
    )
    .unwrap();
    is_armed.store(true, Ordering::Release);
    let told = thread::scope(|scope| {
        let asking = scope.spawn(|| ask(&first.durable));
        reading.await_reading();
        control.command(ControlCommand::Pause(0)).unwrap();
        if goes_first {
            soon(&mut control, ControlCommand::Reassign(0, 2));
        }
        reading.release();
        if !goes_first {
            // By then the reading has come.
            thread::sleep(Duration::from_millis(50));
            soon(&mut control, ControlCommand::Reassign(0, 2));
        }
        asking.join().unwrap()
    });
    assert!(told.is_ok(), "{told:?}");
    assert_eq!(
        words_of(&second.durable, 0).len() as i64 + made(&second.durable, 0, "once", &[]),
        1
    );
}

#[test]
fn what_was_made_after_it_was_looked_for_is_not_made_again() {
    for goes_first in [true, false] {
        let once = || vec![MapRequest::Add(b"once".as_slice().into(), 1)];
        is_made_once(goes_first, |durable| write(durable, 0, once()));
        is_made_once(goes_first, |durable| append(durable, 0, b"words", "word"));
    }
}
