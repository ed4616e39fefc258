//! Several processes over one store, with one server each. A request to any of them is done once, while shards move,
//! processes die, and the control passes on.
mod common;
#[path = "../../store/tests/beside/plain.rs"]
mod plain;

use common::cluster::{
    append, assign, campaign, kill, settle, soon, until, Dice, Line, Net, Node, LEASE, PATIENCE,
};
use common::handing::{Handed, Handing};
use common::{add, ask, held, step, write, Uncertain};
use durkenzo_driver::{
    Addresses, Begin, CommandFault, ControlCommand, Durable, DurableControl, JoinFault, MapReply,
    MapRequest, Member, Next, NotDone, Numbered, Reads, Refused,
};
use durkenzo_store::{Done, Embedded, Put, Store, Transaction};
use plain::Plain;
use std::collections::HashSet;
use std::sync::atomic::{AtomicBool, AtomicUsize, Ordering};
use std::sync::{Arc, Mutex};
use std::thread;
use std::time::{Duration, Instant};

const SHARDS: u16 = 4;
const CLIENTS: u64 = 6;
/// The least time for which clients go on.
const LASTS: Duration = Duration::from_secs(3);
/// The least number of their answers.
const ANSWERS: usize = 100;
/// The length of a lease in tests about leases. A living process may lose it on a busy machine.
const SHORT_LEASE: Duration = Duration::from_secs(6);
/// How often a test with such a lease is tried.
const TRIES: usize = 4;

fn in_memory() -> Arc<dyn Store> {
    Arc::new(Embedded::in_memory())
}

fn count_of(told: common::Told) -> i64 {
    match told.as_deref() {
        Ok([MapReply::Count(count)]) => *count,
        Ok([MapReply::Nothing]) => 0,
        other => panic!("{other:?}"),
    }
}

/// Returns the words of a list.
fn words_of(durable: &Durable, shard: u16, key: &[u8]) -> Vec<String> {
    let text = match held(durable, shard, key).as_deref() {
        Ok([MapReply::Text(text)]) => text.clone(),
        Ok([MapReply::Nothing]) => Vec::new(),
        other => panic!("{other:?}"),
    };
    let words = String::from_utf8(text).unwrap();
    words.split_whitespace().map(str::to_owned).collect()
}

#[test]
fn any_process_takes_any_work() {
    takes_any_work(&in_memory());
}

#[test]
fn any_process_takes_any_work_over_a_store_of_others() {
    let store: Arc<dyn Store> = Arc::new(Plain::new());
    takes_any_work(&store);
}

fn takes_any_work(store: &Arc<dyn Store>) {
    let nodes = Net::of_three(store, SHARDS);
    let mut control = campaign(&nodes[0]);
    assign(&mut control, SHARDS);
    for shard in 0..SHARDS {
        for (at, node) in nodes.iter().enumerate() {
            assert_eq!(count_of(add(&node.durable, shard, b"a", 1)), at as i64 + 1);
            append(&node.durable, shard, b"list", &at.to_string()).unwrap();
            assert_eq!(words_of(&node.durable, shard, b"list").len(), at + 1);
        }
        let words = words_of(&nodes[1].durable, shard, b"list");
        assert_eq!(words, ["0", "1", "2"]);
    }
    let requests = vec![MapRequest::Put(b"t".as_slice().into(), b"x".to_vec())];
    assert_eq!(
        write(&nodes[2].durable, 0, requests),
        Ok(vec![MapReply::Done])
    );
}

/// The answers to clients.
#[derive(Default)]
struct Answered {
    /// How many additions to each shard were made.
    counts: [i64; SHARDS as usize],
    /// How many more to each have an unknown outcome.
    unknown: [i64; SHARDS as usize],
    words: Vec<String>,
}

/// The progress of clients, and whether they must stop.
#[derive(Default)]
struct Progress {
    answers: AtomicUsize,
    stops: AtomicBool,
}

impl Progress {
    /// Waits until clients were answered enough times more.
    fn await_answers(&self) {
        let before = self.answers.load(Ordering::Relaxed);
        until("clients are answered", || {
            self.answers.load(Ordering::Relaxed) >= before + ANSWERS
        });
    }
}

/// Stops clients, even if the work beside them fails.
struct Stopping<'a>(&'a Progress);

impl Drop for Stopping<'_> {
    fn drop(&mut self) {
        self.0.stops.store(true, Ordering::Release);
    }
}

/// Returns the key of a client's words. A text has room for the words of one client.
fn list_of(client: u64) -> Vec<u8> {
    format!("list{client}").into_bytes()
}

/// Makes a client ask any of the processes, until it must stop.
fn client(nodes: &[Node], number: u64, progress: &Progress, tolerates: bool) -> Answered {
    let (mut dice, mut answered, mut at) = (Dice(number), Answered::default(), 0);
    while !progress.stops.load(Ordering::Acquire) {
        at += 1;
        let node = &nodes[dice.below(nodes.len() as u64) as usize];
        let shard = dice.below(u64::from(SHARDS)) as u16;
        let adds = at % 3 > 0;
        let word = format!("{number}.{shard}.{at}");
        let told = match adds {
            true => add(&node.durable, shard, b"count", 1),
            false => append(&node.durable, shard, &list_of(number), &word),
        };
        let place = usize::from(shard);
        match told {
            Err(NotDone::Unknown(_)) if tolerates => answered.unknown[place] += i64::from(adds),
            Err(NotDone::Stopped | NotDone::Busy | NotDone::Unread | NotDone::NotMade(_))
                if tolerates => {}
            Err(why) => panic!("it wasn't done: {why}"),
            Ok(replies) => {
                assert!(adds || replies == [MapReply::Done], "{replies:?}");
                progress.answers.fetch_add(1, Ordering::Relaxed);
                answered.counts[place] += i64::from(adds);
                answered.words.extend((!adds).then_some(word));
            }
        }
    }
    answered
}

/// Makes clients ask the processes while the other work goes on.
fn under_clients(nodes: &[Node], tolerates: bool, work: impl FnOnce(&Progress)) -> Answered {
    let (progress, mut all) = (Progress::default(), Answered::default());
    let asking = &progress;
    thread::scope(|scope| {
        let clients: Vec<_> = (0..CLIENTS)
            .map(|it| scope.spawn(move || client(nodes, it, asking, tolerates)))
            .collect();
        let stopping = Stopping(asking);
        work(asking);
        drop(stopping);
        for it in clients {
            let answered = it.join().unwrap();
            for shard in 0..usize::from(SHARDS) {
                all.counts[shard] += answered.counts[shard];
                all.unknown[shard] += answered.unknown[shard];
            }
            all.words.extend(answered.words);
        }
    });
    all
}

/// Checks that all lists have these words, each once. Other words are allowed only if their outcomes aren't known.
fn assert_words(durable: &Durable, words: &[String], others: bool) {
    let mut found = HashSet::new();
    for shard in 0..SHARDS {
        for word in (0..CLIENTS).flat_map(|it| words_of(durable, shard, &list_of(it))) {
            assert!(found.insert(word.clone()), "{word} is there twice");
        }
    }
    let lost: Vec<_> = words.iter().filter(|it| !found.contains(*it)).collect();
    assert!(lost.is_empty(), "lost of {}: {lost:?}", words.len());
    assert!(others || found.len() == words.len());
}

#[test]
fn graceful_migrations_refuse_nothing_and_lose_nothing() {
    let nodes = Net::of_three(&in_memory(), SHARDS);
    let mut control = campaign(&nodes[2]);
    assign(&mut control, SHARDS);
    let mut moves = 0;
    let answered = under_clients(&nodes, false, |progress| {
        let (mut dice, end) = (Dice(99), Instant::now() + LASTS);
        while Instant::now() < end || moves <= 10 {
            let (shard, server) = (moves % SHARDS, dice.below(3) as u16 + 1);
            // If the shard is there already, the command is refused.
            let _ = control.command(ControlCommand::PrepareAddShard(shard, server));
            settle(&mut control, shard);
            moves += 1;
        }
        progress.await_answers();
    });
    let Answered { counts, words, .. } = answered;
    eprintln!("{moves} moves, {counts:?} counted, {} words", words.len());
    assert!(words.len() > 20);
    for shard in 0..SHARDS {
        let count = count_of(held(&nodes[0].durable, shard, b"count"));
        assert_eq!(count, counts[usize::from(shard)]);
    }
    assert_words(&nodes[1].durable, &words, false);
}

/// Makes the next steps for failed servers and shards. Returns whether there were none.
fn went_on(control: &mut DurableControl, failed: &mut Vec<u16>) -> bool {
    let mut is_over = true;
    if let Some(server) = control.fallen().unwrap() {
        control.command(ControlCommand::Fail(server)).unwrap();
        failed.push(server);
        is_over = false;
    }
    for shard in 0..SHARDS {
        match control.next_of_shard(shard).unwrap() {
            Next::Nothing => continue,
            Next::Command(command) => control.command(command).unwrap(),
            Next::Waits => {}
        }
        is_over = false;
    }
    is_over
}

#[test]
fn a_process_that_dies_is_failed_and_nothing_answered_is_lost() {
    let nodes = Net::of_three(&in_memory(), SHARDS);
    let mut control = campaign(&nodes[0]);
    assign(&mut control, SHARDS);
    let (left, killed) = nodes.split_at(2);
    let owner = |node: &Node, shard| {
        let standing = node.durable.standing(shard).unwrap();
        standing.record().unwrap().owner()
    };
    let answered = under_clients(left, true, |progress| {
        progress.await_answers();
        kill(&killed[0]);
        // For a while nobody answers it.
        thread::sleep(Duration::from_millis(300));
        killed[0].expire();
        let mut failed = Vec::new();
        until("it has failed, and others own its shards", || {
            let is_over = went_on(&mut control, &mut failed);
            is_over && !failed.is_empty()
        });
        progress.await_answers();
        assert!(went_on(&mut control, &mut failed));
        assert_eq!(failed, [3]);
    });
    let Answered {
        counts,
        unknown,
        words,
    } = answered;
    eprintln!(
        "{counts:?} counted, {unknown:?} unknown, {} words",
        words.len()
    );
    for node in left {
        until("it is seen to be away", || node.durable.is_away(3));
        for shard in 0..SHARDS {
            until("another one is seen to own it", || {
                owner(node, shard).is_some_and(|it| it != 3)
            });
            let count = count_of(add(&node.durable, shard, b"count", 0));
            let least = counts[usize::from(shard)];
            let most = least + unknown[usize::from(shard)];
            assert!(
                (least..=most).contains(&count),
                "{least} <= {count} <= {most}"
            );
        }
    }
    assert_words(&left[1].durable, &words, true);
}

/// Makes a process whose watch is silent ack the shard, although it still uses the record before.
fn ack_deaf(control: &mut DurableControl, durable: &Durable, shard: u16) {
    let generation = control.record(shard).unwrap().unwrap().generation;
    durable.member().unwrap().ack(shard, generation);
}

#[test]
fn a_process_whose_watch_is_silent_makes_nothing_that_the_record_forbids() {
    let nodes = Net::of_three(&in_memory(), 1);
    let mut control = campaign(&nodes[2]);
    control.command(ControlCommand::Assign(0, 1)).unwrap();
    let count = |node: usize, amount| count_of(add(&nodes[node].durable, 0, b"a", amount));
    assert_eq!(count(0, 1), 1);
    nodes[0].is_deaf.store(true, Ordering::Release);
    control.command(ControlCommand::Pause(0)).unwrap();
    // It hasn't acked, as far as the control knows.
    let early = control.command(ControlCommand::Reassign(0, 2));
    assert!(matches!(
        early,
        Err(Refused::Judged(CommandFault::NotAcked))
    ));
    ack_deaf(&mut control, &nodes[0].durable, 0);
    soon(&mut control, ControlCommand::Reassign(0, 2));
    assert_eq!(count(1, 1), 2);
    // It still takes itself for the owner. Its transaction fails, and the work goes on at the right server.
    assert_eq!(count(0, 1), 3);
    append(&nodes[0].durable, 0, b"list", "x").unwrap();
    assert_eq!(count(1, 1), 4);
    // The shard comes back. The process learns that only from another process's answer or from its own reading.
    nodes[1].is_deaf.store(true, Ordering::Release);
    control.command(ControlCommand::Pause(0)).unwrap();
    ack_deaf(&mut control, &nodes[1].durable, 0);
    soon(&mut control, ControlCommand::Reassign(0, 3));
    assert_eq!(count(0, 1), 5);
    assert_eq!(count(1, 1), 6);
    assert_eq!(words_of(&nodes[1].durable, 0, b"list"), ["x"]);
}

#[test]
fn a_change_begins_anew_where_another_server_wrote_meanwhile() {
    let nodes = Arc::new(Net::of_three(&in_memory(), 1));
    let mut control = campaign(&nodes[2]);
    control.command(ControlCommand::Assign(0, 1)).unwrap();
    append(&nodes[0].durable, 0, b"list", "first").unwrap();
    nodes[0].is_deaf.store(true, Ordering::Release);
    let others = nodes.clone();
    // The shard goes to another server, which writes, and comes back, before the decided writes are made.
    let meanwhile = move || {
        control.command(ControlCommand::Pause(0)).unwrap();
        ack_deaf(&mut control, &others[0].durable, 0);
        soon(&mut control, ControlCommand::Reassign(0, 2));
        append(&others[1].durable, 0, b"list", "other").unwrap();
        control.command(ControlCommand::Pause(0)).unwrap();
        soon(&mut control, ControlCommand::Reassign(0, 1));
    };
    *nodes[0].meanwhile.lock().unwrap() = Some(Box::new(meanwhile));
    append(&nodes[0].durable, 0, b"list", "last").unwrap();
    let words = words_of(&nodes[0].durable, 0, b"list");
    assert_eq!(words, ["first", "other", "last"]);
}

#[test]
fn another_process_goes_on_where_the_leader_was() {
    let mut nodes = Net::of_three(&in_memory(), SHARDS);
    let mut control = campaign(&nodes[2]);
    for shard in 0..SHARDS {
        control.command(ControlCommand::Assign(shard, 1)).unwrap();
    }
    assert!(matches!(
        DurableControl::campaign(nodes[0].durable.clone(), &common::line_of(SHARDS, 3)),
        Ok(None)
    ));
    control
        .command(ControlCommand::PrepareAddShard(0, 2))
        .unwrap();
    soon(&mut control, ControlCommand::PrepareDropShard(0));
    control
        .command(ControlCommand::PrepareAddShard(1, 2))
        .unwrap();
    kill(&nodes[2]);
    assert_eq!(count_of(add(&nodes[0].durable, 0, b"a", 1)), 1);
    nodes[2].expire();
    let mut next = campaign(&nodes[1]);
    (0..SHARDS).for_each(|it| settle(&mut next, it));
    for shard in 0..2 {
        let owner = nodes[0]
            .durable
            .standing(shard)
            .unwrap()
            .record()
            .unwrap()
            .owner();
        assert_eq!(owner, Some(2));
        assert!(add(&nodes[0].durable, shard, b"a", 1).is_ok());
    }
    // The former leader can change nothing, and knows that once it reaches the store.
    nodes[2].revive();
    assert!(control.command(ControlCommand::Pause(0)).is_err());
    drop(control);
    let seen = nodes[0].durable.member().unwrap().clone();
    until("it is there", || seen.members().contains_key(&3));
    drop(nodes.remove(2));
    // A server's key is gone with its process.
    until("it is gone", || !seen.members().contains_key(&3));
}

#[test]
fn a_shard_is_dropped_once_all_follow() {
    let nodes = Net::of_three(&in_memory(), 1);
    let mut control = campaign(&nodes[0]);
    control.command(ControlCommand::Assign(0, 1)).unwrap();
    nodes[2].is_deaf.store(true, Ordering::Release);
    for command in [
        ControlCommand::PrepareAddShard(0, 2),
        ControlCommand::PrepareDropShard(0),
        ControlCommand::AddShard(0),
    ] {
        soon(&mut control, command);
    }
    thread::sleep(Duration::from_millis(200));
    assert_eq!(control.next_of_shard(0).unwrap(), Next::Waits);
    assert!(control.command(ControlCommand::DropShard(0)).is_err());
    // It hears of the next record again. A process that is gone isn't awaited.
    kill(&nodes[2]);
    nodes[2].expire();
    until("it isn't waited for", || {
        control.next_of_shard(0).unwrap() != Next::Waits
    });
    control.command(ControlCommand::DropShard(0)).unwrap();
}

#[test]
fn a_server_runs_once() {
    let store = in_memory();
    let net = Arc::new(Net::default());
    let node = net.start(&store, 1, 1, |line| Arc::new(line));
    let addresses = Addresses::default();
    let on_change = || Box::new(|| {});
    // It waits for the length of this lease for the first one to go.
    let second = Member::join(
        store.clone(),
        1,
        addresses.clone(),
        SHORT_LEASE,
        on_change(),
    );
    match second {
        Err(JoinFault::Running(1, address)) => assert_eq!(address, "node-1"),
        other => panic!("{other:?}"),
    }
    drop(node);
    let third = Member::join(store, 1, addresses, LEASE, on_change());
    assert!(third.is_ok());
}

/// This process was stopped beyond its lease, while its server began elsewhere.
#[test]
fn a_process_whose_name_another_one_has_neither_leads_nor_executes() {
    let (store, net) = (in_memory(), Arc::new(Net::default()));
    let start = |it| net.start(&store, it, SHARDS, |line| Arc::new(line));
    let nodes: Vec<Node> = (1..=3).map(start).collect();
    let mut control = campaign(&nodes[2]);
    assign(&mut control, SHARDS);
    kill(&nodes[0]);
    nodes[0].expire();
    let first = start(1);
    nodes[0].reach_again();
    let old = nodes[0].durable.member().unwrap();
    until("it hears of the other one", || {
        // It tells the changes here, and the old process then hears of them.
        control.command(ControlCommand::Pause(1)).unwrap();
        control.command(ControlCommand::Resume(1)).unwrap();
        old.members().get(&1).map(|it| it.process) != Some(old.process())
    });
    let read = Begin::Read(vec![b"a"[..].into()]);
    let (read, told) = step(read, None);
    nodes[0].durable.submit(0, vec![read]);
    kill(&nodes[2]);
    nodes[2].expire();
    let line = common::line_of(SHARDS, 3);
    let mut leader = None;
    until("another one leads", || {
        let by_old = DurableControl::campaign(nodes[0].durable.clone(), &line);
        assert!(!matches!(by_old, Ok(Some(_))), "it leads");
        leader = DurableControl::campaign(nodes[1].durable.clone(), &line).unwrap();
        leader.is_some()
    });
    assert_eq!(told.recv().unwrap(), Err(NotDone::Away(1)));
    assert_eq!(count_of(add(&first.durable, 0, b"a", 1)), 1);
}

/// A store that doesn't answer the writes of servers' keys while it hangs.
struct Hanging {
    store: Handed<Line>,
    hangs: Arc<AtomicBool>,
    unanswered: Mutex<Vec<Done>>,
}

impl Handing for Hanging {
    fn store(&self) -> &dyn Store {
        &self.store
    }

    fn submit(&self, transaction: Transaction, done: Done) {
        let tells = |it: &Put| it.key.starts_with(b"server/");
        match self.hangs.load(Ordering::Acquire) && transaction.puts.iter().any(tells) {
            true => self.unanswered.lock().unwrap().push(done),
            false => self.store.submit(transaction, done),
        }
    }
}

/// Sleeps for so long, and returns the longest time for which this process stood still meanwhile.
fn sleep_for(length: Duration) -> Duration {
    let (end, mut last, mut longest) = (Instant::now() + length, Instant::now(), Duration::ZERO);
    while last < end {
        thread::sleep(Duration::from_millis(20));
        longest = longest.max(last.elapsed());
        last = Instant::now();
    }
    longest
}

/// Returns whether a server is there for two lengths of its lease although the store hangs at its writes, and whether
/// it then writes them. Returns nothing if this process itself stood still, so that it kept no lease.
fn is_there_though_the_store_hangs() -> Option<bool> {
    let store = in_memory();
    let hangs = Arc::new(AtomicBool::new(false));
    let net = Net::new(Reads::Exact, SHORT_LEASE);
    let node = Arc::new(net).start(&store, 1, 1, |store| {
        Arc::new(Handed(Hanging {
            store,
            hangs: hangs.clone(),
            unanswered: Mutex::default(),
        }))
    });
    let lies = || store.read(&[b"server/00001"]).unwrap().pairs;
    let (mut control, before) = (campaign(&node), lies());
    hangs.store(true, Ordering::Release);
    // It would tell that it has seen this.
    assign(&mut control, 1);
    let still = sleep_for(2 * SHORT_LEASE);
    let is_there = lies() == before;
    hangs.store(false, Ordering::Release);
    until("it tells something", || lies() != before);
    (is_there || still < SHORT_LEASE / 2).then_some(is_there)
}

#[test]
fn a_server_is_there_though_the_store_hangs_when_it_tells_something() {
    let is_there = (0..TRIES).find_map(|_| is_there_though_the_store_hangs());
    assert!(is_there.expect("the machine lets this process run"));
}

/// Moves shards around as long as it may, and counts how often.
fn migrate(mut control: DurableControl, stops: &AtomicBool, moves: &AtomicUsize) {
    let mut dice = Dice(5);
    while !stops.load(Ordering::Acquire) {
        let shard = moves.load(Ordering::Relaxed) as u16 % SHARDS;
        let server = dice.below(3) as u16 + 1;
        let _ = control.command(ControlCommand::PrepareAddShard(shard, server));
        settle(&mut control, shard);
        moves.fetch_add(1, Ordering::Relaxed);
        thread::sleep(Duration::from_millis(2));
    }
}

#[test]
fn numbered_requests_are_made_once_where_outcomes_are_unknown() {
    let (store, net) = (in_memory(), Arc::new(Net::default()));
    let uncertain = |line| Arc::new(Uncertain::new(line, 4)) as Arc<dyn Store>;
    let nodes: Vec<_> = (1..=3)
        .map(|it| net.start(&store, it, SHARDS, uncertain))
        .collect();
    let mut control = campaign(&nodes[0]);
    assign(&mut control, SHARDS);
    let (stops, end) = (AtomicBool::new(false), Instant::now() + LASTS);
    let (moves, latest) = (AtomicUsize::new(0), end + PATIENCE);
    let goes_on = || {
        let now = Instant::now();
        now < end || moves.load(Ordering::Relaxed) <= 5 && now < latest
    };
    let replied = Mutex::new(vec![Vec::new(); usize::from(SHARDS)]);
    thread::scope(|scope| {
        let moving = scope.spawn(|| migrate(control, &stops, &moves));
        let clients: Vec<_> = (1..=6)
            .map(|client| {
                let (nodes, replied, goes_on) = (&nodes, &replied, &goes_on);
                scope.spawn(move || {
                    let (shard, mut dice) = (client as u16 % SHARDS, Dice(client));
                    let (mut number, mut last) = (0, None);
                    while goes_on() {
                        number += 1;
                        let numbered = Numbered { client, number };
                        let requests = vec![MapRequest::Add(b"count".as_slice().into(), 1)];
                        let begin = Begin::Numbered(numbered, requests);
                        // If it is asked twice, anywhere, it gives its first reply.
                        let told: Vec<_> = (0..2)
                            .map(|_| {
                                let node = &nodes[dice.below(3) as usize];
                                count_of(ask(&node.durable, shard, begin.clone(), None))
                            })
                            .collect();
                        assert_eq!(told[0], told[1]);
                        replied.lock().unwrap()[usize::from(shard)].push(told[0]);
                        // The request before isn't made again. A server that hasn't read this one gives its first
                        // reply.
                        let numbered = Numbered {
                            client,
                            number: number - 1,
                        };
                        let requests = vec![MapRequest::Add(b"count".as_slice().into(), 1)];
                        let begin = Begin::Numbered(numbered, requests);
                        let again = ask(&nodes[0].durable, shard, begin, None);
                        let is_first = matches!(again, Err(NotDone::NotMade(_))) && number == 1;
                        let is_before =
                            last.is_some() && again == Ok(vec![MapReply::Count(last.unwrap_or(0))]);
                        let is_passed = again == Err(NotDone::Passed);
                        assert!(
                            is_first || is_before || is_passed,
                            "{again:?} after {last:?}"
                        );
                        last = Some(told[0]);
                    }
                })
            })
            .collect();
        let ended: Vec<_> = clients.into_iter().map(|it| it.join()).collect();
        stops.store(true, Ordering::Release);
        assert!(ended.iter().all(Result::is_ok));
        moving.join().unwrap();
        assert!(moves.load(Ordering::Relaxed) > 5);
    });
    for (shard, mut counts) in replied.into_inner().unwrap().into_iter().enumerate() {
        counts.sort_unstable();
        let all: Vec<i64> = (1..=counts.len() as i64).collect();
        assert_eq!(
            counts, all,
            "each addition is counted once, in shard {shard}"
        );
        let count = count_of(held(&nodes[1].durable, shard as u16, b"count"));
        assert_eq!(count, all.len() as i64);
    }
}
