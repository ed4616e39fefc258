//! A user's own machines: their requests are made once, in one order, and any server makes the machines anew.
mod common;

use common::cluster::{campaign, fail, kill, settle, until, Net, Node};
use common::{ask, led, Told};
use durkenzo_driver::{
    check_machine, Begin, ControlCommand, Durable, Machine, MachineFault, MapReply, MapRequest,
    NotDone, Numbered, OpaqueRequest, ShardOptions,
};
use durkenzo_store::{Embedded, Store, Sync};
use std::collections::BTreeMap;
use std::io::{self, BufRead, BufReader, Read, Write};
use std::path::{Path, PathBuf};
use std::process::{Child, Command, Stdio};
use std::sync::atomic::{AtomicBool, AtomicU64, Ordering};
use std::sync::Arc;
use std::thread;
use std::time::Duration;

/// Accounts with balances. A request is words: `deposit ACCOUNT AMOUNT` or `transfer FROM TO AMOUNT`, and reads are
/// `balance ACCOUNT`, `total` or `requests`. Answers are numbers, or `refused`.
#[derive(Default)]
struct Bank {
    requests: u64,
    accounts: BTreeMap<String, u64>,
}

impl Bank {
    fn made(&mut self, words: &[&str]) -> Option<u64> {
        let amount: u64 = words.last()?.parse().ok()?;
        match words {
            ["deposit", account, _] => {
                let balance = self.accounts.entry((*account).to_owned()).or_default();
                *balance += amount;
                Some(*balance)
            }
            ["transfer", from, to, _] => {
                let left = self.accounts.get(*from)?.checked_sub(amount)?;
                self.accounts.insert((*from).to_owned(), left);
                *self.accounts.entry((*to).to_owned()).or_default() += amount;
                Some(left)
            }
            _ => panic!("{words:?} is no request"),
        }
    }
}

impl Machine for Bank {
    fn apply(&mut self, place: u64, request: &[u8]) -> Vec<u8> {
        assert_eq!(place, self.requests);
        self.requests += 1;
        let text = String::from_utf8_lossy(request);
        let made = self.made(&text.split(' ').collect::<Vec<_>>());
        made.map_or_else(|| b"refused".to_vec(), |it| it.to_string().into_bytes())
    }

    fn read(&self, request: &[u8]) -> Vec<u8> {
        let text = String::from_utf8_lossy(request);
        let number = match text.split(' ').collect::<Vec<_>>()[..] {
            ["balance", account] => self.accounts.get(account).copied().unwrap_or(0),
            ["requests"] => self.requests,
            _ => self.accounts.values().sum(),
        };
        number.to_string().into_bytes()
    }

    fn snapshot(&self, out: &mut impl Write) -> io::Result<()> {
        writeln!(out, "{}", self.requests)?;
        let mut accounts = self.accounts.iter();
        accounts.try_for_each(|(account, balance)| writeln!(out, "{account} {balance}"))
    }

    fn restore(input: &mut impl Read) -> io::Result<Bank> {
        let mut text = String::new();
        input.read_to_string(&mut text)?;
        let wrong = || io::Error::new(io::ErrorKind::InvalidData, "no bank");
        let mut lines = text.lines();
        let requests = lines
            .next()
            .and_then(|it| it.parse().ok())
            .ok_or_else(wrong)?;
        let account = |line: &str| {
            let (account, balance) = line.split_once(' ')?;
            Some((account.to_owned(), balance.parse().ok()?))
        };
        let accounts = lines
            .map(account)
            .collect::<Option<_>>()
            .ok_or_else(wrong)?;
        Ok(Bank { requests, accounts })
    }
}

fn text(told: &Told) -> Result<String, NotDone> {
    match told {
        Ok(replies) => match &replies[..] {
            [MapReply::Text(text)] => Ok(String::from_utf8_lossy(text).into_owned()),
            other => panic!("{other:?}"),
        },
        Err(why) => Err(why.clone()),
    }
}

fn write_by(
    durable: &Durable,
    numbered: Option<Numbered>,
    request: &str,
) -> Result<String, NotDone> {
    let request = OpaqueRequest::Write(numbered, request.as_bytes().to_vec());
    text(&ask(durable, 0, Begin::Opaque(request), None))
}

fn write(durable: &Durable, request: &str) -> Result<String, NotDone> {
    write_by(durable, None, request)
}

/// Returns the answer to a request that its client numbers.
fn numbered(durable: &Durable, client: u64, number: u64, request: &str) -> Result<String, NotDone> {
    write_by(durable, Some(Numbered { client, number }), request)
}

fn read(durable: &Durable, request: &str) -> Result<String, NotDone> {
    let request = OpaqueRequest::Read(request.as_bytes().to_vec());
    text(&ask(durable, 0, Begin::Opaque(request), None))
}

fn opened<M: Machine>(store: &Arc<dyn Store>) -> Arc<Durable> {
    let shard_options = ShardOptions {
        wait: Duration::from_secs(45),
        most_batches: 7,
        ..ShardOptions::default()
    };
    let open = Durable::open_machines::<M>(store.clone(), 1, shard_options, None, Box::new(|| {}));
    Arc::new(open.expect("shards"))
}

fn in_memory() -> Arc<dyn Store> {
    Arc::new(Embedded::in_memory())
}

#[test]
fn requests_are_made_once_and_any_process_makes_the_machine_anew() {
    let store = in_memory();
    let durable = opened::<Bank>(&store);
    let control = led(&durable);
    assert_eq!(write(&durable, "deposit a 10"), Ok("10".to_owned()));
    assert_eq!(
        numbered(&durable, 7, 1, "transfer a b 4"),
        Ok("6".to_owned())
    );
    assert_eq!(write(&durable, "transfer b c 5"), Ok("refused".to_owned()));
    // A retry has the first answer, and is made no more.
    assert_eq!(
        numbered(&durable, 7, 1, "transfer a b 4"),
        Ok("6".to_owned())
    );
    assert_eq!(read(&durable, "balance b"), Ok("4".to_owned()));
    drop((control, durable));
    let durable = opened::<Bank>(&store);
    assert_eq!(
        numbered(&durable, 7, 1, "transfer a b 4"),
        Ok("6".to_owned())
    );
    assert_eq!(read(&durable, "requests"), Ok("3".to_owned()));
    assert_eq!(
        numbered(&durable, 7, 2, "transfer a b 6"),
        Ok("0".to_owned())
    );
    assert_eq!(
        numbered(&durable, 7, 1, "transfer a b 4"),
        Err(NotDone::Passed)
    );
    assert_eq!(read(&durable, "balance b"), Ok("10".to_owned()));
}

#[test]
fn steps_of_another_service_are_refused() {
    let store = in_memory();
    let durable = opened::<Bank>(&store);
    let _control = led(&durable);
    let put = MapRequest::Put(b"key".as_slice().into(), b"text".to_vec());
    let told = ask(&durable, 0, Begin::Write(vec![put]), None);
    assert!(
        matches!(&told, Err(NotDone::NotMade(why)) if why.contains("another service")),
        "{told:?}"
    );
    let wrong = numbered(&durable, Numbered::LAST_CLIENT + 1, 1, "deposit a 1");
    assert!(matches!(wrong, Err(NotDone::NotMade(_))), "{wrong:?}");
    let texts = common::opened(&in_memory(), 1);
    let told = read(&texts, "total");
    assert!(
        matches!(&told, Err(NotDone::NotMade(why)) if why.contains("another service")),
        "{told:?}"
    );
}

#[test]
fn a_log_of_another_service_is_told_as_damage() {
    let store = in_memory();
    let texts = Arc::new(common::opened(&store, 1));
    let control = led(&texts);
    assert!(common::add(&texts, 0, b"key", 1).is_ok());
    drop((control, texts));
    let told = read(&opened::<Bank>(&store), "total");
    let is_told = |why: &String| why.contains("another service");
    assert!(
        matches!(&told, Err(NotDone::Damaged(why)) if is_told(why)),
        "{told:?}"
    );
}

/// Returns the keys of the parts of snapshots that are there.
fn snapshots(store: &Arc<dyn Store>) -> Vec<Vec<u8>> {
    store
        .read_keys(b"snapshot/00000/", b"snapshot/000000")
        .unwrap()
}

#[test]
fn a_snapshot_takes_the_place_of_batches_and_of_an_earlier_one() {
    let store = in_memory();
    let durable = opened::<Bank>(&store);
    let control = led(&durable);
    for number in 1..=20 {
        let told = numbered(&durable, 7, number, "deposit a 1");
        assert_eq!(told, Ok(number.to_string()));
    }
    durable.compact().unwrap();
    until("the batches are gone", || {
        store.read_keys(b"batch/", b"batch0").unwrap().is_empty()
    });
    let first = snapshots(&store);
    assert_eq!(first.len(), 1);
    assert_eq!(numbered(&durable, 9, 1, "deposit b 5"), Ok("5".to_owned()));
    drop((control, durable));
    let durable = opened::<Bank>(&store);
    let control = led(&durable);
    assert_eq!(
        numbered(&durable, 7, 20, "deposit a 1"),
        Ok("20".to_owned())
    );
    assert_eq!(numbered(&durable, 9, 1, "deposit b 5"), Ok("5".to_owned()));
    assert_eq!(read(&durable, "requests"), Ok("21".to_owned()));
    durable.compact().unwrap();
    until("the earlier snapshot is gone", || {
        let keys = snapshots(&store);
        keys.len() == 1 && keys != first
    });
    drop((control, durable));
    assert_eq!(read(&opened::<Bank>(&store), "total"), Ok("25".to_owned()));
}

#[test]
fn a_base_without_its_snapshot_is_told_as_damage() {
    let store = in_memory();
    let durable = opened::<Bank>(&store);
    let control = led(&durable);
    assert_eq!(write(&durable, "deposit a 1"), Ok("1".to_owned()));
    durable.compact().unwrap();
    drop((control, durable));
    store
        .make(durkenzo_store::Transaction::new().delete(b"snapshot/00000".to_vec()))
        .unwrap();
    let told = read(&opened::<Bank>(&store), "total");
    assert!(
        matches!(&told, Err(NotDone::Damaged(why)) if why.contains("snapshot of base 1")),
        "{told:?}"
    );
}

/// A machine that panics at a request with the byte 9, and whose answers otherwise depend on which machine it is.
struct Wrong(u64);

static MADE: AtomicU64 = AtomicU64::new(0);

impl Default for Wrong {
    fn default() -> Wrong {
        Wrong(MADE.fetch_add(1, Ordering::Relaxed))
    }
}

impl Machine for Wrong {
    fn apply(&mut self, _place: u64, request: &[u8]) -> Vec<u8> {
        assert_ne!(request, [9], "nobody may ask for nine");
        match request {
            [0] => Vec::new(),
            _ => self.0.to_string().into_bytes(),
        }
    }

    fn read(&self, _request: &[u8]) -> Vec<u8> {
        Vec::new()
    }

    fn snapshot(&self, out: &mut impl Write) -> io::Result<()> {
        out.write_all(&self.0.to_be_bytes())
    }

    fn restore(_input: &mut impl Read) -> io::Result<Wrong> {
        Ok(Wrong::default())
    }
}

#[test]
fn a_machine_that_panics_is_named_and_the_process_goes_on() {
    let store = in_memory();
    let durable = opened::<Wrong>(&store);
    let _control = led(&durable);
    let told = write(&durable, "\t");
    assert!(
        matches!(&told, Err(why) if why.to_string().contains("nobody may ask for nine")),
        "{told:?}"
    );
    let told = read(&durable, "");
    assert!(
        matches!(&told, Err(NotDone::Damaged(why)) if why.contains("apply panicked")),
        "{told:?}"
    );
}

#[test]
fn a_machine_that_is_not_deterministic_is_found() {
    let requests = |bytes: &[u8]| bytes.iter().map(|it| vec![*it]).collect::<Vec<_>>();
    assert_eq!(
        check_machine::<Wrong>(&requests(&[1])),
        Err(MachineFault::Answers(0))
    );
    assert_eq!(
        check_machine::<Wrong>(&requests(&[0, 0])),
        Err(MachineFault::Snapshots(1))
    );
    let of_bank = [
        "deposit a 9",
        "transfer a b 3",
        "deposit c 1",
        "transfer c d 2",
        "deposit b 8",
    ];
    let of_bank: Vec<Vec<u8>> = of_bank.iter().map(|it| it.as_bytes().to_vec()).collect();
    assert_eq!(check_machine::<Bank>(&of_bank), Ok(()));
}

/// Makes a transfer for each number, until it is told to stop. Returns how many were made. Each answer is the first
/// one, and says that all transfers before were made once.
fn transfers(nodes: &[Node], client: u64, stops: &AtomicBool) -> u64 {
    let mut number = 0;
    while !stops.load(Ordering::Acquire) {
        number += 1;
        let transfer = format!("transfer from{client} to{client} 1");
        let wanted = Ok((1_000_000 - number).to_string());
        let mut durables = nodes.iter().cycle().skip(client as usize);
        loop {
            let node = durables.next().expect("a node");
            let told = numbered(&node.durable, client, number, &transfer);
            if told == wanted {
                break;
            }
            assert!(told.is_err(), "{told:?} and not {wanted:?}");
        }
    }
    number
}

#[test]
fn transfers_are_made_once_while_the_shard_moves_and_where_its_owner_is_killed() {
    let (store, clients) = (in_memory(), 1..=3);
    let net = Arc::new(Net::default());
    let nodes: Vec<Node> = (1..=3)
        .map(|it| net.start_machines::<Bank>(&store, it, 1))
        .collect();
    let mut control = campaign(&nodes[2]);
    control.command(ControlCommand::Assign(0, 1)).unwrap();
    for client in clients.clone() {
        let told = write(&nodes[0].durable, &format!("deposit from{client} 1000000"));
        assert_eq!(told, Ok("1000000".to_owned()));
    }
    let stops = AtomicBool::new(false);
    let made: Vec<u64> = thread::scope(|scope| {
        let nodes = &nodes;
        let asking = |it| {
            scope.spawn({
                let stops = &stops;
                move || transfers(&nodes[1..], it, stops)
            })
        };
        let asking: Vec<_> = clients.clone().map(asking).collect();
        for to in [2, 3, 1, 2, 3, 1, 2, 1] {
            thread::sleep(Duration::from_millis(20));
            control
                .command(ControlCommand::PrepareAddShard(0, to))
                .unwrap();
            settle(&mut control, 0);
        }
        kill(&nodes[0]);
        thread::sleep(Duration::from_millis(100));
        nodes[0].expire();
        fail(&mut control, 1);
        settle(&mut control, 0);
        stops.store(true, Ordering::Release);
        asking.into_iter().map(|it| it.join().unwrap()).collect()
    });
    let record = nodes[1].durable.standing(0).unwrap().record();
    assert_ne!(record.unwrap().owner(), Some(1));
    for (client, made) in clients.zip(made) {
        for node in &nodes[1..] {
            assert_eq!(
                read(&node.durable, &format!("balance to{client}")),
                Ok(made.to_string())
            );
        }
    }
    assert_eq!(read(&nodes[1].durable, "total"), Ok("3000000".to_owned()));
}

/// Names the folder to a process that is killed.
const FOLDER: &str = "DURKENZO_TEST_MACHINES";
/// How often a process over a folder is killed.
const KILLS: u64 = 8;

fn of_folder(folder: &Path) -> Arc<dyn Store> {
    Arc::new(Embedded::in_folder(folder, Sync::No).expect("a store"))
}

/// Makes requests by one client, and prints each that is answered, until the process is killed. It does nothing unless
/// another test starts it.
#[test]
fn deposits_until_it_is_killed() {
    let Some(folder) = std::env::var_os(FOLDER) else {
        return;
    };
    let store = of_folder(Path::new(&folder));
    let durable = opened::<Bank>(&store);
    let _control = led(&durable);
    let made: u64 = read(&durable, "requests").unwrap().parse().unwrap();
    // The last request is asked for again first, as a client does whose answer was lost.
    for number in made.max(1).. {
        let told = numbered(&durable, 7, number, "deposit a 1");
        assert_eq!(told, Ok(number.to_string()));
        println!("answered {number}");
    }
}

fn depositing(folder: &Path) -> Child {
    let mut command = Command::new(std::env::current_exe().unwrap());
    command.args(["--exact", "deposits_until_it_is_killed", "--nocapture"]);
    command
        .env(FOLDER, folder)
        .stdout(Stdio::piped())
        .spawn()
        .unwrap()
}

#[test]
fn nothing_answered_is_lost_where_a_process_over_a_folder_is_killed() {
    let name = format!("durkenzo-machines-{}", std::process::id());
    let folder: PathBuf = std::env::temp_dir().join(name);
    let mut answered = 0;
    for kills in 1..=KILLS {
        let mut child = depositing(&folder);
        let lines = BufReader::new(child.stdout.take().unwrap()).lines();
        let mut numbers = lines.filter_map(|it| {
            let line = it.ok()?;
            line.rsplit_once("answered ")?.1.parse::<u64>().ok()
        });
        let last = numbers.nth(5 + 7 * kills as usize).expect("it answers");
        child.kill().unwrap();
        child.wait().unwrap();
        let last = numbers.last().unwrap_or(last);
        assert!(last > answered, "{last} after {answered}");
        answered = last;
    }
    let store = of_folder(&folder);
    let durable = opened::<Bank>(&store);
    let made: u64 = read(&durable, "requests").unwrap().parse().unwrap();
    assert!(
        (answered..=answered + 1).contains(&made),
        "{made} made, {answered} answered"
    );
    assert_eq!(read(&durable, "balance a"), Ok(made.to_string()));
    drop((durable, store));
    std::fs::remove_dir_all(&folder).unwrap();
}
