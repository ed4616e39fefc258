//! The intents with which each leader goes on lie in the store, also if outcomes aren't known. Nobody else changes
//! them. Nothing is made that was given up.
mod common;

use common::cluster::{campaign, kill, until, Net};
use common::handing::{Handed, Handing};
use common::{line, opened};
use durkenzo::Stand;
use durkenzo_driver::{keys, ControlCommand, DurableControl, Intent, Refused};
use durkenzo_store::{Done, Embedded, Outcome, Store, Transaction, WriteError};
use std::sync::atomic::{AtomicBool, AtomicU64, Ordering};
use std::sync::{Arc, Mutex};

/// A store that doesn't tell the outcome of two of three transactions on intents, or of commands. It makes one of these
/// two.
struct Doubtful {
    store: Embedded,
    count: AtomicU64,
}

impl Handing for Doubtful {
    fn store(&self) -> &dyn Store {
        &self.store
    }

    fn submit(&self, transaction: Transaction, done: Done) {
        let control = [keys::DRAINS, keys::HOMES, keys::COMMANDS];
        let is_of_control = |key: &[u8]| control.iter().any(|it| key.starts_with(it));
        let puts = transaction.puts.iter().any(|it| is_of_control(&it.key));
        let number = match puts || transaction.deletes.iter().any(|it| is_of_control(it)) {
            true => self.count.fetch_add(1, Ordering::Relaxed) % 3,
            false => 2,
        };
        let unknown = || Err(WriteError::Unknown("a test".to_owned()));
        match number {
            0 => done(unknown()),
            1 => self
                .store
                .submit(transaction, Box::new(move |_| done(unknown()))),
            _ => self.store.submit(transaction, done),
        }
    }
}

fn doubtful() -> Arc<dyn Store> {
    Arc::new(Handed(Doubtful {
        store: Embedded::in_memory(),
        count: AtomicU64::new(0),
    }))
}

fn assert_intents(control: &mut DurableControl, intents: &[Intent]) {
    assert_eq!(control.intents().unwrap(), intents);
}

#[test]
fn intents_lie_there_until_they_are_withdrawn() {
    let store = doubtful();
    let durable = Arc::new(opened(&store, 2));
    let lead = || DurableControl::lead(durable.clone(), &line(2)).unwrap();
    let mut control = lead();
    assert_intents(&mut control, &[]);
    control.intend(&[Intent::Drain(2)]).unwrap();
    control.intend(&[Intent::Home(1, 2)]).unwrap();
    // The first home of a shard stays.
    control
        .intend(&[Intent::Home(0, 1), Intent::Home(1, 1)])
        .unwrap();
    control.intend(&[Intent::Drain(2)]).unwrap();
    let all = [Intent::Drain(2), Intent::Home(0, 1), Intent::Home(1, 2)];
    assert_intents(&mut control, &all);
    // An intent of a later version is skipped.
    let later = Transaction::new().put("home/00009", [2, 0, 1]);
    let later = later.put("drain/00001", [2]);
    let mut made = (0..3).map(|_| store.make(later.clone()));
    assert!(made.any(|it| matches!(it, Ok(Outcome::Made(_)))));
    assert_intents(&mut lead(), &all);
    let mut control = lead();
    control
        .withdraw(&[Intent::Home(1, 2), Intent::Home(0, 1)])
        .unwrap();
    assert_intents(&mut control, &[Intent::Drain(2)]);
    control.withdraw(&[Intent::Drain(2)]).unwrap();
    control.withdraw(&[Intent::Drain(2)]).unwrap();
    control.withdraw(&[]).unwrap();
    assert_intents(&mut control, &[]);
    control
        .intend(&[Intent::Drain(2), Intent::Drained(2)])
        .unwrap();
    control.withdraw(&[Intent::Drain(2)]).unwrap();
    assert_intents(&mut lead(), &[Intent::Drained(2)]);
}

#[test]
fn a_command_that_was_made_is_not_refused() {
    let store = doubtful();
    let durable = Arc::new(opened(&store, 1));
    let mut control = DurableControl::lead(durable, &line(1)).unwrap();
    control.command(ControlCommand::Assign(0, 1)).unwrap();
    for (to, from) in [(2, 1), (1, 2)] {
        for command in [
            ControlCommand::PrepareAddShard(0, to),
            ControlCommand::PrepareDropShard(0),
            ControlCommand::AddShard(0),
            ControlCommand::DropShard(0),
            ControlCommand::Ask(from),
            ControlCommand::Approve(from),
            ControlCommand::Stopped(from),
            ControlCommand::Back(from),
        ] {
            control.command(command).unwrap();
        }
    }
    // A command that isn't allowed is refused as always.
    let again = control.command(ControlCommand::Back(1));
    assert!(matches!(again, Err(Refused::Judged(_))), "{again:?}");
}

/// A store that withholds a control's writes for a while, and doesn't know their outcomes.
struct Withholding {
    store: Embedded,
    withholds: Arc<AtomicBool>,
    withheld: Arc<Mutex<Vec<Transaction>>>,
}

impl Handing for Withholding {
    fn store(&self) -> &dyn Store {
        &self.store
    }

    fn submit(&self, transaction: Transaction, done: Done) {
        let is_of_control = [keys::COMMANDS, keys::DRAINS, keys::LEADER]
            .iter()
            .any(|key| transaction.puts.iter().any(|it| it.key.starts_with(key)));
        if !is_of_control || !self.withholds.load(Ordering::Acquire) {
            return self.store.submit(transaction, done);
        }
        self.withheld.lock().unwrap().push(transaction);
        done(Err(WriteError::Unknown("a test".to_owned())));
    }
}

/// A store that withholds, and how tests use it.
struct Late {
    store: Arc<dyn Store>,
    withholds: Arc<AtomicBool>,
    withheld: Arc<Mutex<Vec<Transaction>>>,
}

impl Late {
    fn new() -> Late {
        let (withholds, withheld) = (Arc::new(AtomicBool::new(false)), Arc::default());
        let store: Arc<dyn Store> = Arc::new(Handed(Withholding {
            store: Embedded::in_memory(),
            withholds: withholds.clone(),
            withheld: Arc::clone(&withheld),
        }));
        Late {
            store,
            withholds,
            withheld,
        }
    }

    /// Returns a leading control over it, whose shard has an owner.
    fn control(&self) -> DurableControl {
        let durable = Arc::new(opened(&self.store, 1));
        let mut control = DurableControl::lead(durable, &line(1)).unwrap();
        control.command(ControlCommand::Assign(0, 1)).unwrap();
        control
    }

    /// Withholds everything that the call sends, with an unknown outcome.
    fn withhold(&self, call: impl FnOnce() -> Result<(), Refused>) {
        self.withholds.store(true, Ordering::Release);
        let called = call();
        assert!(is_unknown(&called), "{called:?}");
        self.withholds.store(false, Ordering::Release);
    }

    /// Takes the withheld transactions that write to this key, from the first on.
    fn taken(&self, key: &[u8]) -> Vec<Transaction> {
        let mut withheld = self.withheld.lock().unwrap();
        let writes = |it: &Transaction| it.puts.iter().any(|it| it.key.starts_with(key));
        let (taken, left): (Vec<_>, _) = withheld.drain(..).partition(writes);
        *withheld = left;
        assert!(!taken.is_empty());
        taken
    }

    /// Checks that no withheld transaction that writes to this key is made now.
    fn assert_outdated(&self, key: &[u8]) {
        for transaction in self.taken(key) {
            let made = self.store.make(transaction);
            assert!(matches!(made, Ok(Outcome::Lost(_))), "{made:?}");
        }
    }
}

fn is_unknown<T>(called: &Result<T, Refused>) -> bool {
    matches!(called, Err(Refused::Write(WriteError::Unknown(_))))
}

#[test]
fn a_command_that_was_given_up_is_not_made_once_the_control_goes_on() {
    let late = Late::new();
    let mut control = late.control();
    let prepared = ControlCommand::PrepareAddShard(0, 2);
    late.withhold(|| control.command(prepared));
    // The present state isn't told while it may change.
    late.withhold(|| control.record(0).map(drop));
    let stands = control.record(0).unwrap().map(|it| it.stand);
    assert_eq!(stands, Some(Stand::Serving(1)));
    late.assert_outdated(keys::COMMANDS);
    late.assert_outdated(keys::LEADER);
    control.command(prepared).unwrap();
}

#[test]
fn an_intent_that_was_withdrawn_does_not_come_late() {
    let late = Late::new();
    let mut control = late.control();
    late.withhold(|| control.intend(&[Intent::Drain(2)]));
    control.withdraw(&[Intent::Drain(2)]).unwrap();
    late.assert_outdated(keys::DRAINS);
    assert_intents(&mut control, &[]);
}

#[test]
fn a_process_that_is_elected_anew_leads_on() {
    let late = Late::new();
    let nodes = Net::of_three(&late.store, 1);
    let mut control = campaign(&nodes[0]);
    let process = nodes[0].durable.process();
    let assigned = ControlCommand::Assign(0, 1);
    late.withhold(|| control.command(assigned));
    // The election comes late. It is seen before the control goes on.
    let elections = late.taken(keys::LEADER);
    assert_eq!(elections.len(), 1);
    let elected = late.store.make(elections[0].clone());
    assert!(matches!(elected, Ok(Outcome::Made(_))), "{elected:?}");
    control.command(assigned).unwrap();
    late.assert_outdated(keys::COMMANDS);
    for node in &nodes {
        until("it is seen", || {
            node.durable.member().unwrap().leader() == Some(process)
        });
    }
    let line = common::line_of(1, 3);
    let other = DurableControl::campaign(nodes[1].durable.clone(), &line);
    assert!(matches!(other, Ok(None)), "{other:?}");
    control
        .command(ControlCommand::PrepareAddShard(0, 2))
        .unwrap();
}

#[test]
fn a_process_that_leads_again_outdates_what_it_sent_before() {
    let late = Late::new();
    let nodes = Net::of_three(&late.store, 1);
    let mut before = campaign(&nodes[0]);
    let assigned = ControlCommand::Assign(0, 1);
    late.withhold(|| before.command(assigned));
    drop(before);
    let mut control = campaign(&nodes[0]);
    late.assert_outdated(keys::COMMANDS);
    late.assert_outdated(keys::LEADER);
    control.command(assigned).unwrap();
}

#[test]
fn who_saw_that_nobody_leads_is_not_elected_anew() {
    let late = Late::new();
    let nodes = Net::of_three(&late.store, 1);
    let mut control = campaign(&nodes[0]);
    late.withhold(|| control.command(ControlCommand::Assign(0, 1)));
    late.taken(keys::LEADER);
    nodes[0].expire();
    let member = nodes[0].durable.member().unwrap();
    until("nobody leads", || member.leader().is_none());
    late.withholds.store(true, Ordering::Release);
    let refused = control.record(0);
    assert!(matches!(refused, Err(Refused::NotLeader)), "{refused:?}");
    let withheld = late.withheld.lock().unwrap();
    let elections = withheld.iter().flat_map(|it| &it.puts);
    assert!(elections.into_iter().all(|it| it.key != keys::LEADER));
}

#[test]
fn many_intents_lie_there() {
    let store: Arc<dyn Store> = Arc::new(Embedded::in_memory());
    let durable = Arc::new(opened(&store, 1));
    let mut control = DurableControl::lead(durable, &line(1)).unwrap();
    let intents: Vec<_> = (0..500).map(|it| Intent::Home(it, 1)).collect();
    control.intend(&intents[..130]).unwrap();
    control.intend(&intents).unwrap();
    assert_intents(&mut control, &intents);
    control.withdraw(&intents).unwrap();
    assert_intents(&mut control, &[]);
}

#[test]
fn who_leads_no_more_intends_nothing() {
    let store: Arc<dyn Store> = Arc::new(Embedded::in_memory());
    let nodes = Net::of_three(&store, 1);
    let mut before = campaign(&nodes[0]);
    before.intend(&[Intent::Drain(1)]).unwrap();
    // Its lease ends, but it doesn't see that.
    nodes[0].is_deaf.store(true, Ordering::Release);
    nodes[0].durable.member().unwrap().leave();
    let mut control = campaign(&nodes[1]);
    let is_refused = |it| matches!(it, Err(Refused::NotLeader));
    assert!(is_refused(before.intend(&[Intent::Drain(2)])));
    assert!(is_refused(before.withdraw(&[Intent::Drain(1)])));
    assert_intents(&mut control, &[Intent::Drain(1)]);
    kill(&nodes[0]);
}
