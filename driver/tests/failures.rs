//! A server is said to have failed only while its key isn't there. A server that is back by then stays.
mod common;

use common::add;
use common::cluster::{assign, campaign, kill, until, Net, Node};
use common::handing::{Handed, Handing};
use durkenzo_driver::{ControlCommand, DurableControl, Refused, ServerState};
use durkenzo_store::{Done, Embedded, Store, Transaction, WriteError};
use std::sync::atomic::{AtomicBool, AtomicUsize, Ordering};
use std::sync::Arc;

/// The key of server 1.
const KEY: &[u8] = b"server/00001";

/// A link to the store that counts the steps of restarts. They may have an unknown outcome although they aren't made.
struct Steps {
    store: Arc<dyn Store>,
    sent: Arc<AtomicUsize>,
    is_unknown: Arc<AtomicBool>,
}

impl Handing for Steps {
    fn store(&self) -> &dyn Store {
        &*self.store
    }

    fn submit(&self, transaction: Transaction, done: Done) {
        let is_step = transaction
            .puts
            .iter()
            .any(|it| it.key.starts_with(b"state/"));
        self.sent.fetch_add(usize::from(is_step), Ordering::Relaxed);
        match is_step && self.is_unknown.swap(false, Ordering::Relaxed) {
            true => done(Err(WriteError::Unknown("a test".to_owned()))),
            false => self.store.submit(transaction, done),
        }
    }
}

/// Three processes, the third of which leads; how many steps it has sent, and whether the next one has an unknown
/// outcome.
struct Three {
    store: Arc<dyn Store>,
    nodes: Vec<Node>,
    control: DurableControl,
    sent: Arc<AtomicUsize>,
    is_unknown: Arc<AtomicBool>,
}

fn three() -> Three {
    let store: Arc<dyn Store> = Arc::new(Embedded::in_memory());
    let (sent, is_unknown) = (Arc::default(), Arc::default());
    let steps = Steps {
        store: store.clone(),
        sent: Arc::clone(&sent),
        is_unknown: Arc::clone(&is_unknown),
    };
    let counted: Arc<dyn Store> = Arc::new(Handed(steps));
    let net = Arc::new(Net::default());
    let nodes: Vec<_> = [(1, &store), (2, &store), (3, &counted)]
        .map(|(server, store)| net.start(store, server, 3, |line| Arc::new(line)))
        .into();
    let mut control = campaign(&nodes[2]);
    assign(&mut control, 3);
    Three {
        store,
        nodes,
        control,
        sent,
        is_unknown,
    }
}

impl Three {
    /// Waits until the key of server 1 is there, or isn't.
    fn await_key(&self, is_there: bool) {
        until("its key is there, or isn't", || {
            self.store.read(&[KEY]).unwrap().get(KEY).is_some() == is_there
        });
    }

    /// Makes server 1 lose its key, and the control read that.
    fn fall(&mut self) {
        kill(&self.nodes[0]);
        self.nodes[0].expire();
        self.await_key(false);
        until("it is read", || self.control.fallen().unwrap() == Some(1));
    }

    /// Makes server 1 have a key again, under another lease.
    fn rise(&self) {
        self.nodes[0].revive();
        self.await_key(true);
    }

    /// Checks that server 1 goes on as if nothing had happened.
    fn goes_on(&mut self) {
        assert_eq!(self.control.fallen().unwrap(), None);
        assert_eq!(self.control.state_of(1).unwrap(), ServerState::Up);
        self.control.command(ControlCommand::Ask(1)).unwrap();
        self.control.command(ControlCommand::Back(1)).unwrap();
        assert!(add(&self.nodes[0].durable, 0, b"a", 1).is_ok());
    }
}

fn is_still_there(told: Result<(), Refused>) -> bool {
    matches!(told, Err(Refused::StillThere(1)))
}

#[test]
fn a_server_that_is_back_is_not_failed() {
    let mut three = three();
    three.fall();
    three.rise();
    // The control has read that the key was gone, and hears of no change of it.
    assert!(is_still_there(
        three.control.command(ControlCommand::Fail(1))
    ));
    assert_eq!(three.sent.load(Ordering::Relaxed), 1);
    three.goes_on();
    // A server that is there never fails, whoever asks for that.
    assert!(is_still_there(
        three.control.command(ControlCommand::Fail(1))
    ));
    three.goes_on();
}

#[test]
fn a_step_of_unknown_outcome_fails_no_server_that_is_back() {
    let mut three = three();
    three.fall();
    three.is_unknown.store(true, Ordering::Relaxed);
    // It wasn't made, and the server is back when it is sent again.
    let store = three.store.clone();
    three.rise();
    assert!(is_still_there(
        three.control.command(ControlCommand::Fail(1))
    ));
    assert_eq!(three.sent.load(Ordering::Relaxed), 2);
    assert!(store.read(&[b"state/00001"]).unwrap().pairs.is_empty());
    three.goes_on();
}

#[test]
fn a_server_whose_key_is_gone_is_failed() {
    let mut three = three();
    three.fall();
    three.control.command(ControlCommand::Fail(1)).unwrap();
    assert_eq!(three.control.state_of(1).unwrap(), ServerState::Failed);
    assert_eq!(three.control.fallen().unwrap(), None);
}
