//! A server that was stopped is up again in a later process, whoever leads by then.
mod common;

use common::cluster::{assign, campaign, kill, soon, until, Net, Node};
use durkenzo_driver::{
    CommandFault, ControlCommand, DurableControl, Next, Refused, ServerRun, ServerState,
};
use durkenzo_store::{Embedded, Store};
use std::sync::atomic::Ordering;
use std::sync::Arc;

/// Three processes over a store, each of which owns a shard.
struct Three {
    store: Arc<dyn Store>,
    net: Arc<Net>,
    nodes: Vec<Node>,
}

impl Three {
    fn new() -> Three {
        let store: Arc<dyn Store> = Arc::new(Embedded::in_memory());
        let net = Arc::new(Net::default());
        let start = |it| net.start(&store, it, 3, |line| Arc::new(line));
        let nodes = (1..=3).map(start).collect();
        Three { store, net, nodes }
    }

    /// Makes the control of server 3 let server 1 go for its restart, with its shard paused.
    fn let_go(&self) -> DurableControl {
        let mut control = campaign(&self.nodes[2]);
        assign(&mut control, 3);
        for command in [
            ControlCommand::Ask(1),
            ControlCommand::Approve(1),
            ControlCommand::Pause(0),
        ] {
            control.command(command).unwrap();
        }
        control
    }

    /// Stops it then.
    fn stop(&self) -> DurableControl {
        let mut control = self.let_go();
        soon(&mut control, ControlCommand::Stopped(1));
        control
    }

    /// Starts another process for server 1.
    fn start_again(&mut self) {
        let old = self.nodes.remove(0);
        old.durable.member().expect("a member").leave();
        drop(old);
        let new = self.net.start(&self.store, 1, 3, |line| Arc::new(line));
        self.nodes.insert(0, new);
    }

    /// Returns the state of server 1 with the number of its process.
    fn run(&self, state: ServerState) -> ServerRun {
        let process = self.nodes[0].durable.process();
        ServerRun { state, process }
    }
}

fn is_earlier(told: &Result<(), Refused>) -> bool {
    matches!(told, Err(Refused::Judged(CommandFault::EarlierProcess)))
}

#[test]
fn the_next_leader_tells_the_process_that_was_stopped_from_the_next_one() {
    let mut three = Three::new();
    drop(three.stop());
    let stopped = three.run(ServerState::Stopped);
    // Another process leads by now, and the one that was stopped is still there.
    kill(&three.nodes[2]);
    three.nodes[2].expire();
    let mut control = campaign(&three.nodes[1]);
    assert_eq!(control.run_of(1).unwrap(), stopped);
    assert!(!stopped.is_restarted_by(stopped.process));
    assert!(is_earlier(&control.command(ControlCommand::Back(1))));
    assert_eq!(control.run_of(1).unwrap(), stopped);

    three.start_again();
    let up = three.run(ServerState::Up);
    assert!(stopped.is_restarted_by(up.process));
    until("the leader sees that it is back", || {
        let told = control.command(ControlCommand::Back(1));
        assert!(told.is_ok() || is_earlier(&told), "{told:?}");
        told.is_ok()
    });
    assert_eq!(control.run_of(1).unwrap(), up);
}

#[test]
fn a_server_may_be_stopped_again_once_it_is_back() {
    let mut three = Three::new();
    let mut control = three.stop();
    for _ in 0..2 {
        three.start_again();
        until("the leader sees that it is back", || {
            control.command(ControlCommand::Back(1)).is_ok()
        });
        control.command(ControlCommand::Ask(1)).unwrap();
        control.command(ControlCommand::Approve(1)).unwrap();
        soon(&mut control, ControlCommand::Stopped(1));
        assert_eq!(control.run_of(1).unwrap(), three.run(ServerState::Stopped));
    }
}

#[test]
fn a_server_is_stopped_once_it_has_let_go_of_what_is_paused() {
    let three = Three::new();
    three.nodes[0].is_deaf.store(true, Ordering::Release);
    let mut control = three.let_go();
    // It doesn't know that the shard is paused.
    assert_eq!(control.next_of_server(1).unwrap(), Next::Waits);
    let early = control.command(ControlCommand::Stopped(1));
    assert!(matches!(
        early,
        Err(Refused::Judged(CommandFault::NotAcked))
    ));
    let paused = control.record(0).unwrap().unwrap();
    let member = three.nodes[0].durable.member().unwrap();
    member.ack(0, paused.generation);
    let stopped = Next::Command(ControlCommand::Stopped(1));
    until("the leader sees that it has let go", || {
        control.next_of_server(1).unwrap() == stopped
    });
    control.command(ControlCommand::Stopped(1)).unwrap();
    assert_eq!(control.run_of(1).unwrap(), three.run(ServerState::Stopped));
}

#[test]
fn a_server_that_died_before_it_let_go_fails() {
    let three = Three::new();
    three.nodes[0].is_deaf.store(true, Ordering::Release);
    let mut control = three.let_go();
    kill(&three.nodes[0]);
    three.nodes[0].expire();
    until("the leader sees that it is gone", || {
        control.fallen().unwrap() == Some(1)
    });
    control.command(ControlCommand::Fail(1)).unwrap();
    assert_eq!(control.state_of(1).unwrap(), ServerState::Failed);
    let Next::Command(command) = control.next_of_shard(0).unwrap() else {
        panic!("its shard goes to another server");
    };
    control.command(command).unwrap();
}
