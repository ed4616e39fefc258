//! Settings that change while several processes use them.
mod common;

use common::cluster::{assign, campaign, fail, kill, settle, soon, Net, Node};
use common::line_of;
use durkenzo_driver::{keys, ControlCommand, DurableControl, Refused, ServerState};
use durkenzo_store::{Embedded, Store, Transaction};
use std::sync::Arc;

const SHARDS: u16 = 3;
/// The host's part before the line.
const HOST: &str = "hash\n";

/// Starts three processes over a store with their settings. Each has a shard.
fn three() -> (Arc<dyn Store>, Vec<Node>, DurableControl) {
    let store: Arc<dyn Store> = Arc::new(Embedded::in_memory());
    let first = format!("{HOST}{}", line_of(SHARDS, 3));
    store
        .make(Transaction::new().put(keys::SETTINGS, first))
        .unwrap();
    let net = Arc::new(Net::default());
    let start = |it| net.start(&store, it, SHARDS, |line| Arc::new(line));
    let nodes: Vec<_> = (1..=3).map(start).collect();
    let mut control = campaign(&nodes[0]);
    assign(&mut control, SHARDS);
    (store, nodes, control)
}

/// Returns the settings in the store.
fn stored(store: &Arc<dyn Store>) -> String {
    let reading = store.read(&[keys::SETTINGS]).unwrap();
    String::from_utf8(reading.get(keys::SETTINGS).unwrap().value.clone()).unwrap()
}

#[test]
fn a_server_comes_and_gets_a_shard() {
    let (store, nodes, mut control) = three();
    let four = line_of(SHARDS, 4);
    let before = control.settings().unwrap().1;
    control.resettle(&four).unwrap();
    assert_eq!(stored(&store), format!("{HOST}{four}"));
    assert_eq!(control.servers(), 4);
    let (line, number) = control.settings().unwrap();
    assert!(line == four && number > before);
    let net = Arc::new(Net::default());
    let fourth = net.start(&store, 4, SHARDS, |line| Arc::new(line));
    control
        .command(ControlCommand::PrepareAddShard(0, 4))
        .unwrap();
    settle(&mut control, 0);
    assert_eq!(control.record(0).unwrap().unwrap().owner(), Some(4));
    // The same settings again are no change.
    control.resettle(&four).unwrap();
    assert_eq!(control.settings().unwrap().1, number);
    drop((nodes, fourth));
}

#[test]
fn ends_of_lines_in_settings_are_spaces() {
    let (store, nodes, mut control) = three();
    let four = line_of(SHARDS, 4).replacen(',', ",\r\n", 1);
    control.resettle(&format!("{four}\n")).unwrap();
    assert_eq!(stored(&store).matches('\n').count(), 1);
    assert_eq!(control.servers(), 4);
    drop(control);
    kill(&nodes[0]);
    nodes[0].expire();
    assert_eq!(campaign(&nodes[1]).servers(), 4);
}

#[test]
fn the_first_control_writes_its_settings() {
    let store: Arc<dyn Store> = Arc::new(Embedded::in_memory());
    let net = Arc::new(Net::default());
    let node = net.start(&store, 1, SHARDS, |line| Arc::new(line));
    let control = campaign(&node);
    assert_eq!(stored(&store), line_of(SHARDS, 3));
    drop(control);
}

#[test]
fn the_next_leader_goes_by_the_settings_in_force() {
    let (_store, nodes, mut control) = three();
    control.resettle(&line_of(SHARDS, 4)).unwrap();
    drop(control);
    kill(&nodes[0]);
    nodes[0].expire();
    // It begins with the settings with which it was started.
    let control = campaign(&nodes[1]);
    assert_eq!(control.servers(), 4);
}

#[test]
fn a_server_that_is_in_use_stays() {
    let (store, nodes, mut control) = three();
    let (two, before) = (line_of(SHARDS, 2), stored(&store));
    let told = control.resettle(&two);
    assert!(matches!(told, Err(Refused::Unkept)), "{told:?}");
    control
        .command(ControlCommand::PrepareAddShard(2, 1))
        .unwrap();
    settle(&mut control, 2);
    let told = control.resettle(&two);
    assert!(matches!(told, Err(Refused::InUse(3))), "{told:?}");
    assert_eq!(stored(&store), before);
    kill(&nodes[2]);
    nodes[2].expire();
    fail(&mut control, 3);
    control.resettle(&two).unwrap();
    assert_eq!(
        (control.servers(), stored(&store)),
        (2, format!("{HOST}{two}"))
    );
    // Nobody makes it fail once more, and no shard goes there.
    assert_eq!(control.fallen().unwrap(), None);
    control
        .command(ControlCommand::PrepareAddShard(2, 3))
        .unwrap_err();
}

#[test]
fn a_server_that_stopped_may_be_taken_out() {
    let (_store, _nodes, mut control) = three();
    control
        .command(ControlCommand::PrepareAddShard(2, 1))
        .unwrap();
    settle(&mut control, 2);
    control.command(ControlCommand::Ask(3)).unwrap();
    control.command(ControlCommand::Approve(3)).unwrap();
    let told = control.resettle(&line_of(SHARDS, 2));
    assert!(matches!(told, Err(Refused::InUse(3))), "{told:?}");
    soon(&mut control, ControlCommand::Stopped(3));
    assert_eq!(control.state_of(3).unwrap(), ServerState::Stopped);
    control.resettle(&line_of(SHARDS, 2)).unwrap();
}

#[test]
fn what_stays_and_what_stands_refuse_settings() {
    let (store, _nodes, mut control) = three();
    let before = stored(&store);
    let told = control.resettle(&line_of(SHARDS + 1, 3));
    assert!(matches!(told, Err(Refused::OtherShards)), "{told:?}");
    let told = control.resettle("{}");
    assert!(matches!(told, Err(Refused::BadSettings(_))), "{told:?}");
    let higher = line_of(SHARDS, 3).replace("9999999", "99999999");
    let told = control.resettle(&higher);
    assert!(matches!(told, Err(Refused::OtherCeiling)), "{told:?}");
    // The server has a shard of load 1.
    let none = line_of(SHARDS, 3).replacen("\"capacity\":99", "\"capacity\":0", 1);
    let told = control.resettle(&none);
    assert!(matches!(told, Err(Refused::Unkept)), "{told:?}");
    assert_eq!(stored(&store), before);
    control
        .command(ControlCommand::PrepareAddShard(0, 2))
        .unwrap();
}

#[test]
fn a_late_command_of_other_settings_is_not_made() {
    let (store, nodes, control) = three();
    drop(control);
    kill(&nodes[0]);
    nodes[0].expire();
    // It goes on although another process leads by now, with other settings.
    let mut old = campaign(&nodes[1]);
    nodes[1].expire();
    let mut control = campaign(&nodes[2]);
    control.resettle(&line_of(SHARDS, 4)).unwrap();
    let told = old.resettle(&line_of(SHARDS, 5));
    assert!(matches!(told, Err(Refused::NotLeader)), "{told:?}");
    assert_eq!(stored(&store), format!("{HOST}{}", line_of(SHARDS, 4)));
}
