//! All clients that number their requests have room in one shard, and their requests are made once.
mod common;

use common::cluster::{campaign, fail, kill, settle, Net};
use common::{add, held, led, opened, step, Told};
use durkenzo_driver::{Begin, ControlCommand, Durable, MapReply, MapRequest, NotDone, Numbered};
use durkenzo_store::{Embedded, Store, Sync};
use std::sync::Arc;
use std::thread;
use std::time::Duration;

/// How many requests each client writes under a number: as many as allowed.
const MOST: usize = Numbered::MOST_REQUESTS;

fn begin(client: u64, number: u64, requests: usize) -> Begin {
    let key = format!("count.{client}");
    let add = MapRequest::Add(key.as_bytes().into(), 1);
    Begin::Numbered(Numbered { client, number }, vec![add; requests])
}

/// Returns the answers if each client asks under this number at once.
fn told_all(durable: &Durable, number: u64) -> Vec<Told> {
    let asked = (1..=Numbered::LAST_CLIENT).map(|it| step(begin(it, number, MOST), None));
    let (steps, told): (Vec<_>, Vec<_>) = asked.unzip();
    durable.submit(0, steps);
    let patience = Duration::from_secs(60);
    let told = told.iter().map(|it| it.recv_timeout(patience));
    told.map(|it| it.expect("an answer")).collect()
}

/// Returns the answer under this number if each request was made once.
fn counted(number: u64) -> Told {
    let first = (number as i64 - 1) * MOST as i64;
    Ok((1..=MOST as i64)
        .map(|it| MapReply::Count(first + it))
        .collect())
}

fn assert_all(told: &[Told], expected: &Told) {
    assert_eq!(told.len() as u64, Numbered::LAST_CLIENT);
    let other = told.iter().position(|it| it != expected);
    assert_eq!(other.map(|it| (it + 1, &told[it])), None);
}

fn all_have_room(store: &Arc<dyn Store>) {
    let durable = Arc::new(opened(store, 1));
    let control = led(&durable);
    for number in [1, 1, 2] {
        assert_all(&told_all(&durable, number), &counted(number));
    }
    assert_all(&told_all(&durable, 1), &Err(NotDone::Passed));
    // Others have room beside them.
    for count in 1..=3 {
        assert_eq!(
            add(&durable, 0, b"plain", 1),
            Ok(vec![MapReply::Count(count)])
        );
    }
    drop(control);
    drop(durable);
    // Another process, which reads what the shard kept.
    let durable = opened(store, 1);
    assert_all(&told_all(&durable, 2), &counted(2));
    assert_all(&told_all(&durable, 1), &Err(NotDone::Passed));
    assert_all(&told_all(&durable, 3), &counted(3));
}

#[test]
fn all_clients_have_room_in_a_shard_in_memory() {
    all_have_room(&(Arc::new(Embedded::in_memory()) as Arc<dyn Store>));
}

#[test]
fn all_clients_have_room_in_a_shard_in_a_folder() {
    let folder = std::env::temp_dir().join(format!("durkenzo-numbered-{}", std::process::id()));
    let store = Embedded::in_folder(&folder, Sync::No).expect("a store");
    all_have_room(&(Arc::new(store) as Arc<dyn Store>));
    std::fs::remove_dir_all(&folder).unwrap();
}

#[test]
fn what_is_out_of_bounds_is_refused_and_nothing_of_it_is_made() {
    let store: Arc<dyn Store> = Arc::new(Embedded::in_memory());
    let durable = Arc::new(opened(&store, 1));
    let _control = led(&durable);
    let last = Numbered::LAST_CLIENT;
    for (client, number, requests) in [
        (0, 1, 1),
        (last + 1, 1, 1),
        (last, 0, 1),
        (last, 1, MOST + 1),
    ] {
        let told = common::ask(&durable, 0, begin(client, number, requests), None);
        assert!(
            matches!(&told, Err(NotDone::NotMade(why)) if why.contains("4096")),
            "{told:?}"
        );
        let key = format!("count.{client}");
        assert_eq!(
            held(&durable, 0, key.as_bytes()),
            Ok(vec![MapReply::Nothing])
        );
    }
    assert_eq!(
        common::ask(&durable, 0, begin(last, 1, MOST), None),
        counted(1)
    );
}

#[test]
fn nothing_is_made_twice_where_the_server_of_the_shard_is_killed() {
    let store: Arc<dyn Store> = Arc::new(Embedded::in_memory());
    let nodes = Net::of_three(&store, 1);
    let mut control = campaign(&nodes[2]);
    control.command(ControlCommand::Assign(0, 1)).unwrap();
    assert_all(&told_all(&nodes[1].durable, 1), &counted(1));
    let told = thread::scope(|scope| {
        let asking = scope.spawn(|| told_all(&nodes[1].durable, 2));
        thread::sleep(Duration::from_millis(20));
        kill(&nodes[0]);
        // For a while nobody answers it.
        thread::sleep(Duration::from_millis(300));
        nodes[0].expire();
        fail(&mut control, 1);
        settle(&mut control, 0);
        asking.join().unwrap()
    });
    for it in &told {
        let is_unknown = matches!(it, Err(NotDone::Unknown(_)));
        assert!(is_unknown || *it == counted(2), "{it:?}");
    }
    let record = nodes[1].durable.standing(0).unwrap().record();
    assert_ne!(record.unwrap().owner(), Some(1));
    // Whether it was made before or not, it is made once.
    for number in [2, 2, 3] {
        for node in &nodes[1..] {
            assert_all(&told_all(&node.durable, number), &counted(number));
        }
    }
    let unknown = told.iter().filter(|it| it.is_err()).count();
    eprintln!("{unknown} clients weren't told at once");
}
