//! What one pass tells another by a note.
ghost use Rattle.std.specs.Arc.{arc_value};
ghost use Rattle.std.specs.Prelude.{◌≡◌, ◌<◌};

use crate::calls::first_shard;
use crate::rule::{alone, left, owned, put, serving};
use crossbeam_channel::Receiver;
use sm_ownership::change::Change;
use sm_ownership::record::Record;
use sm_ranges::{ServerId, ShardId};
use sm_rule::{Board, Note, Pass};
use sm_service::{CounterText, Service};
use std::alloc::Global;
use std::process::Abort;
use std::sync::{Arc, Wait};
use std::thread;

// What a new pass without a server sees of the shard, once it has met the note.
pub(crate) fn record_told<S: Service>(board: &Board<S>, note: Note<S>, k: ShardId) -> Record
    requires note { note.board ≡ board.now }
    requires shard { k < board.now.limits.count }
{
    let mut reader = board.pass(None);
    board.meet(&mut reader, note);
    board.look(&mut reader, k)
}

// An admission and its end are told by a note.
#[test]
fn note_is_met(rt: HostRuntime) {
    let mut fixture = owned(&rt, rt.alloc(), 1_000);
    assert!(rt; fixture.generation_left() == Some(3));
    fixture.go_on_as_told();
    assert!(rt; fixture.look() == serving(ServerId::of(1), false, 3));
    assert!(rt; fixture.end() == Some(left(3, 0)));
}

#[test]
fn chair_note_is_met(rt: HostRuntime) {
    let owner = ServerId::of(1);
    let mut fixture = alone(&rt, rt.alloc(), 3);
    assert!(rt; fixture.change(Change::Assign(owner)));
    assert!(rt; fixture.told_by_chair() == serving(owner, false, 1));
}

// A pass that is split from another has its server, and is admitted in its own right.
#[test]
fn split_pass_is_admitted(rt: HostRuntime) {
    let owner = ServerId::of(1);
    let mut fixture = owned(&rt, rt.alloc(), 1_000);
    fixture.go_on_split();
    assert!(rt; fixture.server() == Some(owner));
    assert!(rt; fixture.generation_left() == Some(3));
    assert!(rt; fixture.told_at_last() == serving(owner, false, 3));
}

// A note on its way to another thread, with its board.
#[derive(Drop)]
struct Letter {
    board: Arc<Board<CounterText>>,
    note: Note<CounterText>,
    ghost tied: { note.board ≡ arc_value board },
}

impl Letter {
    // What the note tells of the shard; none where the board has no such shard.
    fn record(self, k: ShardId) -> Option<Record> {
        let Letter { board, note } = self;
        if u32::from(k.number()) >= board.count() {
            return None;
        }
        Some(record_told(&board, note, k))
    }
}

// A letter that tells what the pass has seen.
fn letter_of<R: Abort>(
    rt: &R,
    alloc: Global,
    board: Board<CounterText>,
    mut pass: Pass<CounterText>,
) -> Letter
    requires { pass.board ≡ board }
{
    let note = board.note(&mut pass);
    Letter {
        board: Arc::new(alloc, board).ok().expect(rt, "memory"),
        note,
    }
}

// What the first letter tells of the shard; none where no letter comes.
fn first_record(rt: &impl Wait, letters: Receiver<Letter>, k: ShardId) -> Option<Record> {
    match letters.recv(rt) {
        Ok(letter) => letter.record(k),
        Err(_) => None,
    }
}

// What a pass did is told to a pass of another thread.
#[test]
fn note_reaches_another_thread(rt: HostRuntime) {
    let k = first_shard();
    let mut fixture = owned(&rt, rt.alloc(), 1_000);
    assert!(rt; put(&mut fixture, rt.alloc()).is_some());
    let (board, _, pass) = fixture.parts();
    let letter = letter_of(&rt, rt.alloc(), board, pass);
    let (to, from) = crossbeam_channel::unbounded(rt.alloc())
        .ok()
        .expect(&rt, "a channel");
    let reader = thread::spawn(&rt, move || first_record(&rt, from, k))
        .ok()
        .expect(&rt, "a thread");
    assert!(rt; to.send(&rt, letter).is_ok());
    assert!(rt; reader.join(&rt) == Some(serving(ServerId::of(1), false, 3)));
}
