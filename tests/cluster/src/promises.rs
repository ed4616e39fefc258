//! What answers mean to their users: the order of a session, agreement, and that nothing acknowledged is lost.
ghost use Rattle.std.specs.Prelude.{◌≡◌};

use crate::holding::Holding;
use crate::running::{Running, append_of, ask, bodies_of, get_of, inc_of, setup_of, shard};
use sm_cluster::{Client, Open, Told};
use sm_desk::Command;
use sm_ownership::Change;
use sm_ranges::ServerId;
use sm_service::{Reply, Service};
use std::alloc::Global;
use std::process::Abort;
use std::sync::Wait;
use std::test::Fail;

fn is_text(reply: &Reply, text: &[u8]) -> bool {
    match reply {
        Reply::Text(held) => held.as_bytes() == text,
        _ => false,
    }
}

// The session appends the last letter of the text, and reads the text; the place of what it wrote, where that is so.
fn writes_and_reads<R: Wait + Abort>(
    rt: &R,
    alloc: Global,
    session: &mut Client<Holding>,
    text: &[u8],
) -> Option<u64>
    ensures board { session.new.pass.board ≡ session.old.pass.board }
    ensures bounds { session.new.bounds ≡ session.old.bounds }
{
    let letter = text.last().copied()?;
    let written = ask(rt, alloc, session, 1, append_of(rt, alloc, b"a", &[letter]));
    let read = ask(rt, alloc, session, 2, get_of(rt, alloc, b"a"));
    if written.place < read.place && is_text(&read.reply, text) {
        Some(written.place)
    } else {
        None
    }
}

// Takes a step of a migration of shard 0, and publishes the new owner before the old one drops the shard.
fn take_step<R: Wait + Abort>(rt: &R, running: &mut Running, step: Change) {
    let k = shard(0);
    running.command_all(rt, &[Command::Change(k, step)]);
    if step != Change::AddShard {
        return;
    }
    assert!(rt; running.cluster.publish(rt, k).is_ok());
}

// The place of what the session writes after the step, where it reads the text then.
fn place_after<R: Wait + Abort>(
    rt: &R,
    alloc: Global,
    running: &mut Running,
    step: Change,
    text: &[u8],
) -> Option<u64> {
    take_step(rt, running, step);
    writes_and_reads(rt, alloc, &mut running.first, text)
}

// A session writes and reads after each step of a migration. Its answers come in order, and each read gives all that it wrote.
#[test]
fn session_stays_in_order(rt: HostRuntime) -> Result<(), Fail> {
    let (alloc, two) = (rt.alloc(), ServerId::of(2));
    let bodies = bodies_of(alloc, 100, None)?;
    let mut running = Running::start(&rt, alloc, setup_of(alloc)?, bodies, Open);
    running.assign_both(&rt);
    assert!(rt;
        place_after(&rt, alloc, &mut running, Change::PrepareAddShard(two), b"w") == Some(0)
    );
    assert!(rt; place_after(&rt, alloc, &mut running, Change::PrepareDropShard, b"wx") == Some(2));
    assert!(rt; place_after(&rt, alloc, &mut running, Change::AddShard, b"wxy") == Some(4));
    assert!(rt; place_after(&rt, alloc, &mut running, Change::DropShard, b"wxyz") == Some(6));
    let rows = running.stop(&rt, alloc);
    assert!(rt; rows.len() == 2);
    Ok(())
}

// The count of an answer to an `inc` is that of all requests up to its place, as all are `inc` of this key.
fn is_count_of_place(told: &Told<Reply>) -> bool {
    match told.reply {
        Reply::Count(count) => u64::try_from(count) == Ok(told.place.wrapping_add(1)),
        _ => false,
    }
}

// Two clients learn each other's answers: none has the other's place, and each reply is the one of its place.
#[test]
fn answers_agree(rt: HostRuntime) -> Result<(), Fail> {
    let alloc = rt.alloc();
    let bodies = bodies_of(alloc, 100, None)?;
    let mut running = Running::start(&rt, alloc, setup_of(alloc)?, bodies, Open);
    running.assign_both(&rt);
    let request = inc_of(&rt, alloc, b"a");
    let theirs = running
        .first
        .call(&rt, alloc, 1, request)
        .ok()
        .expect(&rt, "an answer");
    let theirs = running.second.learn(theirs);
    let own = ask(&rt, alloc, &mut running.second, 2, inc_of(&rt, alloc, b"a"));
    assert!(rt; theirs.place < own.place);
    assert!(rt; is_count_of_place(&theirs) && is_count_of_place(&own));
    let rows = running.stop(&rt, alloc);
    assert!(rt; rows.len() == 2);
    Ok(())
}

// What a client learned is in the body that the stop gives.
#[test]
fn nothing_learned_is_lost(rt: HostRuntime) -> Result<(), Fail> {
    let alloc = rt.alloc();
    let bodies = bodies_of(alloc, 100, None)?;
    let mut running = Running::start(&rt, alloc, setup_of(alloc)?, bodies, Open);
    running.assign_both(&rt);
    let written = append_of(&rt, alloc, b"a", b"kept");
    let told = ask(&rt, alloc, &mut running.first, 1, written);
    assert!(rt; told.place == 0);
    let mut rows = running.stop(&rt, alloc);
    assert!(rt; rows.len() == 2);
    let (_, body) = rows.swap_remove(0);
    let mut body = body.ok_or("a body")?;
    assert!(rt; body.kept() == 1);
    let read = body.apply(get_of(&rt, alloc, b"a")).ok().ok_or("a reply")?;
    assert!(rt; is_text(&read, b"kept"));
    Ok(())
}
