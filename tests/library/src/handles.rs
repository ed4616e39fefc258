//! Handles as a caller in C keeps them.
use sm_desk::Command;
use sm_foreign::Fence;
use sm_handle::{ActFault, Handle};
use sm_ownership::change::Change;
use sm_ownership::mode::Mode;
use sm_ranges::{ServerId, ShardId};
use std::alloc::Global;

// Shard 1, of the board of two that the control's handle keeps from now on: server 1 owns it, and has the pass.
fn open(alloc: Global, chief: &mut Handle, pass: &mut Handle) -> Option<ShardId> {
    let (one, k) = (ServerId::of(1), ShardId::new(1)?);
    let assign = Command::Change(k, Change::Assign(one));
    let done = chief
        .open(alloc, &[70, 80], 2, 1, 100, Fence::first())
        .is_ok()
        && chief.command(assign).is_ok()
        && pass.pass(alloc, chief, Some(one)).is_ok();
    if done { Some(k) } else { None }
}

#[test]
fn admits_and_finishes(rt: HostRuntime) {
    let (alloc, one) = (rt.alloc(), ServerId::of(1));
    let Some(k) = ShardId::new(1) else {
        unreachable!()
    };
    let assign = Command::Change(k, Change::Assign(one));
    let (mut chief, mut pass) = (Handle::new(alloc), Handle::new(alloc));
    assert!(rt; matches!(pass.admit(k, Mode::Direct), Err(ActFault::WrongHandle)));
    let fence = Fence::first();
    assert!(rt; chief.open(alloc, &[70, 80], 2, 1, 100, fence).is_ok());
    assert!(rt; chief.command(assign).is_ok());
    assert!(rt; pass.pass(alloc, &mut chief, Some(one)).is_ok());
    assert!(rt; matches!(pass.admit(k, Mode::Direct), Ok(80)));
    assert!(rt; matches!(pass.finish(), Ok(3)));
    assert!(rt; matches!(pass.finish(), Err(ActFault::WrongHandle)));
    pass.close(alloc);
    chief.close(alloc);
}

#[test]
fn tokens_are_above_the_fence(rt: HostRuntime) {
    let (alloc, one) = (rt.alloc(), ServerId::of(1));
    let (Some(k), Some(fence)) = (ShardId::new(1), Fence::new(500)) else {
        unreachable!()
    };
    let assign = Command::Change(k, Change::Assign(one));
    let (mut chief, mut pass) = (Handle::new(alloc), Handle::new(alloc));
    assert!(rt; chief.open(alloc, &[70, 80], 2, 1, 100, fence).is_ok());
    assert!(rt; chief.command(assign).is_ok());
    assert!(rt; pass.pass(alloc, &mut chief, Some(one)).is_ok());
    assert!(rt; matches!(pass.token(), Err(ActFault::WrongHandle)));
    assert!(rt; matches!(pass.admit(k, Mode::Direct), Ok(80)));
    assert!(rt; matches!(pass.token(), Ok(502)));
    pass.close(alloc);
    chief.close(alloc);
}

#[test]
fn close_ends_an_admission(rt: HostRuntime) {
    let alloc = rt.alloc();
    let (mut chief, mut pass) = (Handle::new(alloc), Handle::new(alloc));
    let Some(k) = open(alloc, &mut chief, &mut pass) else {
        unreachable!()
    };
    assert!(rt; matches!(pass.admit(k, Mode::Direct), Ok(80)));
    pass.close(alloc);
    assert!(rt; matches!(pass.admit(k, Mode::Direct), Err(ActFault::WrongHandle)));
    assert!(rt; pass.pass(alloc, &mut chief, Some(ServerId::of(1))).is_ok());
    assert!(rt; matches!(pass.admit(k, Mode::Direct), Ok(80)));
    assert!(rt; matches!(pass.finish(), Ok(5)));
    pass.close(alloc);
    chief.close(alloc);
}
