use sm_opaque::{OpaqueMachine, is_read};
use sm_shard::StoreMachine;
use std::alloc::Global;
use std::process::Abort;

fn asked<R: Abort>(rt: &R, alloc: Global, machine: &mut OpaqueMachine, request: &[u8]) -> u64 {
    let request = Vec::from_slice(alloc, request).expect(rt, "memory");
    machine.answer(alloc, &request).expect(rt, "memory")
}

// The example of the crate's documentation.
#[test]
fn counts_two(rt: HostRuntime) {
    let mut machine = OpaqueMachine::new(rt.alloc());
    let request = Vec::from_slice(rt.alloc(), b"\x02hat").expect(&rt, "memory");
    assert!(rt; matches!(machine.answer(rt.alloc(), &request), Ok(0)));
    assert!(rt; matches!(machine.answer(rt.alloc(), &request), Ok(1)));
    let question = Vec::from_slice(rt.alloc(), b"\x01hat").expect(&rt, "memory");
    let found = machine.peek(rt.alloc(), &question).expect(&rt, "memory");
    assert!(rt; matches!(found, Some(answer) if answer.reply == 2));
}

#[test]
fn counts_no_reads(rt: HostRuntime) {
    let mut machine = OpaqueMachine::new(rt.alloc());
    assert!(rt; asked(&rt, rt.alloc(), &mut machine, b"\x01hat") == 0);
    assert!(rt; asked(&rt, rt.alloc(), &mut machine, b"") == 0);
    assert!(rt; asked(&rt, rt.alloc(), &mut machine, b"\x00\x01") == 1);
    assert!(rt; is_read(b"\x01"));
    assert!(rt; !is_read(b""));
    let change = Vec::from_slice(rt.alloc(), b"\x02").expect(&rt, "memory");
    assert!(rt; matches!(machine.peek(rt.alloc(), &change), Ok(None)));
    assert!(rt; OpaqueMachine::size_of(&change) == 1);
}

#[test]
fn saves_and_loads(rt: HostRuntime) {
    let mut machine = OpaqueMachine::new(rt.alloc());
    let _ = asked(&rt, rt.alloc(), &mut machine, b"\x02");
    let bytes = machine.save(rt.alloc()).expect(&rt, "memory");
    assert!(rt; bytes.as_slice() == b"\0\0\0\0\0\0\0\x01".as_slice());
    let loaded = OpaqueMachine::load(rt.alloc(), &bytes).expect(&rt, "memory");
    let mut again = loaded.expect(&rt, "a count");
    assert!(rt; asked(&rt, rt.alloc(), &mut again, b"\x02") == 1);
    let broken = OpaqueMachine::load(rt.alloc(), &bytes[..7]).expect(&rt, "memory");
    assert!(rt; broken.is_none());
}

// After 2^64 requests the count begins anew.
#[test]
fn counts_in_64_bits(rt: HostRuntime) {
    let bytes = [0xff, 0xff, 0xff, 0xff, 0xff, 0xff, 0xff, 0xff];
    let loaded = OpaqueMachine::load(rt.alloc(), &bytes).expect(&rt, "memory");
    let mut machine = loaded.expect(&rt, "a count");
    assert!(rt; asked(&rt, rt.alloc(), &mut machine, b"\x02") == u64::MAX);
    assert!(rt; asked(&rt, rt.alloc(), &mut machine, b"\x02") == 0);
}
