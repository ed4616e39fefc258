//! Lines and answers where memory is refused: the same call made again does its work.
use sm_ranges::ServerId;
use sm_script::{Call, LineAnswer, ParseFault, parse};
use sm_service::{Bytes, Reply, Request};
use sm_session::writing::write_long_line;
use std::alloc::Global;
use std::process::Abort;

// The call of the line, which makes one. It is read again where memory is refused.
fn call_in_two(rt: &impl Abort, alloc: Global, line: &[u8]) -> Call {
    let called = match parse(alloc, line) {
        Ok(called) => called,
        Err(fault) => {
            assert!(rt; fault == ParseFault::NoMemory);
            parse(alloc, line).ok().expect(rt, "the line")
        }
    };
    called.expect(rt, "a call")
}

// Writes the answer. Where memory is refused, nothing is written, and it is written again.
fn write_in_two(rt: &impl Abort, answer: &LineAnswer, out: &mut Vec<u8>) {
    let length = out.len();
    if answer.write_to(out).is_err() {
        assert!(rt; out.len() == length);
        assert!(rt; answer.write_to(out).is_ok());
    }
}

// Whether the call scans from this key to that one.
fn scans(call: &Call, from: &[u8], to: &[u8]) -> bool {
    match call {
        Call::Request(Request::Scan(low, high, _)) => {
            low.as_bytes() == from && high.as_bytes() == to
        }
        _ => false,
    }
}

// What the call puts is the answer to a request for it.
fn answer_of(call: Call, server: ServerId) -> Option<LineAnswer> {
    let Call::Request(Request::Put(_, text)) = call else {
        return None;
    };
    Some(LineAnswer::Executed {
        reply: Reply::Text(text),
        server,
        place: 12,
    })
}

// What is written for a line beyond the limit, written anew where memory is refused.
fn long_in_two(rt: &impl Abort, alloc: Global) -> Vec<u8> {
    let mut out = Vec::new(alloc);
    if write_long_line(b"x", &mut out).is_err() {
        out = Vec::new(alloc);
        assert!(rt; write_long_line(b"x", &mut out).is_ok());
    }
    out
}

// With each allocation refused in turn (`tools/run-tests` does it).
#[test]
fn refused_memory_changes_nothing(rt: HostRuntime) {
    let alloc = rt.alloc();
    let mut out = Vec::new(alloc);
    assert!(rt; scans(&call_in_two(&rt, alloc, b"scan a z 9"), b"a", b"z"));
    let put = call_in_two(&rt, alloc, b"put m a text of some length");
    let answer = answer_of(put, ServerId::of(3)).expect(&rt, "an answer");
    write_in_two(&rt, &answer, &mut out);
    write_in_two(&rt, &LineAnswer::Made, &mut out);
    assert!(rt; long_in_two(&rt, alloc).as_slice() == b"error LineTooLong\n".as_slice());
    assert!(rt; out.as_slice() == b"text 21:a text of some length @3#12ok".as_slice());
}
