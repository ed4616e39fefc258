//! The sample service by itself.
use crate::answer::Answer;
use crate::ask::Ask;
use crate::counter::Counter;
use sm_body::Boxed;
use sm_ranges::ServerId;
use sm_ranges::key::{Key, KeyFault};
use sm_service::{ApplyFault, Bytes, CounterText, Reply, Request, Service};
use std::alloc::{AllocError, Global};
use std::process::Abort;
use std::test::Fail;

fn get_of(alloc: Global, key: &[u8]) -> Result<Request, KeyFault> {
    Ok(Request::Get(Key::new(alloc, key)?))
}

#[test]
fn answers_requests(rt: HostRuntime) -> Result<(), Fail> {
    let alloc = rt.alloc();
    let key = Key::new(alloc, b"user-17")?;
    let mut body = CounterText::new(alloc, 100);
    let put = Request::Put(key, Bytes::new(alloc, b"hello")?);
    assert_eq!(rt; CounterText::key(&put), b"user-17".as_slice());
    assert!(rt; matches!(body.apply(put), Ok(Reply::Done)));
    assert_eq!(rt; body.kept(), 1);
    Ok(())
}

// Whether this is the key of the request.
fn has_key(request: &Request, key: &[u8]) -> bool {
    CounterText::key(request) == key
}

#[test]
fn requests_have_keys(rt: HostRuntime) -> Result<(), Fail> {
    let alloc = rt.alloc();
    let get = get_of(alloc, b"\xff\xfe")?;
    assert!(rt; has_key(&get, b"\xff\xfe"));
    let inc = Ask::Inc(b"a", 1).request(alloc).ok_or("an increment")?;
    assert!(rt; has_key(&inc, b"a"));
    Ok(())
}

// A limit of 1, as generic code meets it: a refused request comes back.
#[test]
fn hands_back_above_the_limit(rt: HostRuntime) -> Result<(), Fail> {
    let alloc = rt.alloc();
    let mut body = CounterText::new(alloc, 1);
    for request in [get_of(alloc, b"a")?, get_of(alloc, b"b")?] {
        match body.apply(request) {
            Ok(reply) => assert!(rt; matches!(reply, Reply::Nothing)),
            Err((request, fault)) => {
                assert_eq!(rt; fault, ApplyFault::KeptFull);
                assert_eq!(rt; CounterText::key(&request), b"b".as_slice());
            }
        }
    }
    Ok(())
}

// How many requests a body keeps that applied this one behind a pointer.
fn kept_boxed<S: Service>(
    alloc: Global,
    body: S,
    request: S::Request,
) -> Result<usize, AllocError> {
    let mut boxed = Boxed::new(alloc, body)?;
    let _ = boxed.apply(request).is_ok();
    Ok(boxed.kept())
}

#[test]
fn boxed_body_applies(rt: HostRuntime) -> Result<(), Fail> {
    let alloc = rt.alloc();
    let kept = kept_boxed(alloc, CounterText::new(alloc, 1), get_of(alloc, b"a")?)?;
    assert_eq!(rt; kept, 1);
    Ok(())
}

// A text of so many bytes, which are alike.
fn text_of<R: Abort>(rt: &R, alloc: Global, byte: u8, length: usize) -> Vec<u8> {
    vec![in alloc; byte; length].ok().expect(rt, "memory")
}

// The first bytes of a text, at most so many.
fn front(text: &[u8], count: usize) -> &[u8] {
    &text[..count.min(text.len())]
}

// A text over an older one, an empty text, keys that begin alike, bytes that are not UTF-8.
#[test]
fn puts_and_gets(rt: HostRuntime) {
    let mut counter = Counter::new(rt.alloc(), 100);
    assert!(rt; counter.answers(Ask::Get(b"m"), Answer::Nothing));
    let pairs: [(&[u8], &[u8]); 6] = [
        (b"m", b"hello"),
        (b"mm", b"longer"),
        (b"m\0", b"zero"),
        (b"m", b""),
        (b"\xff\xfe", b"\x80 \xff"),
        (b"a", b"first"),
    ];
    for (key, text) in pairs {
        assert!(rt; counter.answers(Ask::Put(key, text), Answer::Done));
        assert!(rt; counter.answers(Ask::Get(key), Answer::Text(text)));
    }
    let held: [(&[u8], &[u8]); 3] = [(b"mm", b"longer"), (b"m\0", b"zero"), (b"m", b"")];
    for (key, text) in held {
        assert!(rt; counter.answers(Ask::Get(key), Answer::Text(text)));
    }
    assert!(rt; counter.kept() == 16);
}

#[test]
fn keeps_up_to_the_limit(rt: HostRuntime) {
    let mut counter = Counter::new(rt.alloc(), 2);
    let cases = [
        (Ask::Put(b"a", b"x"), Answer::Done),
        (Ask::Get(b"a"), Answer::Text(b"x")),
        (Ask::Get(b"a"), Answer::Refused(ApplyFault::KeptFull)),
    ];
    counter.answers_all(&rt, &cases);
    assert!(rt; counter.kept() == 2);
}

// A text of 4,096 bytes with room for so many.
fn roomy<R: Abort>(rt: &R, alloc: Global, capacity: usize) -> Bytes {
    let mut roomy = Vec::with_capacity(alloc, capacity)
        .ok()
        .expect(rt, "memory");
    let text = text_of(rt, alloc, b'x', 4_096);
    assert!(*rt; roomy.extend_from_slice(&text).is_ok());
    Bytes::from(roomy)
}

// A text with much spare room is copied, and one with less keeps its memory: both read the same.
#[test]
fn holds_texts_with_spare_room(rt: HostRuntime) {
    let alloc = rt.alloc();
    let mut counter = Counter::new(alloc, 10);
    let text = text_of(&rt, alloc, b'x', 4_096);
    let cases: [(&[u8], usize); 4] = [(b"a", 4_096), (b"b", 8_192), (b"c", 8_193), (b"b", 8_193)];
    for (key, capacity) in cases {
        assert!(rt; counter.puts(key, roomy(&rt, alloc, capacity)));
        assert!(rt; counter.answers(Ask::Get(key), Answer::Text(&text)));
    }
    assert!(rt; counter.dead() == 4_096);
}

#[test]
fn holds_texts_up_to_the_longest(rt: HostRuntime) {
    let alloc = rt.alloc();
    let mut counter = Counter::new(alloc, 10);
    let longest = text_of(&rt, alloc, b'x', 65_535);
    let longer = text_of(&rt, alloc, b'y', 65_536);
    assert!(rt; counter.answers(Ask::Put(b"k", &longest), Answer::Done));
    assert!(rt; counter.answers(Ask::Get(b"k"), Answer::Text(&longest)));
    assert!(rt; counter.answers(Ask::Put(b"k", &longer), Answer::TooLong));
    assert!(rt; counter.answers(Ask::Get(b"k"), Answer::Text(&longest)));
    assert!(rt; counter.kept() == 4);
}

#[test]
fn replies_to_counts(rt: HostRuntime) {
    let alloc = rt.alloc();
    let mut counter = Counter::new(alloc, 10);
    let longer = text_of(&rt, alloc, b'y', 65_536);
    let cases = [
        (Ask::Inc(b"a", -7), Answer::Count(-7)),
        (Ask::Put(b"a", b"x"), Answer::WrongKind),
        (Ask::Put(b"a", &longer), Answer::WrongKind),
        (Ask::Get(b"a"), Answer::Count(-7)),
    ];
    counter.answers_all(&rt, &cases);
    assert!(rt; counter.kept() == 4);
}

#[test]
fn counts_up_to_64_bits(rt: HostRuntime) {
    let mut counter = Counter::new(rt.alloc(), 100);
    let cases = [
        (Ask::Inc(b"a", i64::MAX), Answer::Count(i64::MAX)),
        (Ask::Inc(b"a", 1), Answer::Overflow),
        (Ask::Get(b"a"), Answer::Count(i64::MAX)),
        (Ask::Inc(b"b", i64::MIN), Answer::Count(i64::MIN)),
    ];
    counter.answers_all(&rt, &cases);
    assert!(rt; counter.kept() == 4);
}

#[test]
fn increments_no_text(rt: HostRuntime) {
    let cases = [
        (Ask::Put(b"a", b"1"), Answer::Done),
        (Ask::Get(b"a"), Answer::Text(b"1")),
        (Ask::Inc(b"a", 1), Answer::WrongKind),
        (Ask::Get(b"a"), Answer::Text(b"1")),
    ];
    Counter::new(rt.alloc(), 100).answers_all(&rt, &cases);
}

#[test]
fn scans_at_most_a_hundred_pairs(rt: HostRuntime) {
    let mut counter = Counter::new(rt.alloc(), 200);
    for last in 0..102 {
        assert!(rt; counter.answers(Ask::Inc(&[b'k', last], 1), Answer::Count(1)));
    }
    let cases = [
        (Ask::Scan(b"k", b"l", 0), Answer::Pairs(0)),
        (Ask::Scan(b"k", b"l", 1), Answer::Pairs(1)),
        (Ask::Scan(b"k", b"l", 100), Answer::Pairs(100)),
        (Ask::Scan(b"k", b"l", 101), Answer::Pairs(100)),
        (Ask::Scan(b"k", b"l", u32::MAX), Answer::Pairs(100)),
        (Ask::Scan(b"k\x40", b"l", 101), Answer::Pairs(38)),
    ];
    counter.answers_all(&rt, &cases);
}

#[test]
fn scans_from_low_on_and_below_high(rt: HostRuntime) {
    let mut counter = Counter::new(rt.alloc(), 20);
    for key in [b"b", b"c", b"d"] {
        assert!(rt; counter.answers(Ask::Put(key, b""), Answer::Done));
        assert!(rt; counter.answers(Ask::Get(key), Answer::Text(b"")));
    }
    let cases = [
        (Ask::Scan(b"a", b"z", 9), Answer::Pairs(3)),
        (Ask::Scan(b"b", b"d", 9), Answer::Pairs(2)),
        (Ask::Scan(b"b\0", b"d\0", 9), Answer::Pairs(2)),
        (Ask::Scan(b"c", b"c", 9), Answer::Pairs(0)),
        (Ask::Scan(b"d", b"b", 9), Answer::Pairs(0)),
        (Ask::Scan(b"e", b"z", 9), Answer::Pairs(0)),
    ];
    counter.answers_all(&rt, &cases);
    assert!(rt; counter.kept() == 12);
}

// A key of 255 bytes, and one that begins like it.
#[test]
fn takes_the_longest_keys(rt: HostRuntime) {
    let longest = text_of(&rt, rt.alloc(), b'k', 255);
    let key = longest.as_slice();
    let begins = front(key, 254);
    let cases = [
        (Ask::Put(key, b"x"), Answer::Done),
        (Ask::Get(key), Answer::Text(b"x")),
        (Ask::Inc(begins, 5), Answer::Count(5)),
        (Ask::Append(key, b"y"), Answer::Done),
        (Ask::Get(key), Answer::Text(b"xy")),
        (Ask::Scan(begins, key, 9), Answer::Pairs(1)),
        (Ask::Del(key), Answer::Done),
        (Ask::Scan(b"k", b"l", 9), Answer::Pairs(1)),
    ];
    Counter::new(rt.alloc(), 20).answers_all(&rt, &cases);
}

// Up to 65,535 bytes; what is refused changes nothing.
#[test]
fn appends_up_to_the_longest(rt: HostRuntime) {
    let alloc = rt.alloc();
    let mut counter = Counter::new(alloc, 20);
    let longest = text_of(&rt, alloc, b'x', 65_535);
    for (tail, length) in [(0, 0), (65_534, 65_534), (1, 65_535), (0, 65_535)] {
        let (tail, text) = (front(&longest, tail), front(&longest, length));
        assert!(rt; counter.answers(Ask::Append(b"k", tail), Answer::Done));
        assert!(rt; counter.answers(Ask::Get(b"k"), Answer::Text(text)));
    }
    assert!(rt; counter.answers(Ask::Append(b"k", b"x"), Answer::TooLong));
    assert!(rt; counter.answers(Ask::Get(b"k"), Answer::Text(&longest)));
}

#[test]
fn appends_to_no_count(rt: HostRuntime) {
    let longer = text_of(&rt, rt.alloc(), b'y', 65_536);
    let cases = [
        (Ask::Append(b"a", &longer), Answer::TooLong),
        (Ask::Del(b"a"), Answer::Nothing),
        (Ask::Inc(b"a", 1), Answer::Count(1)),
        (Ask::Append(b"a", b"x"), Answer::WrongKind),
        (Ask::Append(b"a", &longer), Answer::WrongKind),
        (Ask::Get(b"a"), Answer::Count(1)),
    ];
    Counter::new(rt.alloc(), 20).answers_all(&rt, &cases);
}

// A text that is appended to nothing, and then deleted, leaves itself and its key dead.
#[test]
fn appends_in_bounded_memory(rt: HostRuntime) {
    let alloc = rt.alloc();
    let mut counter = Counter::new(alloc, 20);
    let long = text_of(&rt, alloc, b'x', 40_000);
    for dead in [0, 40_001, 0, 40_001] {
        assert!(rt; counter.answers(Ask::Append(b"k", &long), Answer::Done));
        assert!(rt; counter.dead() == dead);
        assert!(rt; counter.answers(Ask::Del(b"k"), Answer::Done));
    }
}

// A count that is deleted leaves its key dead.
#[test]
fn counts_in_bounded_memory(rt: HostRuntime) {
    let alloc = rt.alloc();
    let mut counter = Counter::new(alloc, 1_000);
    let longest = text_of(&rt, alloc, b'k', 255);
    for _ in 0..300 {
        assert!(rt; counter.answers(Ask::Inc(&longest, 1), Answer::Count(1)));
        assert!(rt; counter.dead() <= 65_536);
        assert!(rt; counter.answers(Ask::Del(&longest), Answer::Done));
    }
}

// With each allocation refused in turn (`tools/run-tests` does it), the answers stay the same, be the body moved into fresh memory
// or not.
#[test]
fn hands_back_what_memory_refuses(rt: HostRuntime) {
    let mut counter = Counter::new(rt.alloc(), 9);
    let asked = [
        (Ask::Put(b"b", b"one"), Answer::Done),
        (Ask::Put(b"a", b"two"), Answer::Done),
        (Ask::Put(b"b", b"three"), Answer::Done),
        (Ask::Append(b"a", b" more"), Answer::Done),
        (Ask::Inc(b"c", 3), Answer::Count(3)),
        (Ask::Scan(b"a", b"d", 9), Answer::Pairs(3)),
    ];
    for (ask, answer) in asked {
        assert!(rt; counter.answers_in_two(&rt, ask, answer));
    }
    counter.settle(ServerId::of(1));
    assert!(rt; counter.answers_in_two(&rt, Ask::Get(b"a"), Answer::Text(b"two more")));
    assert!(rt; counter.answers_in_two(&rt, Ask::Del(b"a"), Answer::Done));
    assert!(rt; counter.answers_in_two(&rt, Ask::Get(b"b"), Answer::Text(b"three")));
    assert!(rt; counter.kept() == 9);
}

// With each allocation refused in turn (`tools/run-tests` does it). A body whose move is refused keeps its old memory, the
// bytes that are dead there, and its answers. The next settling moves it.
#[test]
fn adoption_that_memory_refuses(rt: HostRuntime) {
    let mut counter = Counter::new(rt.alloc(), 9);
    counter.settle(ServerId::of(1));
    for text in [b"x".as_slice(), b"yy".as_slice()] {
        assert!(rt; counter.answers_in_two(&rt, Ask::Put(b"a", text), Answer::Done));
    }
    let dead = counter.dead();
    assert!(rt; dead >= 1);
    counter.settle(ServerId::of(1));
    assert!(rt; counter.dead() == dead);
    counter.settle(ServerId::of(2));
    assert!(rt; counter.dead() == 0 || counter.dead() == dead);
    assert!(rt; counter.answers_in_two(&rt, Ask::Get(b"a"), Answer::Text(b"yy")));
    assert!(rt; counter.kept() == 3);
    counter.settle(ServerId::of(2));
    assert!(rt; counter.dead() == 0);
}
